"""The toolchain's command `rt` as a module, whose libraries hold their statements and not their proofs.

What stands on such a library loads little. But it fits only the very files of the libraries below that it was made
over, so it stands in a folder of its own, `out/statements` of its crate, where `rt` itself does not look, beside what
it was made of: which toolchain made it and which handles were allowed, its stamp, which is a sum of all sources, and a
sum of each library below.

A crate is held to what the gate holds it to: its text before it is proved, and what the prover says of it.

For a stamp `rt` goes along each way from a crate down to another: from `ot_top` there are more than 30,000, and some
kits ask for the stamps of all that stands below a crate, several times, before they check anything there. Here a stamp
looks at each library once.
"""
import importlib.machinery
import importlib.util
import os
import re
import shutil
import subprocess
import sys
import tempfile
import threading

TOP = os.path.dirname(os.path.dirname(os.path.abspath(__file__)))
# What a check may take, in bytes, and what all together may write while they run.
MEMORY = 3_000_000_000
ROOM = 6_000_000_000


def free_memory():
    """How many bytes of memory are free."""
    with open("/proc/meminfo", encoding="utf-8") as told:
        return 1024 * int(re.search(r"MemAvailable:\s+(\d+)", told.read())[1])


def lanes():
    """How many checks may run side by side: as many as there are processors, and memory for."""
    return max(1, min(len(os.sched_getaffinity(0)), free_memory() // MEMORY))


def room():
    """The folder of what checks write while they run: each of them some thousand small files, which it reads again. That
    is the one in memory, where there is room and programs may run; it takes a tenth of their time."""
    told, usual = "/dev/shm", tempfile.gettempdir()
    if "TMPDIR" in os.environ or not os.access(told, os.W_OK | os.X_OK):
        return usual
    found = os.statvfs(told)
    has_room = min(found.f_bavail * found.f_frsize, free_memory()) >= ROOM
    return told if has_room and not found.f_flag & os.ST_NOEXEC else usual


def looking_once(stamp):
    """The same stamp of a crate, for which what stands below it is looked at once."""
    under_way = threading.local()

    def stamp_of(crate):
        if hasattr(under_way, "found"):
            if crate not in under_way.found:
                under_way.found[crate] = stamp(crate)
            return under_way.found[crate]
        under_way.found = {}
        try:
            return stamp(crate)
        finally:
            del under_way.found

    return stamp_of


def stop_at_text(rt, crate):
    """Stops at a text that the gate refuses before it proves anything."""
    rt.rtlib.stop_on_links(crate.folder)
    rt.rtlib.stop_on_text(crate, "verdict")
    rt.stop_on_words(crate)
    code = rt.rtlib.code_of(crate.folder)
    for handle, words in rt.REACHES.items():
        if handle not in crate.allowed and re.search(words, code):
            rt.rtlib.stop(f"{crate.name} names what only the handle {handle} reaches, and HANDLES does not allow it")
    if re.search(rt.RENAMES, code):
        rt.rtlib.stop(f"{crate.name} renames std, or takes it whole: name what it uses of std by its path")
    if re.search(rt.IGNORED, code):
        rt.rtlib.stop(f"{crate.name} has a test under #[ignore], which nothing would run: remove one of them")
    if rt.rtlib.fmt(crate.folder, "--check", crate.out):
        rt.rtlib.stop(f"{crate.name} is not in the layout: run rt fmt in its folder")


def held_to_the_gate(rt, crate, proved):
    """The status of a call that proves a crate, once its text passes too. No flag of a command lets anything pass."""
    crate.may_hide = crate.may_have_bugs = crate.may_be_empty = crate.may_call_c = crate.may_expand = False
    stop_at_text(rt, crate)
    return proved()


def with_statements(rt):
    """Has libraries stand in `out/statements`, made over those that stand there, and held to what the gate asks."""
    rtlib, made_by = rt.rtlib, told_by("rt", "version")
    begin = rtlib.Crate.__init__

    def folder_of(crate):
        return os.path.join(crate.folder, "out/statements")

    def made_of(crate):
        # The file `format` of a library holds a sum of its other files.
        below = [(it.name, rtlib.sum_of(os.path.join(it.rlib, "format"))) for it in crate.below()]
        return repr((made_by, crate.allowed, crate.stamp(), below))

    def begin_crate(crate, *given, **named):
        begin(crate, *given, **named)
        crate.rlib = os.path.join(folder_of(crate), f"{crate.name}.rlib")

    def is_built(crate):
        return os.path.isdir(crate.rlib) and rtlib.text_of(os.path.join(folder_of(crate), "made_of")) == made_of(crate)

    def note(crate):
        with open(os.path.join(folder_of(crate), "made_of"), "w", encoding="utf-8") as kept:
            kept.write(made_of(crate))

    def build_rlib(crate, flags, anew):
        """Proves a library and builds it. The status is 0 if it is built, and what it was made of stood still."""
        if not anew and is_built(crate):
            return 0
        before = made_of(crate), rt.touched(crate)
        shutil.rmtree(folder_of(crate), ignore_errors=True)
        os.makedirs(folder_of(crate))
        words = crate.words([*flags, "--statements", "-o", crate.rlib], keeps=False)
        if status := held_to_the_gate(rt, crate, lambda: crate.prove(["build", *words])):
            return status
        if (made_of(crate), rt.touched(crate)) != before:
            print(f"{crate.name} was changed while it was proved", file=crate.out)
            return 1
        note(crate)
        return 0

    def take(crate, rlib):
        """Takes a library as built that the gate made of what stands there now, over those that are built here."""
        shutil.rmtree(folder_of(crate), ignore_errors=True)
        shutil.copytree(rlib, crate.rlib, copy_function=rt.link_or_copy)
        note(crate)

    rtlib.Crate.__init__, rtlib.Crate.is_built, rtlib.Crate.build_rlib = begin_crate, is_built, build_rlib
    rtlib.Crate.take = take


# What is used of the module `rt`, of `rtlib` in it, and of the crates there.
USED = ("Crate", "IGNORED", "REACHES", "RENAMES", "handles_of", "link_or_copy", "main", "rtlib", "stop_on_words",
        "touched")
USED_OF_LIBRARIES = ("Crate", "code_of", "crates_below", "fmt", "guarded", "lock", "stop", "stop_on_links",
                     "stop_on_text", "sum_of", "text_of")
USED_OF_CRATES = ("below", "build_rlib", "ci", "compile_by", "count", "is_built", "prove", "stamp", "words")


def told_by(*words):
    """What a command prints."""
    return subprocess.run(words, stdout=subprocess.PIPE, text=True, check=True).stdout.strip()


def loaded(name):
    """The file of this name in the toolchain's folder of programs, as a module."""
    # Nothing is written beside the toolchain.
    sys.dont_write_bytecode = True
    place = os.path.join(os.path.dirname(told_by("rt", "doc")), "bin", name)
    loader = importlib.machinery.SourceFileLoader(name, place)
    module = importlib.util.module_from_spec(importlib.util.spec_from_loader(name, loader))
    loader.exec_module(module)
    return module


def load():
    """The module. In it `rtlib` has the crates, as the gate has them, over libraries that hold their statements.

    An `AttributeError` or an `OSError` says that this toolchain's `rt` is made otherwise.
    """
    rt = loaded("rt")
    for owner, names in ((rt, USED), (rt.rtlib, USED_OF_LIBRARIES), (rt.Crate, USED_OF_CRATES)):
        for name in names:
            getattr(owner, name)
    rt.rtlib.Crate.stamp = looking_once(rt.rtlib.Crate.stamp)
    rt.Crate.allowed = rt.handles_of(TOP)
    rt.rtlib.Crate = rt.Crate
    with_statements(rt)
    return rt


def plant(words):
    """What `rt plant` does with these words."""
    planter = loaded("rt-plant")
    planter.rt = load().rtlib
    return planter.main(*words)
