#!/usr/bin/env python3
"""Runs the gate and tells what it cost: processor seconds of each crate, by what was done.

usage: gate.py [--page] [WORD..]      (`rt ci WORD..`; with `--anew` what earlier runs kept is proved again)

What the gate prints is passed on. At the end come the time on the clock, the processor time of the whole run (user and
system, of all that it started), and a table: the proof of each crate, with what is built of it, that of its tests, and
its must-fail edits with the proof that they begin with. Seconds that belong to no crate, such as those that the gate
itself spends on copies and sums of files, stand below the table. With `--page` it writes docs/GATE.md anew with them, if
the gate passed. The status is the gate's.

Each check has one job, as in `.ci/run` (RT_JOBS=N in the environment says how many run side by side).

Twice a second it looks at what the gate has started. What ended in between is read off the time of ended children that
the gate's own process has. Where several ended at once, each gets an equal part of what they used since they were seen.
"""
import os
import re
import resource
import subprocess
import sys
import threading
import time

TOP = os.path.dirname(os.path.dirname(os.path.abspath(__file__)))
sys.path.insert(0, os.path.join(TOP, "tools"))

import toolchain  # noqa: E402

PAGE = os.path.join(TOP, "docs/GATE.md")
# The page, which `checks/pages` looks for a row of each crate on.
TEXT = """# What the gate takes

`bench/gate.py --anew --page` writes this page: one run of the gate from nothing.

{times}

Processor seconds by crate, of its proof, its tests and its must-fail edits:

{table}

{rest}
"""
TICKS = os.sysconf("SC_CLK_TCK")
PARTS = ("proof", "tests", "edits")
# How often it looks, in seconds.
PAUSE = 0.5


def crates():
    """The names of the crates, in the order of crates.txt."""
    with open(os.path.join(TOP, "crates.txt"), encoding="utf-8") as lines:
        return re.findall(r"(?m)^(\w+)[^:#\n]*:", lines.read())


def processes():
    """What runs on this machine: of each number its parent, its own seconds, and those of its children that ended."""
    found = {}
    for name in os.listdir("/proc"):
        if name.isdigit():
            try:
                with open(f"/proc/{name}/stat", encoding="utf-8", errors="replace") as text:
                    words = text.read().rpartition(")")[2].split()
            except OSError:
                continue
            user, system, user_below, system_below = (int(word) / TICKS for word in words[11:15])
            found[int(name)] = int(words[1]), user + system, user_below + system_below
    return found


def used_by(number, found, below):
    """The seconds of a process and of all that it started."""
    _, own, ended = found[number]
    return own + ended + sum(used_by(it, found, below) for it in below.get(number, ()))


def booked_on(number):
    """The crate and the part that a command of the gate works on, or None."""
    try:
        with open(f"/proc/{number}/cmdline", encoding="utf-8", errors="replace") as text:
            words = text.read().split("\0")
        folder = os.path.basename(os.readlink(f"/proc/{number}/cwd"))
    except OSError:
        return None
    if "--crate-name" in words:
        # An edit, and the proof that edits begin with, is checked in a copy of the crate.
        part = "edits" if folder.startswith("rt-edit-") else "tests" if "--test" in words else "proof"
        return words[words.index("--crate-name") + 1], part
    if any(word.endswith("/rattle-link") for word in words):
        is_of_tests = words[words.index("-o") + 1].endswith("_tests")
        return folder, "tests" if is_of_tests else "proof"
    return None


class Book:
    """The seconds of what the gate has started, by crate and part."""

    def __init__(self, gate):
        self.gate, self.seconds, self.running, self.ended = gate, {}, {}, 0.0

    def look(self):
        found = processes()
        if self.gate not in found:
            return
        below = {}
        for number, (parent, _, _) in found.items():
            below.setdefault(parent, []).append(number)
        now, ended = {}, found[self.gate][2]
        for number in below.get(self.gate, ()):
            booked = self.running.get(number, (None, 0))[0] or booked_on(number)
            now[number] = booked, used_by(number, found, below)
        gone = [it for number, it in self.running.items() if number not in now]
        self.close(gone, ended - self.ended)
        self.running, self.ended = now, ended

    def close(self, gone, used):
        """Books what ended since it looked last, which used so many seconds in all."""
        known = [(booked, seconds) for booked, seconds in gone if booked]
        more = max(0.0, used - sum(seconds for _, seconds in gone)) / max(1, len(known))
        for booked, seconds in known:
            self.seconds[booked] = self.seconds.get(booked, 0) + seconds + more

    def follow(self, is_over):
        while not is_over.wait(PAUSE):
            self.look()
        self.close(self.running.values(), 0)


def row(name, cells):
    return f"{name:<16}{''.join(f'{cell:>7}' for cell in cells)}".rstrip()


def told(seconds):
    return [f"{it:.0f}" if it >= 0.5 else "" for it in seconds]


def table(seconds):
    names = [name for name in crates() if any((name, part) in seconds for part in PARTS)]
    whole = [sum(seconds.get((name, part), 0) for name in names) for part in PARTS]
    rows = [row(name, told(seconds.get((name, part), 0) for part in PARTS)) for name in names]
    return "\n".join(["```text", row("crate", PARTS), *rows, row("all", told(whole)), "```"])


def minutes(seconds):
    return f"{int(seconds) // 60} min {int(seconds) % 60:02} s"


def main():
    words = [word for word in sys.argv[1:] if word != "--page"]
    start, is_over = time.monotonic(), threading.Event()
    gate = subprocess.Popen(["rt", "ci", *words], env={"RT_JOBS": str(toolchain.lanes()), "TMPDIR": toolchain.room(), **os.environ})
    book = Book(gate.pid)
    watch = threading.Thread(target=book.follow, args=(is_over,))
    watch.start()
    status = gate.wait()
    is_over.set()
    watch.join()
    used = resource.getrusage(resource.RUSAGE_CHILDREN)
    whole = used.ru_utime + used.ru_stime
    times = (f"The gate took {minutes(time.monotonic() - start)} on {len(os.sched_getaffinity(0))} processors, and "
             f"{whole / 60:.1f} processor minutes.")
    rest = f"Not booked on a crate: {whole - sum(book.seconds.values()):.0f} s."
    print(f"\n{times} User {used.ru_utime / 60:.1f}, system {used.ru_stime / 60:.1f}.\n")
    print(f"{table(book.seconds)}\n\n{rest}")
    if "--page" in sys.argv and status == 0:
        with open(PAGE, "w", encoding="utf-8") as page:
            page.write(TEXT.format(times=times, table=table(book.seconds), rest=rest))
    sys.exit(status)


if __name__ == "__main__":
    main()
