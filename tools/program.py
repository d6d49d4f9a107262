#!/usr/bin/env python3
"""Where the program `otp` stands, and whether it is what its sources say.

What `./otp` runs stands in `out/` at the top of the repository, where the gate sets nothing aside. Beside it stands
what it was made of (`made_of`): a sum of itself, of each source of the crates that it stands on and of their lines of
crates.txt, and which toolchain made it.

usage: program.py [WORD]
  (no word)               prints the path of the program that scripts run: OTP of the environment, else out/otp
  is-current              ends with 0 if out/otp is what its sources say; if not, says on standard error what differs
"""
import hashlib
import os
import re
import subprocess
import sys

TOP = os.path.dirname(os.path.dirname(os.path.abspath(__file__)))
NAME = "otp"
BUILT = os.path.join(TOP, "out", NAME)
# The gate names the one that it built.
PROGRAM = os.path.abspath(os.environ.get("OTP") or BUILT)
MADE_OF, FACTS = BUILT + ".made_of", BUILT + ".facts"
# What a sum is of that is no source.
LINES, TOOLCHAIN, ITSELF = "lines of crates.txt", "toolchain", "program"


def found(script):
    """The path of the program that scripts run; where there is none, the script ends."""
    if not os.access(PROGRAM, os.X_OK):
        sys.exit(f"{script}: there is no program at {os.path.relpath(PROGRAM, TOP)}: run ./otp first")
    return PROGRAM


def make_ready():
    """Builds the program that scripts run where that is needed, so that it is not measured. One that the environment
    names runs as it is."""
    if "OTP" not in os.environ:
        subprocess.run([os.path.join(TOP, NAME)], stdout=subprocess.DEVNULL, check=False)


def sum_of(content):
    return hashlib.sha256(content).hexdigest()


def sum_of_file(path):
    with open(path, "rb") as file:
        return sum_of(file.read())


def listed():
    """The line of each crate of crates.txt, by its words, and the crates that it names."""
    with open(os.path.join(TOP, "crates.txt"), encoding="utf-8") as lines:
        for line in lines:
            head, colon, others = line.partition("#")[0].partition(":")
            if colon:
                yield head.split()[0], (head.split(), others.split())


def crates_below():
    """The crates that the program stands on, with its own, and their lines of crates.txt."""
    lines, wanted = dict(listed()), [NAME]
    for name in wanted:
        wanted += [other for other in lines[name][1] if other in lines and other not in wanted]
    return {name: lines[name] for name in sorted(wanted)}


def toolchain():
    """The identity of the toolchain on the path, if there is one."""
    try:
        told = subprocess.run(["rt", "version"], stdout=subprocess.PIPE, text=True, check=True).stdout
        return " ".join(told.split())
    except (OSError, subprocess.CalledProcessError):
        return None


def sources():
    """What the program is made of by now: a sum of each source, and which toolchain is there."""
    crates = crates_below()
    made_of = {TOOLCHAIN: toolchain(), LINES: sum_of(repr(crates).encode())}
    folders = [os.path.join("crates", name, part) for name in crates for part in ("src", "specs", "proofs")]
    for folder in folders:
        for place, inner, names in os.walk(os.path.join(TOP, folder)):
            inner.sort()
            for path in (os.path.join(place, name) for name in sorted(names)):
                made_of[os.path.relpath(path, TOP)] = sum_of_file(path)
    return made_of


def made_of_then():
    """What the program that stands there was made of, and its own sum; nothing, if that was never noted."""
    try:
        with open(MADE_OF, encoding="utf-8") as lines:
            return {what: told for told, what in (line.rstrip("\n").split("  ", 1) for line in lines)}
    except (OSError, ValueError):
        return {}


def changes(then, now):
    """What is no more as it was, in words."""
    for what in sorted({*then, *now}):
        if then.get(what) == now.get(what) or what == TOOLCHAIN and now[what] is None:
            continue
        if what == TOOLCHAIN:
            yield f"the toolchain is {now[what]}, and the program was built by {then.get(what)}"
        elif what == ITSELF:
            yield "the program is another file than was built"
        elif what == LINES:
            yield "lines of crates.txt were changed since the program was built"
        else:
            did = "is new" if what not in then else "was deleted" if what not in now else "was changed"
            yield f"{what} {did} since the program was built"


def kept(path, content):
    """Writes a file beside the program, which is never there by half."""
    os.makedirs(os.path.dirname(path), exist_ok=True)
    with open(f"{path}.{os.getpid()}", "wb") as file:
        file.write(content)
    os.replace(file.name, path)


def keep(program, made_of):
    """Puts a program that was built of these sources where `./otp` runs it. Moves the file."""
    told = {**made_of, ITSELF: sum_of_file(program)}
    os.makedirs(os.path.dirname(BUILT), exist_ok=True)
    os.replace(program, BUILT)
    kept(MADE_OF, "".join(f"{it}  {what}\n" for what, it in told.items()).encode())


def differences():
    """What keeps the program from being what its sources say, in words."""
    if not os.access(BUILT, os.X_OK):
        return ["the program is not built yet"]
    if not (then := made_of_then()):
        return ["it is not known what the program was made of"]
    # What changes while sums are taken shows the next time.
    facts = subprocess.run([os.path.join(TOP, "tools/facts")], stdout=subprocess.PIPE, check=False).stdout
    if not (differs := list(changes(then, {**sources(), ITSELF: sum_of_file(BUILT)}))):
        try:
            kept(FACTS, facts)
        except OSError:
            # Then it is found out anew each time.
            pass
    return differs


def main(words):
    if not words:
        print(PROGRAM)
    elif words == ["is-current"]:
        if differs := differences():
            others = len(differs) - 1
            print(f"otp: {differs[0]}{f', and {others} more' if others else ''}", file=sys.stderr)
            sys.exit(1)
    else:
        sys.exit(re.search(r"(?m)^usage: .*", __doc__)[0])


if __name__ == "__main__":
    main(sys.argv[1:])
