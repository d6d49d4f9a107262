#!/usr/bin/env python3
"""Measures `otp prove` and then `otp check` of what it wrote, and gives the same obligations to z3 and cvc5.

usage: prove.py [RUNS]      (the least of RUNS runs is shown, 60 where none is given, and of ten times as many for short
                            processes; they take turns, the short ones among themselves; OTP=PROGRAM in the environment
                            names another program to measure)

Shown are questions a second of `prove`, its peak memory a question beside the certificate, which it holds whole before it
writes it, MB a second of `check`, and how often as long the faster of the solvers takes as `prove`. Each is the time of a
whole process; that of a process that does nothing, and of `otp` with no words, stands first. The solvers are given the
obligations in their own words (bench/smt.py), and before any time is shown they have to answer as `otp` does on the
functions in examples/functions. A solver that is not installed is named.
"""
import glob
import os
import shutil
import sys
import tempfile

from measure import TOP, measure, quickest

from certificate import read_function
from program import PROGRAM, make_ready
from smt import script

SHIPPED = os.path.join(TOP, "examples/functions")
# So many runs of each command, the least of which is shown, and so many times as many of short processes.
RUNS, SHORT = 60, 10
SOLVERS = {"z3": ["z3"], "cvc5": ["cvc5", "--incremental"]}


def with_cases(further):
    """ttf.ot with further cases in each of its blocks, which a later one implies."""
    lines = ["otfn 1", "text tomb", "kinds ins del", "assume sites differ", "block ins ins"]
    lines += further[0] + ["case p1 < p2 : ins p1", "case p1 = p2 and s1 < s2 : ins p1", "case true : ins p1 + 1"]
    lines += ["block ins del"] + further[1] + ["case true : ins p1"]
    lines += ["block del ins"] + further[2] + ["case p1 < p2 : del p1", "case true : del p1 + 1"]
    lines += ["block del del"] + further[3] + ["case true : del p1", "end"]
    return "\n".join(lines) + "\n"


def with_tombstones(more):
    """ttf.ot with so many further cases in each of its blocks; no two have one offset."""
    offsets = iter(range(sum(more), 0, -1))
    kinds = ["ins", "ins", "del", "del"]
    return with_cases([[f"case p1 < p2 - {next(offsets)} : {kind} p1" for _ in range(count)] for kind, count in zip(kinds, more)])


def nested(count):
    """ttf.ot with so many further cases of insertions, each with a guard in a guard in a guard."""

    def case(k):
        return f"case p1 < p2 - {3 * k} and (s1 < s2 or not (p1 < p2 - {3 * k + 1} and (s2 < s1 or p1 < p2 - {3 * k + 2}))) : ins p1"

    return with_cases([[case(k) for k in range(count, 0, -1)], [], [], []])


def shipped(name):
    with open(os.path.join(SHIPPED, name)) as file:
        return file.read()


def least(runs, words):
    return min((measure(words) for _ in range(runs)), key=lambda run: run[2])


def solve(folder, solver, text, tp2):
    """What a solver answers of each obligation, and its seconds."""
    path = os.path.join(folder, "obligations.smt2")
    with open(path, "w") as file:
        file.write(script(read_function(text), tp2))
    answer, _, seconds, _ = measure([*SOLVERS[solver], path])
    return answer.split(), seconds


def installed():
    found = [solver for solver in SOLVERS if shutil.which(solver)]
    for solver in SOLVERS:
        if solver not in found:
            print(f"{solver} is not installed, so nothing is compared with it")
    return found


def require_agreement(folder, solvers):
    """Ends where a solver answers otherwise than `otp` on a shipped function."""
    for path in sorted(glob.glob(os.path.join(SHIPPED, "*.ot"))):
        for tp2 in [False, True]:
            _, status, _, _ = measure([PROGRAM, "prove", *([] if tp2 else ["--tp1"]), path])
            for solver in solvers:
                answers, _ = solve(folder, solver, shipped(os.path.basename(path)), tp2)
                if set(answers) - {"sat", "unsat"} or (status == 0) != (set(answers) == {"unsat"}):
                    sys.exit(f"{os.path.basename(path)}: otp ends with {status}, and {solver} answers {answers}")


def prepare(folder, name, text):
    """The files of a function and of its certificate, as words of `prove` and of `check`."""
    function, certificate = (os.path.join(folder, f"{name.replace(' ', '-')}.{kind}") for kind in ("ot", "cert"))
    with open(function, "w") as file:
        file.write(text)
    output, status, _, _ = measure([PROGRAM, "prove", function])
    if status != 0:
        sys.exit(f"{name}: status {status}: {output.splitlines()[0]}")
    with open(certificate, "w") as file:
        file.write(output + "\n")
    return [PROGRAM, "prove", function], [PROGRAM, "check", function, certificate]


def commands_of(folder, functions):
    """`prove` and `check` of each function."""
    return [words for name, text in functions.items() for words in prepare(folder, name, text)]


def report(folder, solvers, name, text, proved, checked):
    asked, size = proved.text.count("?"), len(proved.text) + 1
    beside = max(0, proved.peak * 1024 - size) / asked
    print(f"{name}: {asked} questions in {1e3 * proved.seconds:.2f} ms, {asked / proved.seconds / 1e6:.2f} million a second")
    print(f"    {proved.peak} KiB at the peak: {beside:.0f} bytes a question beside the certificate of {size} bytes")
    speed = f"{1e3 * checked.seconds:.2f} ms, {size / checked.seconds / 1e6:.0f} MB a second"
    print(f"    check: {speed}, {checked.peak} KiB at the peak: {checked.text}")
    times = {}
    for solver in solvers:
        answers, times[solver] = solve(folder, solver, text, True)
        if set(answers) != {"unsat"}:
            sys.exit(f"{name}: {solver} answers {answers}")
    if times:
        faster = min(times, key=times.get)
        told = ", ".join(f"{solver} {taken:.3f} s" for solver, taken in times.items())
        print(f"    {told}: the faster one, {faster}, takes {times[faster] / proved.seconds:.1f} times as long as prove")


def main():
    runs = int(sys.argv[1]) if len(sys.argv) > 1 else RUNS
    make_ready()
    solvers = installed()
    great = {
        "16 further cases": with_tombstones([16, 0, 0, 0]),
        "12 cases a block": with_tombstones([9, 11, 10, 11]),
        "14 cases a block": with_tombstones([11, 13, 12, 13]),
        "8 nested cases": nested(8),
    }
    small = {"ttf": shipped("ttf.ot")}
    with tempfile.TemporaryDirectory() as folder:
        require_agreement(folder, solvers)
        ran = quickest(commands_of(folder, great), runs)
        # Short processes take no turns with great ones, behind which they find the data of those in the caches.
        empty, idle, *ran_short = quickest([["/bin/true"], [PROGRAM], *commands_of(folder, small)], SHORT * runs)
        print(f"an empty process: {1e3 * empty.seconds:.2f} ms; "
              f"otp with no words: {1e3 * idle.seconds:.2f} ms, {idle.peak} KiB at the peak")
        for functions, timed in ((great, ran), (small, ran_short)):
            for (name, text), proved, checked in zip(functions.items(), timed[::2], timed[1::2]):
                report(folder, solvers, name, text, proved, checked)


if __name__ == "__main__":
    main()
