#!/usr/bin/env python3
"""Measures `otp settle` and then `otp confirm` of what it wrote, beside `otp prove`, z3 and cvc5.

usage: settle.py [NAME..]   (after `otp`; NAME: families of bench/families.py, or shipped; all of them where none is
                            given; OTP=PROGRAM in the environment names another program to measure, and OLD=PROGRAM
                            one to measure beside it, whose `settle` gets LIMIT seconds)

The functions are those of bench/families.py with 8, 16, 32 and 63 cases a block, of `random` ten with 64, and those of
examples/functions, at level tp2. Shown are the seconds of whole processes and the peak memory; of a proof its size and
how many questions it asks, which are fewer than those of the search; and of `prove` nothing where its budget is spent.
The solvers are given the obligations in their own words (bench/smt.py), and LIMIT seconds for a function. Where one
answers otherwise than `settle`, the script ends. Where valgrind is installed it counts the instructions of `settle` and
`confirm`, as whole processes. Behind all functions it is said what is wanted, and of which functions it does not hold.

What a process takes to start, the same for both commands, is more than the smallest functions leave to `confirm`; so its
part of `settle` is told of the clock without the start, and of the instructions with it. The last line tells what both
commands take for all proofs of the run together, as whole processes.
"""
import glob
import os
import sys
import tempfile
from collections import namedtuple

from families import NAMES, function_of, members
from measure import Run, counts_instructions, instructions, measure, quickest
from prove import PROGRAM, SHIPPED, SOLVERS, installed, least

from certificate import read_function
from program import make_ready
from smt import script

# Seconds for a solver: more than three times what `settle` may take.
LIMIT = 20
# The status of a command that was cut off.
CUT_OFF = 124
# Of so many runs the least is shown, where the first one takes less than a second: of the solvers and `prove`, and of
# `settle`, `confirm` and `otp` with no words.
RUNS, OTP_RUNS = 5, 100
GREAT = 16
MOST_SECONDS, MOST_PEAK, MOST_PROOF, MOST_RULES, TIMES_CONFIRM = 5, 64, 20e6, 100e3, 4
# MiB at the peak and seconds of single functions or families; how many times as fast as the faster solver `settle` is,
# and with `confirm` together; and how many times as long it takes with 63 cases as with 32.
PEAKS, SECONDS = {"random": 128}, {"cover 63": 0.25, "alias 16": 0.06, "alias 32": 0.3, "alias 63": 1.5, "random": 4}
TIMES, TIMES_BOTH, TIMES_GREAT = {"alias": (5, 4), "random": (5, 0)}, (10, 8), 6
OLD = os.environ.get("OLD")

# The seconds of a solver are None where it was cut off; `counted` is the part of the instructions of `settle` that
# `confirm` takes, if they were counted.
Row = namedtuple("Row", "name cases settled size confirmed proved solved start counted old")


def solved(name, solvers, runs, status):
    """The seconds of each solver, which answers as `settle` does."""
    times = {}
    for solver, ran in zip(solvers, runs):
        answers = set(ran.text.split())
        times[solver] = None if ran.status == CUT_OFF else ran.seconds
        agrees = not answers - {"sat", "unsat"} and (status == 0) == (answers == {"unsat"})
        if times[solver] and status in (0, 1) and not agrees:
            sys.exit(f"{name}: otp ends with {status}, and {solver} answers {answers}")
    return times


def report(folder, solvers, name, cases, text):
    """Measures one function, and shows it."""
    function, proof, obligations = (os.path.join(folder, file) for file in ("function.ot", "proof", "obligations.smt2"))
    with open(function, "w") as file:
        file.write(text)
    with open(obligations, "w") as file:
        file.write(script(read_function(text), True))
    first = Run(*measure([PROGRAM, "settle", function]))
    with open(proof, "w") as file:
        file.write(first.text + "\n")
    settled, confirmed, start = quickest(
        [[PROGRAM, "settle", function], [PROGRAM, "confirm", function, proof], [PROGRAM]], OTP_RUNS)
    others = [["timeout", str(LIMIT), *SOLVERS[solver], obligations] for solver in solvers]
    proved, *runs = quickest([[PROGRAM, "prove", function], *others], RUNS)
    if first.status == 0 and confirmed.text != "confirmed tp2":
        sys.exit(f"{name}: confirm answers {confirmed.text}")
    size, confirmed = (os.path.getsize(proof), confirmed) if first.status == 0 else (0, None)
    counted = None
    if confirmed and counts_instructions():
        counted = instructions([PROGRAM, "confirm", function, proof]) / instructions([PROGRAM, "settle", function])
    times = solved(name, solvers, runs, settled.status)
    old = Run(*measure(["timeout", str(LIMIT), OLD, "settle", function])) if OLD else None
    row = Row(name, cases, settled, size, confirmed, proved, times, start.seconds, counted, old and old._replace(text=""))
    show(row)
    return row._replace(settled=settled._replace(text=""), proved=proved._replace(text=""))


def show(row):
    settled, proved = row.settled, row.proved
    beside = [f"prove {proved.seconds:.3f} s" if proved.status in (0, 1) else f"prove: status {proved.status}"]
    if row.old:
        beside.append(f"before {f'above {LIMIT}' if row.old.status == CUT_OFF else f'{row.old.seconds:.3f}'} s")
    beside += [f"{solver} {f'above {LIMIT}' if taken is None else f'{taken:.3f}'} s" for solver, taken in row.solved.items()]
    print(f"{row.name}: status {settled.status} in {settled.seconds:.3f} s, {settled.peak} KiB at the peak; {', '.join(beside)}")
    if row.confirmed:
        told = f"{row.size} bytes, {settled.text.count('?')} questions"
        counted = f", by instructions {row.counted:.3f}" if row.counted else ""
        print(f"    proof of {told}; confirm {row.confirmed.seconds:.4f} s, {row.confirmed.peak} KiB at the peak; without the "
              f"start of the program {part_of(row):.3f} of settle{counted}")


def part_of(row):
    """What part of the time of `settle` the check of its proof takes, each without the start of the program."""
    return (row.confirmed.seconds - row.start) / (row.settled.seconds - row.start)


def family_of(row):
    return row.name.split(" ")[0].split("-")[0]


def faster(row):
    """The seconds of the faster solver. One that was cut off took at least the limit."""
    return min(LIMIT if taken is None else taken for taken in row.solved.values())


def beats_solvers(row):
    alone, both = TIMES.get(family_of(row), TIMES_BOTH)
    together = row.settled.seconds + (row.confirmed.seconds if row.confirmed else 0)
    return alone * row.settled.seconds <= faster(row) and both * together <= faster(row)


def is_within(row):
    most = SECONDS.get(row.name, SECONDS.get(family_of(row), MOST_SECONDS))
    return row.settled.status in (0, 1) and row.settled.seconds <= most


def grows_slowly(rows):
    """The test whether a function of 63 cases takes little more than that of 32."""
    seconds = {row.name: row.settled.seconds for row in rows}
    return lambda row: row.settled.seconds <= TIMES_GREAT * seconds.get(row.name.replace(" 63", " 32"), row.settled.seconds)


def wanted(rows, solvers):
    """What is wanted, of which functions, and the test of it."""
    made = [row for row in rows if row.cases]
    proofs = [row for row in rows if row.confirmed]
    told = ", ".join(f"{name} {most} s" for name, most in SECONDS.items())
    yield f"decided within {MOST_SECONDS} s; {told}", rows, is_within
    yield f"at most {MOST_PEAK} MiB at the peak, random {PEAKS['random']}", rows, lambda row: (
        row.settled.peak <= 1024 * PEAKS.get(family_of(row), MOST_PEAK))
    yield f"with 63 cases at most {TIMES_GREAT} times the time with 32", made, grows_slowly(made)
    if solvers:
        great = [row for row in made if row.cases >= GREAT]
        alone, both = TIMES_BOTH
        yield (f"from {GREAT} cases on at least {alone} times as fast as the faster solver, with confirm {both}, alias 5 and 4, "
               "random 5"), great, beats_solvers
    rules = [row for row in proofs if row.name == f"rules {GREAT}"]
    yield f"a proof of rules {GREAT} of less than {MOST_RULES / 1e3:.0f} kB", rules, lambda row: row.size < MOST_RULES
    yield f"proofs of less than {MOST_PROOF / 1e6:.0f} MB", proofs, lambda row: row.size < MOST_PROOF
    yield f"confirm within 1/{TIMES_CONFIRM} of the time of settle, both as whole processes", proofs, lambda row: (
        TIMES_CONFIRM * row.confirmed.seconds <= row.settled.seconds)
    yield f"confirm within 1/{TIMES_CONFIRM} of the time of settle, each without the start of the program", proofs, lambda row: (
        TIMES_CONFIRM * part_of(row) <= 1)
    if counts_instructions():
        yield f"confirm within 1/{TIMES_CONFIRM} of the instructions of settle", proofs, lambda row: TIMES_CONFIRM * row.counted <= 1


def functions(names):
    """The name of each function, its cases a block where it is made, and its text."""
    for family in NAMES:
        if not names or family in names:
            for name, cases in members(family):
                yield f"{name} {cases}", cases, function_of(name, cases)
    if not names or "shipped" in names:
        for path in sorted(glob.glob(os.path.join(SHIPPED, "*.ot"))):
            with open(path) as file:
                yield os.path.basename(path), 0, file.read()


def main():
    make_ready()
    empty, idle = least(OTP_RUNS, ["/bin/true"]), least(OTP_RUNS, [PROGRAM])
    print(f"an empty process: {1e3 * empty[2]:.1f} ms; otp with no words: {1e3 * idle[2]:.1f} ms, {idle[3]} KiB at the peak")
    solvers = installed()
    with tempfile.TemporaryDirectory() as folder:
        rows = [report(folder, solvers, *function) for function in functions(sys.argv[1:])]
    for what, of, holds in wanted(rows, solvers):
        missed = ", ".join(row.name for row in of if not holds(row))
        print(f"wanted: {what}: {f'not so of {missed}' if missed else f'so of all {len(of)}'}")
    if proofs := [row for row in rows if row.confirmed]:
        settled, confirmed = sum(row.settled.seconds for row in proofs), sum(row.confirmed.seconds for row in proofs)
        print(f"all proofs, whole processes: settle {settled:.3f} s, confirm {confirmed:.3f} s, {confirmed / settled:.3f} of it")


if __name__ == "__main__":
    main()
