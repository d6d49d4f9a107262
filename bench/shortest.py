#!/usr/bin/env python3
"""Measures `otp least` beside `otp prove`: seconds and peak memory, of the shipped functions and of the workload of 16
with a fault in its last case.

usage: shortest.py [RUNS]      (after `otp`, or `rt run` in crates/otp; the least of RUNS runs is shown, 5 where none is
                                given; OTP=PROGRAM in the environment names another program to measure)
"""
import os
import sys
import tempfile

from prove import PROGRAM, SHIPPED, least

from drill import MOST, function_of
from program import make_ready


def with_a_fault():
    """The workload's function whose last case moves a deletion that stays where it is."""
    lines = function_of(MOST).splitlines()
    last = max(number for number, line in enumerate(lines) if line.startswith("case"))
    assert lines[last] == "case true : del p1"
    return "\n".join(lines[:last] + ["case true : del p1 + 1"] + lines[last + 1:]) + "\n"


def report(runs, name, path):
    answer, _, proving, _ = least(runs, [PROGRAM, "prove", path])
    found, _, seconds, peak = least(runs, [PROGRAM, "least", path])
    first, last = answer.splitlines()[0], found.splitlines()[-1]
    print(f"{name}: prove {proving:.3f} s ({first if first.startswith('no') else 'proved'}), least {seconds:.3f} s, {peak} KiB at the peak ({last})")


def main():
    runs = int(sys.argv[1]) if len(sys.argv) > 1 else 5
    make_ready()
    for file in sorted(os.listdir(SHIPPED)):
        if file.endswith(".ot"):
            report(runs, file, os.path.join(SHIPPED, file))
    with tempfile.NamedTemporaryFile("w", suffix=".ot") as file:
        file.write(with_a_fault())
        file.flush()
        report(runs, "the workload of 16 with a fault in its last case", file.name)


if __name__ == "__main__":
    main()
