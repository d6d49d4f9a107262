#!/usr/bin/env python3
"""Measures reading and printing function files: time and peak memory of each run.

usage: text.py      (after `rt run` in crates/measures, or `rt ci`)

Files of 10 KB to 10 MB hold one small function and are filled with comment lines, or with spaces
and lines without a token. The last file has the most cases that a function may have, 64 in each of its four
blocks, each with 16 comparisons. The time is that of the fastest of five runs.
"""
import os
import tempfile

from measure import measure

TOP = os.path.dirname(os.path.dirname(os.path.abspath(__file__)))
PROGRAM = os.path.join(TOP, "crates/measures/out/measures")
SIZES = (10_000, 100_000, 1_000_000, 10_000_000)
RUNS = 5
SMALL = "otfn 1\ntext plain\nkinds ins\nblock ins ins\ncase p1 < p2 : ins p1\ncase true : ins p1 + 1\nend\n"


def filled(size, line):
    count, more = divmod(size - len(SMALL), len(line))
    return line * count + " " * more + SMALL


def greatest():
    lines = ["otfn 1", "text tomb", "kinds ins del"]
    for first in ("ins", "del"):
        for second in ("ins", "del"):
            lines.append(f"block {first} {second}")
            lines += ["case " + " and ".join(["p1 <= p2 - 99"] * 16) + f" : {first} p1 - 99"] * 64
    return "\n".join(lines + ["end"]) + "\n"


def report(name, text):
    with tempfile.NamedTemporaryFile("w", suffix=".ot") as file:
        file.write(text)
        file.flush()
        runs = [measure([PROGRAM, "texts", file.name]) for _ in range(RUNS)]
    told, seconds, peak = runs[0][0], min(run[2] for run in runs), max(run[3] for run in runs)
    print(f"{name}: {seconds:.3f} s, {peak} KiB at the peak: {told.split(': ', 1)[1]}")


def main():
    for size in SIZES:
        report("comments", filled(size, "#" + "x" * 78 + "\n"))
    for size in SIZES:
        report("blanks", filled(size, " " * 79 + "\n"))
    report("most cases", greatest())


if __name__ == "__main__":
    main()
