#!/usr/bin/env python3
"""Measures the solver and the table of distances on literals over 12 names.

usage: graphs.py      (after `rt run` in crates/measures, or `rt ci`)

Reports processor time and peak memory of `solve` and `least`, and how many literals a second a table is asked for
by `allows`, each followed by `add` where it is allowed, beside the same loop in C (graph_rate.c, by
gcc -O2). Of five runs the fastest counts. Both programs must take the same literals.
"""
import os
import subprocess
import tempfile

from measure import measure_processor

HERE = os.path.dirname(os.path.abspath(__file__))
PROGRAM = os.path.join(os.path.dirname(HERE), "crates/measures/out/measures")

# How many literals, how often `solve` and `least` are called, and how often a table is filled.
SIZES = [(10, 300_000, 3_000_000), (1_000, 20_000, 40_000), (100_000, 1_000, 1_500)]


def fastest(words):
    runs = [measure_processor(words) for _ in range(5)]
    text, status, seconds, peak = min(runs, key=lambda run: run[2])
    if status != 0:
        raise SystemExit(f"{' '.join(words)}: status {status}")
    return text, seconds, peak


def report_calls(count, rounds):
    for call in ["solve", "least"]:
        _, seconds, peak = fastest([PROGRAM, "graphs", call, str(count), str(rounds)])
        print(f"{count:,} literals: {call} {1e6 * seconds / rounds:.1f} us, {peak} KiB at the peak")


def report_rate(count, rounds, in_c):
    taken, seconds, peak = fastest([PROGRAM, "graphs", "bounds", str(count), str(rounds)])
    taken_in_c, seconds_in_c, peak_in_c = fastest([in_c, "bounds", str(count), str(rounds)])
    if taken != taken_in_c:
        raise SystemExit(f"{count} literals: {taken} taken, {taken_in_c} in C")
    asked = count * rounds / 1e6
    print(
        f"{count:,} literals: {asked / seconds:.1f} million questions a second, {peak} KiB; "
        f"in C {asked / seconds_in_c:.1f} million, {peak_in_c} KiB; {seconds / seconds_in_c:.2f} times the time of C"
    )


def main():
    with tempfile.TemporaryDirectory() as folder:
        in_c = os.path.join(folder, "graph_rate")
        subprocess.run(["gcc", "-O2", "-o", in_c, os.path.join(HERE, "graph_rate.c")], check=True)
        for count, calls, _ in SIZES:
            report_calls(count, calls)
        for count, _, rounds in SIZES:
            report_rate(count, rounds, in_c)


if __name__ == "__main__":
    main()
