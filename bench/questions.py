#!/usr/bin/env python3
"""Measures the askers of obligations: questions a second, and bytes of arenas a question.

usage: questions.py      (after `rt run` in crates/measures, or `rt ci`)

The obligations of examples/functions/ttf.ot, of ttfu.ot, and of ttf.ot with 16 further cases for two insertions, each of
which a later one implies, are walked through what their askers ask, yes before no and without a solver, up to so many
turns each; a turn is a question or an end. The time is that of the processor, less that of a run without turns; of five
runs the fastest counts. The first two functions have so few questions that their rate is no more than a lower bound.
"""
import os
import re
import tempfile

from families import function_of
from measure import measure_processor

TOP = os.path.dirname(os.path.dirname(os.path.abspath(__file__)))
PROGRAM = os.path.join(TOP, "crates/measures/out/measures")
TURNS = 100_000_000


def fastest(function, turns):
    runs = [measure_processor([PROGRAM, "questions", function, str(turns)]) for _ in range(5)]
    text, status, seconds, peak = min(runs, key=lambda run: run[2])
    if status != 0:
        raise SystemExit(f"{function}: status {status}")
    return text, seconds, peak


def report(name, function):
    _, nothing, _ = fastest(function, 0)
    told, seconds, peak = fastest(function, TURNS)
    questions, taken = (int(number) for number in re.findall(r"\d+", told))
    rate = questions / max(seconds - nothing, 0.01) / 1e6
    print(f"{name}: {questions:,} questions, {rate:.1f} million a second, {taken / questions:.0f} bytes each, {peak} KiB at the peak")


def main():
    for name in ("ttf", "ttfu"):
        report(name, os.path.join(TOP, f"examples/functions/{name}.ot"))
    with tempfile.NamedTemporaryFile("w", suffix=".ot") as file:
        file.write(function_of("rules", 16))
        file.flush()
        report("ttf with 16 more cases", file.name)


if __name__ == "__main__":
    main()
