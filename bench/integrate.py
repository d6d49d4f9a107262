#!/usr/bin/env python3
"""Measures `otp integrate` on a great case: time and peak memory.

usage: integrate.py

The case has 1,000 operations on a document of 1,000,000 cells, in 16 orders, for the function
examples/functions/ttf.ot: 500 insertions and 500 deletions of 1,000 sites. Once they are spread over the
document, and once all stand at its front, where each insertion moves every cell.
"""
import json
import os
import random
import tempfile

from measure import measure

from program import PROGRAM, make_ready

HERE = os.path.dirname(os.path.abspath(__file__))
TOP = os.path.dirname(HERE)
CELLS = 1_000_000
OPERATIONS = 1_000
ORDERS = 16


def case(position):
    ops = []
    for site in range(1, OPERATIONS + 1):
        at = position(site)
        ops.append(["ins", at, "x", site] if site % 2 else ["del", at, site])
    numbers = list(range(OPERATIONS))
    orders = []
    for _ in range(ORDERS):
        orders.append(list(numbers))
        random.shuffle(numbers)
    return {"doc": "y" * CELLS, "ops": ops, "orders": orders}


def report(name, written):
    with tempfile.NamedTemporaryFile("w", suffix=".json") as file:
        json.dump(written, file)
        file.flush()
        function = os.path.join(TOP, "examples/functions/ttf.ot")
        text, status, seconds, peak = measure([PROGRAM, "integrate", function, file.name])
        print(f"{name}: {os.path.getsize(file.name)} bytes, {seconds:.2f} s, {peak} KiB at the peak: {text.splitlines()[-1]} ({status})")


def main():
    make_ready()
    random.seed(1)
    report("spread", case(lambda site: random.randrange(CELLS)))
    report("at the front", case(lambda site: 0))


if __name__ == "__main__":
    main()
