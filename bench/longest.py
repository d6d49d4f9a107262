#!/usr/bin/env python3
"""How many cells the documents of failing ends have, of drawn functions whose offsets are near 99 either way.

usage: longest.py [SEED [COUNT]]

The plans are those of certificate.py. Of each obligation up to 4,000 places of its plan are looked at, and of each failing
end there the least values that meet its answers; and of each function the first failing end. It shares no code with the
program, which answers `limit bound` where the first failing end has more than 1,000 cells.
"""
import os
import random
import sys
from itertools import islice, product

TOP = os.path.dirname(os.path.dirname(os.path.abspath(__file__)))
sys.path.insert(0, os.path.join(TOP, "reference"))

from certificate import LENGTH, Fails, obligations, places_of, plan_of, read_function  # noqa: E402
from least import first_end, values_of  # noqa: E402

PLACES = 4_000
OFFSETS = ["", " + 98", " - 98", " + 99", " - 99", " - 99"]


def drawn_atom(draw):
    first, second = draw.choice(["12", "21"])
    return f"p{first} {draw.choice(['<', '<=', '='])} p{second}{draw.choice(OFFSETS)}"


def drawn_case(draw, kind):
    guard = drawn_atom(draw) if draw.random() < 0.7 else f"not {drawn_atom(draw)}"
    if draw.random() < 0.2:
        guard += f" and {drawn_atom(draw)}"
    return f"case {guard} : {kind} {draw.choice(['p1', 'p2'])}{draw.choice(['', ' + 99', ' - 99'])}"


def drawn_text(draw):
    kinds = draw.choice([["ins"], ["del"], ["upd"], ["ins", "del"]])
    lines = ["otfn 2" if "upd" in kinds else "otfn 1", f"text {draw.choice(['plain', 'tomb'])}", "kinds " + " ".join(kinds)]
    for first, second in product(kinds, repeat=2):
        cases = [drawn_case(draw, first) for _ in range(draw.randint(1, 3))]
        lines += [f"block {first} {second}", *cases, f"case true : {first} p1"]
    return "\n".join([*lines, "end", ""])


def lengths(plan, names):
    """The lengths that the least values give at the failing ends that some integers meet."""
    for here, answers in islice(places_of(plan, names), PLACES):
        if isinstance(here, Fails):
            yield values_of(answers, names)[LENGTH]


def main():
    seed, count = (int(word) for word in (sys.argv[1:] + ["1", "400"][len(sys.argv) - 1 :]))
    draw = random.Random(seed)
    longest = {"pair": 0, "triple": 0, "first": 0}
    for _ in range(count):
        f = read_function(drawn_text(draw))
        for kinds in obligations(f, True):
            found = max(lengths(lambda: plan_of(f, kinds), 3 + 3 * len(kinds)), default=0)
            size = "pair" if len(kinds) == 2 else "triple"
            longest[size] = max(longest[size], found)
        _, end = first_end(f, obligations(f, True), None)
        longest["first"] = max(longest["first"], end[2][LENGTH] if end else 0)
    told = ", ".join(f"{size} {cells}" for size, cells in longest.items())
    print(f"{count} functions, most cells of a failing end: {told}")


main()
