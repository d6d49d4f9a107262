#!/usr/bin/env python3
"""Measures `otp mend`: of groups of functions how many edits mend them, whether that leads back to what was edited, the
seconds, and how many functions by so many edits there are; and of slips in blocks of 19 cases.

usage: mend.py [SEED [PART]]      (after `otp`; of the groups below each PARTth function, every one where none is given;
                                  OTP=PROGRAM in the environment names another program to measure)

`back`: `otp same` says that what came out is what the function was before it was edited. Candidates are the functions
of all numbers of edits up to the one that mends, as reference/mend.py counts them.
"""
import os
import random
import re
import statistics
import sys
import tempfile

from measure import REFERENCE, TOP, measure

# The second program has the name of this file.
sys.path[:0] = [REFERENCE, os.path.join(TOP, "checks")]

import brute  # noqa: E402
import mend  # noqa: E402
from families import function_of  # noqa: E402
from mending import edited, right_functions, shipped  # noqa: E402
from program import PROGRAM, make_ready  # noqa: E402

GROUPS = {"one edit": (150, 1), "two edits": (150, 2), "four edits": (100, 4), "eight edits": (60, 8)}
CASES = 19


class Mended:
    def __init__(self, text, level, folder, before=None, edits=2):
        path, self.level = kept(folder, "function.ot", text), level
        options = ["--tp1"] if level == "tp1" else []
        self.answer, self.status, self.seconds, self.peak = measure([PROGRAM, "mend", *options, "--edits", str(edits), path])
        self.edits = len(re.findall(r"^# (?!as it was)", self.answer, re.MULTILINE))
        self.is_back = self.status == 0 and before is not None and is_same(folder, self.answer, before)
        self.candidates = candidates(text, self.edits if self.status == 0 else 0)

    def word(self):
        return str(self.edits) if self.status == 0 else self.answer


def kept(folder, name, text):
    path = os.path.join(folder, name)
    with open(path, "w", encoding="utf-8") as file:
        file.write(text + "\n")
    return path


def is_same(folder, text, other):
    return measure([PROGRAM, "same", kept(folder, "one.ot", text), kept(folder, "other.ot", other)])[1] == 0


def candidates(text, edits):
    mending = mend.Mending(brute.read_function(text), None)
    return sum(mending.length(count) for count in range(edits + 1))


def report(name, found):
    words = {}
    for it in found:
        words[it.word()] = words.get(it.word(), 0) + 1
    times, counts = [1000 * it.seconds for it in found], [it.candidates for it in found if it.status == 0]
    told = ", ".join(f"{count} by {word}" if word.isdigit() else f"{count} {word}" for word, count in sorted(words.items()))
    print(f"{name}: {len(found)}: {told}; {sum(it.is_back for it in found)} back; "
          f"{statistics.median(times):.1f} ms at the median, {max(times):.1f} at worst; "
          f"candidates {statistics.median(counts or [0]):,.0f}, {max(counts or [0]):,}", flush=True)


def drawn(draw, count, edits):
    right = right_functions()
    for _ in range(count):
        before, level = draw.choice(right)
        text = before
        for _ in range(edits):
            text = edited(draw, text)
        yield text, level, before


def blocks_of(text):
    """The function's lines, with the places of those of each block's cases."""
    lines, places = text.splitlines(), []
    for place, line in enumerate(lines):
        if line.startswith("block"):
            places.append([])
        elif line.startswith("case"):
            places[-1].append(place)
    return lines, places


def with_slips(text, count):
    """The function with the result of a middle case moved by one, in so many blocks."""
    lines, places = blocks_of(text)
    for block in places[:count]:
        place = block[len(block) // 2]
        guard, _, result = lines[place].rpartition(" : ")
        kind, at, *offset = result.split(" ", 2)
        lines[place] = f"{guard} : {kind} {at}" + ("" if offset else " + 1")
    return "\n".join(lines) + "\n"


def main():
    words = [int(word) for word in sys.argv[1:]]
    seed, part = words + [1, 1][len(words):]
    draw = random.Random(seed)
    make_ready()
    with tempfile.TemporaryDirectory() as folder:
        examples = list(shipped())
        report("examples, at both levels", [Mended(text, level, folder) for _, text, level in examples[::part]])
        for name, (count, edits) in GROUPS.items():
            report(name, [Mended(text, level, folder, before) for text, level, before in drawn(draw, count // part, edits)])
        great = function_of("split", CASES)
        for slips in range(1, 5):
            it = Mended(with_slips(great, slips), "tp2", folder, great, 3 if slips == 3 else 2)
            print(f"{slips} slips in as many blocks of {CASES} cases: {it.word()}, {it.seconds:.3f} s, {it.peak} KiB"
                  f"{', back' * it.is_back}", flush=True)


if __name__ == "__main__":
    main()
