#!/usr/bin/env python3
"""Tries TP1 and TP2 of functions by their definitions, on all documents up to a length.

usage: brute.py [--cells N] [--at N] FN..   a line a function: each property with `yes`, or with `no`, the number of
                                            cells of the shortest document that breaks it, and the causes found there
       brute.py --print FN                  the function as docs/LANGUAGE.md says that it is printed

All documents of up to N cells (3) are tried: of each character `x` or `y`, and with tombstones of each cell live or
dead. So are all operations on them, with each order of their sites and of their characters, ties among them. `--at N`
tries further lengths, N - 1 and N, on the one document whose cells are all different and live. A `yes` says that no
document which was tried breaks the property, and no more. The parser, the interpreter and the printer are its own:
nothing of the program and of the other scripts is used.
"""
import itertools
import re
import sys
from collections import namedtuple

KINDS = ("ins", "del", "upd")
UNDEFINED = "undefined"

Operation = namedtuple("Operation", "kind at ch site")
Case = namedtuple("Case", "guard result")  # a result is "nop" or (name of a position, offset)
Function = namedtuple("Function", "tomb kinds sites chars blocks takers")

# How tight an operator binds.
LEVELS = {"or": 0, "and": 1, "not": 2, "true": 3, "atom": 3}


# Reading.

class Line:
    def __init__(self, text):
        self.words = re.findall(r"[a-z]\w*|\d+|<=|[<=+\-():]", text.partition("#")[0])[::-1]

    def peek(self):
        return self.words[-1] if self.words else None

    def pop(self, *wanted):
        word = self.words.pop() if self.words else None
        if wanted and word not in wanted:
            raise ValueError(f"{word} in place of {' or '.join(wanted)}")
        return word

    def offset(self):
        if self.peek() not in ("+", "-"):
            return 0
        return int(self.pop() + self.pop())

    def disjunction(self):
        guard = self.conjunction()
        while self.peek() == "or":
            self.pop()
            guard = ("or", guard, self.conjunction())
        return guard

    def conjunction(self):
        guard = self.single()
        while self.peek() == "and":
            self.pop()
            guard = ("and", guard, self.single())
        return guard

    def single(self):
        word = self.pop()
        if word == "true":
            return ("true",)
        if word == "not":
            return ("not", self.single())
        if word == "(":
            guard = self.disjunction()
            self.pop(")")
            return guard
        compare = self.pop("<", "<=", "=")
        return ("atom", word, compare, self.pop(), self.offset())

    def result(self, kind):
        if self.pop("nop", kind) == "nop":
            return "nop"
        return self.pop("p1", "p2"), self.offset()


def read_function(text):
    tomb, kinds, assumed, blocks, block = False, (), set(), {}, None
    for line in map(Line, text.splitlines()):
        word = line.pop() if line.words else None
        if word == "text":
            tomb = line.pop("plain", "tomb") == "tomb"
        elif word == "kinds":
            kinds = tuple(reversed(line.words))
        elif word == "assume":
            assumed.add(line.pop("sites", "chars"))
        elif word == "block":
            block = (line.pop(*kinds), line.pop(*kinds))
            blocks[block] = []
        elif word == "case":
            guard = line.disjunction()
            line.pop(":")
            blocks[block].append(Case(guard, line.result(block[0])))
        elif word == "end":
            break
    takers = {block: eval(taker(cases), {"UNDEFINED": UNDEFINED}) for block, cases in blocks.items()}
    return Function(tomb, kinds, "sites" in assumed, "chars" in assumed, blocks, takers)


# Printing.

def offset_text(offset):
    return f" {'-' if offset < 0 else '+'} {abs(offset)}" if offset else ""


def guard_text(guard, least=0):
    """The guard with the fewest parentheses, where its place wants operators that bind at least so tight."""
    word, *parts = guard
    if word == "atom":
        left, compare, right, offset = parts
        return f"{left} {compare} {right}{offset_text(offset)}"
    if word == "true":
        return "true"
    level = LEVELS[word]
    if word == "not":
        text = "not " + guard_text(parts[0], level)
    else:
        # It is grouped from the left: on the right one that is alike needs parentheses.
        text = f"{guard_text(parts[0], level)} {word} {guard_text(parts[1], level + 1)}"
    return f"( {text} )" if level < least else text


def function_text(f):
    version, mode = 2 if "upd" in f.kinds else 1, "tomb" if f.tomb else "plain"
    lines = [f"otfn {version}", f"text {mode}", "kinds " + " ".join(f.kinds)]
    lines += ["assume sites differ"] * f.sites + ["assume chars differ"] * f.chars
    for block in itertools.product(f.kinds, repeat=2):
        lines.append("block " + " ".join(block))
        for guard, result in f.blocks[block]:
            end = result if result == "nop" else f"{block[0]} {result[0]}{offset_text(result[1])}"
            lines.append(f"case {guard_text(guard)} : {end}")
    return "\n".join([*lines, "end", ""])


# Transforming, as an expression that Python computes.

def python_text(guard):
    word, *parts = guard
    if word == "atom":
        left, compare, right, offset = parts
        return f"({left} {'==' if compare == '=' else compare} {right}{offset_text(offset)})"
    if word == "true":
        return "True"
    if word == "not":
        return f"(not {python_text(parts[0])})"
    return f"({python_text(parts[0])} {word} {python_text(parts[1])})"


def taker(cases):
    """What the first case with a true guard makes of the position: None for nop."""
    text = "UNDEFINED"
    for guard, result in reversed(cases):
        end = "None" if result == "nop" else f"{result[0]} + {result[1]}"
        text = f"({end} if {python_text(guard)} else {text})"
    return f"lambda p1, c1, s1, p2, c2, s2: {text}"


def transform(f, a, b):
    """What `a` becomes where `b` was executed before it; None is nop."""
    if a is None or b is None:
        return a
    if a == UNDEFINED or b == UNDEFINED:
        return UNDEFINED
    at = f.takers[a.kind, b.kind](*a[1:], *b[1:])
    if at is None or at == UNDEFINED:
        return at
    return Operation(a.kind, at, a.ch, a.site)


def is_enabled(op, document):
    return op is None or 0 <= op.at < len(document) + (op.kind == "ins")


def execute(f, op, document):
    """The document behind an operation that is enabled on it. A cell is a character and whether it is live."""
    if op is None:
        return document
    at = op.at
    before, behind = document[:at], document[at + 1 :]
    if op.kind == "ins":
        return before + ((op.ch, True),) + document[at:]
    if op.kind == "upd":
        return before + ((op.ch, document[at][1]),) + behind
    return before + ((document[at][0], False),) * f.tomb + behind


# The two properties at operations on a document: None where they hold, or what is wrong.

def tp1_cause(f, document, a, b):
    a1, b1 = transform(f, a, b), transform(f, b, a)
    if UNDEFINED in (a1, b1):
        return "undefined"
    behind_a, behind_b = execute(f, a, document), execute(f, b, document)
    if not is_enabled(b1, behind_a) or not is_enabled(a1, behind_b):
        return "range"
    left, right = execute(f, b1, behind_a), execute(f, a1, behind_b)
    if len(left) != len(right):
        return "lengths"
    return None if left == right else "cells"


def tp2_cause(f, a, b, c):
    a1, b1 = transform(f, a, b), transform(f, b, a)
    left = transform(f, transform(f, c, a), b1)
    right = transform(f, transform(f, c, b), a1)
    if UNDEFINED in (a1, b1, left, right):
        return "undefined"
    return None if left == right else "operations"


# What is tried.

def orders(count, differ, values):
    """The values of so many operations, in each order, with ties where they need not differ."""
    found = set()
    for ranks in itertools.product(range(count), repeat=count):
        if sorted(set(ranks)) == list(range(max(ranks) + 1)) and (not differ or len(set(ranks)) == count):
            found.add(tuple(values[rank] for rank in ranks))
    return sorted(found)


def names(f, letter):
    """Whether a guard speaks of sites or of characters."""
    return any(re.search(rf"\b{letter}[12]\b", guard_text(case.guard)) for cases in f.blocks.values() for case in cases)


def places(f, cells):
    return [(kind, at) for kind in f.kinds for at in range(cells + (kind == "ins"))]


def documents(f, cells):
    kinds_of_cells = [(ch, live) for ch in "xy" for live in ((True, False) if f.tomb else (True,))]
    return list(itertools.product(kinds_of_cells, repeat=cells))


def tuples(f, cells, count):
    """Operations that are enabled on a document of so many cells and meet what is assumed."""
    sites = orders(count, f.sites, (1, 2, 3)) if names(f, "s") else [(1, 2, 3)[:count]]
    # Where no guard speaks of characters, those of three operations decide nothing.
    chars = orders(count, False, "abc") if names(f, "c") or count == 2 else [tuple("abc")]
    for chosen in itertools.product(places(f, cells), repeat=count):
        lettered = [i for i, (kind, _) in enumerate(chosen) if kind != "del"]
        for letters in chars:
            shown = [letters[i] for i in lettered]
            if f.chars and len(set(shown)) < len(shown):
                continue
            for numbers in sites:
                yield [Operation(kind, at, ch, site) for (kind, at), ch, site in zip(chosen, letters, numbers)]


def tp1_causes(f, cells, docs):
    return {cause for a, b in tuples(f, cells, 2) for doc in docs if (cause := tp1_cause(f, doc, a, b))}


def tp2_causes(f, cells, _):
    return {cause for triple in tuples(f, cells, 3) if (cause := tp2_cause(f, *triple))}


def different(cells):
    return [tuple((chr(0x4E00 + at), True) for at in range(cells))]


def verdict(f, causes_of, most, at):
    """Whether nothing was found; otherwise the least length at which something was, and what."""
    lengths = [(cells, documents(f, cells)) for cells in range(most + 1)]
    lengths += [(cells, different(cells)) for cells in (at - 1, at) if cells > most]
    for cells, docs in lengths:
        if causes := causes_of(f, cells, docs):
            return "no", str(cells), ",".join(sorted(causes))
    return "yes", "-", "-"


def verdicts(f, most=3, at=0):
    """Of TP1 and of TP2. Far from each other operations are tried for TP1 alone."""
    return verdict(f, tp1_causes, most, at) + verdict(f, tp2_causes, most, 0)


def main():
    words, numbers = sys.argv[1:], {"--cells": 3, "--at": 0}
    for option in numbers:
        if option in words:
            place = words.index(option)
            numbers[option] = int(words[place + 1])
            del words[place : place + 2]
    for name in (word for word in words if word != "--print"):
        with open(name, encoding="utf-8") as file:
            f = read_function(file.read())
        if "--print" in words:
            sys.stdout.write(function_text(f))
        else:
            found = verdicts(f, *numbers.values())
            print(f"{name}: tp1 {' '.join(found[:3])}, tp2 {' '.join(found[3:])}")


if __name__ == "__main__":
    main()
