#!/usr/bin/env python3
"""Mends a function by the fewest edits, by making all sequences of edits, the fewest first.

usage: mend.py [--tp1] [--edits N] [--budget M] [--alone] [--told] FN

It makes every sequence of up to N edits (2), as docs/MEND.md lists them, and writes the first function in the order of
that page that has the level, after a comment line for each edit. Each one before it is refuted by operations: for TP1 by
two on a document of up to three cells, else by a counterexample that another one had. What is left goes to the program's
`prove`, or with --alone to the search of reference/certificate.py; where that says no, its counterexample is executed
here. With --told, standard error says what was made, left and proved. It ends with status 0; with 1 and `none N`, or
`none` where no function of the head has both; or with 8 and `spent` where more than M functions have one number of
edits, or where `prove` is spent. It reads, prints and executes by reference/brute.py; nothing else of the program is
used.
"""
import itertools
import math
import os
import re
import subprocess
import sys
import tempfile
from collections import namedtuple

import brute
import certificate
import least
from brute import KINDS, Case, Operation

TOP = os.path.dirname(os.path.dirname(os.path.abspath(__file__)))
PROGRAM = os.path.abspath(os.environ.get("OTP") or os.path.join(TOP, "out/otp"))

MOST_CASES, CELLS, BUDGET = 64, 3, 1_000_000
ASSUMPTIONS = ("sites", "chars")
SORTS = {"s": "sites", "c": "chars", "p": None}
NEW_RESULTS = (("p1", 0), ("p1", 1), ("p1", -1), "nop")

# Some edits of the block of two kinds: where each stands in the list of edits, and what comes of them.
Way = namedtuple("Way", "kinds places size weight changes block")
# Some edits of a function: what is compared of two, in this order, and then the edits and the blocks.
Member = namedtuple("Member", "assumed size weight places edits put blocks")


# Atoms and guards, as brute.py reads them.

def plain_atom(sort, left, compare):
    return ("atom", f"{sort}{left}", compare, f"{sort}{3 - left}", 0)


def atoms_of(sort, differ):
    """What an atom of a sort can say. Where two of the sort differ, `<=` says what `<` does."""
    signs = [(1, "<"), (1, "="), (2, "<")] if differ else [(1, "<"), (1, "<="), (1, "="), (2, "<"), (2, "<=")]
    return [plain_atom(sort, left, compare) for left, compare in signs]


def says(atom, differ):
    """Of two atoms that say the same this is one."""
    _, left, compare, _, offset = atom
    if compare == "=" and offset == 0:
        return "="
    return "<" if differ and compare == "<=" else compare, left, offset


def atoms_in(guard):
    return [guard] if guard[0] == "atom" else [atom for part in guard[1:] for atom in atoms_in(part)]


def with_atom(guard, number, atom):
    """The guard with another atom in place of one, counted from the left."""
    if guard[0] == "atom":
        return atom if number == 0 else guard
    parts = []
    for part in guard[1:]:
        parts.append(with_atom(part, number, atom))
        number -= len(atoms_in(part))
    return (guard[0], *parts)


def new_guards(both_have_chars, assumed):
    """Of a case that is put in: at one place, and something breaks the tie; or a comparison of the places; or always."""
    for sort in "sc" if both_have_chars else "s":
        weak = [] if SORTS[sort] in assumed else [(1, "<="), (2, "<="), (1, "=")]
        for left, compare in [(1, "<"), (2, "<"), *weak]:
            yield ("and", plain_atom("p", 1, "="), plain_atom(sort, left, compare))
    for left, compare in [(1, "="), (1, "<"), (2, "<"), (1, "<="), (2, "<=")]:
        yield plain_atom("p", left, compare)
    yield ("true",)


# What edits weigh.

def weight_of_new(case):
    stays = case.result == ("p1", 0)
    if case.guard[0] != "and":
        return 4
    _, left, compare, _, _ = case.guard[2]
    if compare != "=" and stays != (left[1] == "1"):
        return 4
    return 2 if stays else 3


def weight_of_nop(kinds, result):
    return 4 if result == "nop" and kinds[0] != kinds[1] else 0


# The changes of a block's cases, in their order, each with its weight and what becomes of the cases.

def atom_changes(cases, assumed):
    for number, case in enumerate(cases):
        for place, atom in enumerate(atoms_in(case.guard)):
            sort = atom[1][0]
            differ = SORTS[sort] in assumed
            for other in atoms_of(sort, differ):
                if says(other, differ) != says(atom, differ):
                    new = case._replace(guard=with_atom(case.guard, place, other))
                    yield ("atom", number, atom, other), 1, cases[:number] + (new,) + cases[number + 1:]


def result_changes(kinds, cases):
    for number, case in enumerate(cases):
        for other in NEW_RESULTS:
            if other != case.result:
                weight = (3 if "nop" in (case.result, other) else 1) + weight_of_nop(kinds, other)
                new = case._replace(result=other)
                yield ("result", number, case.result, other), weight, cases[:number] + (new,) + cases[number + 1:]


def new_cases(kinds, assumed):
    for guard in new_guards("del" not in kinds, assumed):
        for result in NEW_RESULTS:
            case = Case(guard, result)
            yield case, weight_of_new(case) + weight_of_nop(kinds, result)


def changes(kinds, cases, assumed):
    yield from atom_changes(cases, assumed)
    yield from result_changes(kinds, cases)
    for number, case in enumerate(cases):
        yield ("out", number, case), 1, cases[:number] + cases[number + 1:]
    for number, (case, after) in enumerate(zip(cases, cases[1:])):
        yield ("swap", number), 2, cases[:number] + (after, case) + cases[number + 2:]
    if len(cases) < MOST_CASES:
        new = list(new_cases(kinds, assumed))
        for number in range(len(cases) + 1):
            for case, weight in new:
                yield ("put", number, case), weight, cases[:number] + (case,) + cases[number:]


# The lines.

def result_text(kinds, result):
    return result if result == "nop" else f"{kinds[0]} {result[0]}{brute.offset_text(result[1])}"


def case_text(kinds, case):
    return f"case {brute.guard_text(case.guard)} : {result_text(kinds, case.result)}"


def edit_line(kinds, change):
    word, number, *parts = change
    if word == "atom":
        told = " becomes ".join(map(brute.guard_text, parts))
    elif word == "result":
        told = " becomes ".join(result_text(kinds, part) for part in parts)
    elif word == "swap":
        told = f"changes places with {number + 1}"
    else:
        told = case_text(kinds, *parts) + (" taken out" if word == "out" else " put in")
    return f"# {' '.join(kinds)} {number}: {told}"


# TP1 on small documents, in all situations at once: a number is a set of situations, with a bit for each.

def moved(a, b, result):
    return None if result == "nop" else a._replace(at=(a if result[0] == "p1" else b).at + result[1])


class Ground:
    """The situations of a pair of kinds: two operations on a document of up to three cells, no two of which are alike."""

    def __init__(self, f, kinds):
        self.f, both_have_chars = f, "del" not in kinds
        letters = brute.orders(2, False, "ab") if both_have_chars else [("a", "b")]
        self.documents = [brute.different(length)[0] for length in range(CELLS + 1)]
        self.situations = [
            (doc, *(Operation(*parts) for parts in zip(kinds, places, chars, sites)))
            for doc in self.documents
            for places in itertools.product(*(range(len(doc) + (kind == "ins")) for kind in kinds))
            for sites in brute.orders(2, False, (1, 2))
            for chars in letters
        ]
        self.all = (1 << len(self.situations)) - 1
        self.guards, self.meetings = ({}, {}), {}
        self.allowed = {
            assumed: self.where(lambda _, a, b: not ("sites" in assumed and a.site == b.site
                                                     or "chars" in assumed and both_have_chars and a.ch == b.ch))
            for assumed in ((), ("sites",), ("chars",), ASSUMPTIONS)
        }

    def where(self, holds):
        return sum(1 << bit for bit, it in enumerate(self.situations) if holds(*it))

    def of_atom(self, atom, turned):
        """Where an atom holds of the two operations, in this order or turned."""
        _, left, compare, _, offset = atom
        read = {"p": lambda op: op.at, "s": lambda op: op.site, "c": lambda op: op.ch}[left[0]]
        swapped = (left[1] == "2") != turned

        def holds(_, a, b):
            x, y = (read(b), read(a)) if swapped else (read(a), read(b))
            y = y + offset if offset else y
            return x < y if compare == "<" else x <= y if compare == "<=" else x == y

        return self.where(holds)

    def of_guard(self, guard, turned):
        kept = self.guards[turned]
        if guard not in kept:
            word, *parts = guard
            if word in ("atom", "true"):
                kept[guard] = self.all if word == "true" else self.of_atom(guard, turned)
            else:
                first, *others = (self.of_guard(part, turned) for part in parts)
                kept[guard] = ~first & self.all if word == "not" else first & others[0] if word == "and" else first | others[0]
        return kept[guard]

    def results(self, cases, turned):
        """Which result comes where, with None where none comes."""
        left, found, kept = self.all, {}, self.guards[turned]
        for guard, result in cases:
            taken = left & (kept[guard] if guard in kept else self.of_guard(guard, turned))
            if taken:
                found[result] = found.get(result, 0) | taken
                left ^= taken
        if left:
            found[None] = left
        return list(found.items())

    def broken(self, ahead, back):
        """Where the results of two blocks do not lead to one document."""
        found = 0
        for result, here in ahead:
            for other, there in back:
                if here & there:
                    if (result, other) not in self.meetings:
                        self.meetings[result, other] = self.where(lambda *it: not self.meet(*it, result, other))
                    found |= here & there & self.meetings[result, other]
        return found

    def meet(self, doc, a, b, result, other):
        if result is None or other is None:
            return False
        a1, b1 = moved(a, b, result), moved(b, a, other)
        behind_a, behind_b = brute.execute(self.f, a, doc), brute.execute(self.f, b, doc)
        return (brute.is_enabled(b1, behind_a) and brute.is_enabled(a1, behind_b)
                and brute.execute(self.f, b1, behind_a) == brute.execute(self.f, a1, behind_b))


# Proofs. Each prover gives None of a function that has the level, otherwise a document of so many cells and operations.

class Spent(Exception):
    pass


class Program:
    def __init__(self, level, folder):
        self.words = [PROGRAM, "prove", *(["--tp1"] if level == "tp1" else [])]
        self.path = os.path.join(folder, "function")

    def counterexample(self, text):
        with open(self.path, "w", encoding="utf-8") as file:
            file.write(text)
        ran = subprocess.run([*self.words, self.path], stdout=subprocess.PIPE, check=False)
        if ran.returncode not in (0, 1):
            raise Spent(ran.returncode)
        if ran.returncode == 0:
            return None
        lines = ran.stdout.decode("utf-8").splitlines()
        ops = [line.split(" ")[2:] for line in lines if line.startswith("op ")]
        length = len(re.findall(r"~?[^~]", lines[1][len("doc ["):-1]))
        return length, [Operation(kind, int(at), *(rest if len(rest) == 2 else ("a", *rest)))._replace(site=int(rest[-1]))
                        for kind, at, *rest in ops]


class Alone:
    def __init__(self, level):
        self.tp2 = level == "tp2"

    def counterexample(self, text):
        f = certificate.read_function(text)
        for kinds in certificate.obligations(f, self.tp2):
            names = 3 + 3 * len(kinds)
            _, answers, why = least.search(lambda: certificate.plan_of(f, kinds), names)
            if why is not None:
                values = least.values_of(answers, names)
                parts = zip(kinds, values[3::3], values[5::3], values[4::3])
                return values[certificate.LENGTH], [Operation(kind, at, chr(ch), site) for kind, at, ch, site in parts]
        return None


# The search.

class Mending:
    def __init__(self, f, prover):
        self.f, self.prover = f, prover
        self.assumed = tuple(it for it in ASSUMPTIONS if getattr(f, it))
        kinds = [kind for kind in KINDS if kind in f.kinds]
        self.pairs = [(k, l) for i, k in enumerate(kinds) for l in kinds[i:]]
        self.grounds = {pair: Ground(f, pair) for pair in self.pairs}
        self.of_pairs, self.takers, self.refutations = {}, {}, []
        self.made = self.left = self.proved = 0

    def ways(self, kinds, count):
        """All ways to make so many edits of one block, in their order."""
        if count == 0:
            yield Way(kinds, (), 0, 0, (), tuple(self.f.blocks[kinds]))
            return
        stage = 3 * KINDS.index(kinds[0]) + KINDS.index(kinds[1])
        for way in self.ways(kinds, count - 1):
            for place, (change, weight, block) in enumerate(changes(kinds, way.block, self.assumed)):
                yield Way(kinds, (*way.places, (stage, place)), None, way.weight + weight, (*way.changes, change), block)

    def ways_of_pair(self, pair, count):
        """All ways to make so many edits of the two blocks of a pair, each with the situations that are broken."""
        ground, (k, l) = self.grounds[pair], pair
        if k == l:
            for way in self.ways(pair, count):
                yield (way,), ground.broken(ground.results(way.block, False), ground.results(way.block, True))
            return
        for first in range(count + 1):
            back = [(way, ground.results(way.block, True)) for way in self.ways((l, k), count - first)]
            for way in self.ways(pair, first):
                ahead = ground.results(way.block, False)
                for other, results in back:
                    yield (way, other), ground.broken(ahead, results)

    def of_pair(self, pair, count, assumed):
        """Those of them that break no situation which is allowed where this is assumed."""
        if (pair, count) not in self.of_pairs:
            allowed = self.grounds[pair].allowed
            found = {it: [] for it in allowed}
            for ways, broken in self.ways_of_pair(pair, count):
                self.made += 1
                for it, mask in allowed.items():
                    if not broken & mask:
                        found[it].append(tuple(way._replace(size=block_size(way.block)) for way in ways))
            self.of_pairs[pair, count] = found
        return self.of_pairs[pair, count][assumed]

    def members(self, count):
        """The functions that so many edits lead to, but those that a small document refutes, in their order."""
        more = [it for it in ASSUMPTIONS if it not in self.assumed]
        members = []
        for number in range(min(count, len(more)) + 1):
            for put in itertools.combinations(more, number):
                for counts in itertools.product(range(count + 1), repeat=len(self.pairs)):
                    if sum(counts) + number == count:
                        members += self.joined(counts, put)
        return sorted(members, key=lambda member: member[:4])

    def joined(self, counts, put):
        """Those with so many edits of each pair of kinds, and with these assumptions put in."""
        assumed, lists = tuple(it for it in ASSUMPTIONS if it in self.assumed + put), {}
        # First the pairs that are edited least: where one that is left as it is is broken, no edit of others helps.
        for count, pair in sorted(zip(counts, self.pairs)):
            lists[pair] = self.of_pair(pair, count, assumed)
            if not lists[pair]:
                return
        last = tuple((9 + ASSUMPTIONS.index(it), 0) for it in put)
        for chosen in itertools.product(*lists.values()):
            ways = sorted((way for ways in chosen for way in ways), key=lambda way: way.places)
            yield Member(len(put), sum(way.size for way in ways), sum(way.weight for way in ways),
                         tuple(place for way in ways for place in way.places) + last,
                         [(way.kinds, change) for way in ways for change in way.changes], put,
                         {way.kinds: way.block for way in ways})

    def function(self, member):
        for block in member.blocks.values():
            if block not in self.takers:
                self.takers[block] = eval(brute.taker(block), {"UNDEFINED": brute.UNDEFINED})
        takers = {kinds: self.takers[block] for kinds, block in member.blocks.items()}
        assumed = {it: True for it in member.put}
        return self.f._replace(blocks=member.blocks, takers=takers, **assumed)

    def refuted(self, f, length, ops):
        """Whether operations on a document of so many cells, which are allowed, break the property."""
        if any(f.sites and a.site == b.site or f.chars and "del" not in (a.kind, b.kind) and a.ch == b.ch
               for a, b in itertools.combinations(ops, 2)):
            return False
        if len(ops) == 2:
            return brute.tp1_cause(f, brute.different(length)[0], *ops) is not None
        return brute.tp2_cause(f, *ops) is not None

    def has_level(self, member):
        f = self.function(member)
        for place, refutation in enumerate(self.refutations):
            if self.refuted(f, *refutation):
                # Those that refuted something come first.
                self.refutations.insert(0, self.refutations.pop(place))
                return False
        self.proved += 1
        refutation = self.prover.counterexample(brute.function_text(f))
        if refutation is None:
            return True
        assert self.refuted(f, *refutation), (brute.function_text(f), refutation)
        self.refutations.insert(0, refutation)
        return False

    def ways_counted(self, kinds, count):
        """How many ways there are to make so many edits of one block."""
        if count == 0:
            return 1
        return sum(1 for way in self.ways(kinds, count - 1) for _ in changes(kinds, way.block, self.assumed))

    def length(self, count):
        """How many functions so many edits lead to, each sequence of edits counted."""
        lengths = [math.comb(2 - len(self.assumed), number) for number in range(count + 1)]
        for kinds in self.f.blocks:
            ways = [self.ways_counted(kinds, number) for number in range(count + 1)]
            lengths = [sum(ways[n] * lengths[number - n] for n in range(number + 1)) for number in range(count + 1)]
        return lengths[count]

    def mended(self, most, budget):
        """The first member that has the level, if one has it."""
        for count in range(most + 1):
            if self.length(count) > budget:
                raise Spent()
            members = self.members(count)
            self.left += len(members)
            for member in members:
                if self.has_level(member):
                    return member
        return None


def guard_size(guard):
    """The atoms of a guard; `true` counts as one."""
    return 1 if guard[0] in ("atom", "true") else sum(map(guard_size, guard[1:]))


def block_size(block):
    return sum(1 + guard_size(case.guard) for case in block)


def answer(text, level="tp2", most=2, prover=None, budget=BUDGET):
    """The status and the text that `mend` ends with and writes, and the search, if there was one."""
    f = brute.read_function(text)
    if level == "tp2" and not f.tomb and {"ins", "del"} <= set(f.kinds):
        return 1, "none\n", None
    mending = Mending(f, prover or Alone(level))
    try:
        member = mending.mended(most, budget)
    except Spent:
        return 8, "spent\n", mending
    if member is None:
        return 1, f"none {most}\n", mending
    lines = [edit_line(*edit) for edit in member.edits] + [f"# assumes more: {it} differ" for it in member.put]
    return 0, "\n".join([*(lines or ["# as it was"]), brute.function_text(mending.function(member))]), mending


def main():
    words, numbers = sys.argv[1:], {"--edits": 2, "--budget": BUDGET}
    for option in numbers:
        if option in words:
            place = words.index(option)
            numbers[option] = int(words[place + 1])
            del words[place : place + 2]
    level = "tp1" if "--tp1" in words else "tp2"
    with open([word for word in words if not word.startswith("--")][0], encoding="utf-8") as file:
        text = file.read()
    with tempfile.TemporaryDirectory() as folder:
        prover = Alone(level) if "--alone" in words else Program(level, folder)
        status, lines, mending = answer(text, level, numbers["--edits"], prover, numbers["--budget"])
    sys.stdout.write(lines)
    if "--told" in words and mending:
        print(f"{mending.made} made, {mending.left} left, {mending.proved} proved", file=sys.stderr)
    sys.exit(status)


if __name__ == "__main__":
    main()
