#!/usr/bin/env python3
"""Which properties transformations can have, head by head, and functions that have them.

usage: heads.py [--z3]      a line a head: whether any transformation has TP1, and whether any has TP1 and TP2
       heads.py --template [--tp1] [--sites-differ] [--chars-differ] MODE KIND..
                            a function of that head with both properties, or with TP1; or `none tp2`, with status 1

A head is a mode (`plain`, `tomb`), some of the kinds `ins`, `del` and `upd`, and what is assumed to differ: 56 in all.
The search goes over all transformations that keep operations: what becomes of an operation is nop, or the same one at
any position. It looks at the documents of at most one cell, with two characters and three sites, and at what TP1 and
TP2 ask there. So `none` is an answer for all documents, and `some` one for these alone; of the functions that
`--template` prints, `checks/heads` asks `otp prove` on all documents.

The search is by narrowing and backtracking; with `--z3` the solver of that name answers in its place. Nothing of the
program and of the other scripts is used.
"""
import itertools
import subprocess
import sys
from collections import namedtuple

KINDS = ("ins", "del", "upd")
CHARACTERS = "xy"
SITES = (1, 2, 3)
CELLS = 1

Head = namedtuple("Head", "mode kinds sites chars")
Op = namedtuple("Op", "kind at ch site")
NOP = Op("nop", 0, None, None)


def heads():
    for mode in ("plain", "tomb"):
        for count in range(1, 4):
            for kinds in itertools.combinations(KINDS, count):
                for sites, chars in itertools.product((False, True), repeat=2):
                    yield Head(mode, kinds, sites, chars)


def name_of(head):
    assumed = [word for word, said in (("sites-differ", head.sites), ("chars-differ", head.chars)) if said]
    return " ".join([head.mode, *head.kinds, *assumed])


# What operations do. A cell is a character and whether it is shown.

def enabled(op, cells):
    return op.kind == "nop" or 0 <= op.at <= cells - (op.kind != "ins")


def document_after(mode, op, doc):
    if op.kind == "nop":
        return doc
    front, back = doc[:op.at], doc[op.at:]
    if op.kind == "ins":
        return front + ((op.ch, True),) + back
    (ch, live), rest = back[0], back[1:]
    if op.kind == "upd":
        return front + ((op.ch, live),) + rest
    return front + (((ch, False),) + rest if mode == "tomb" else rest)


def operations(kinds, cells):
    for kind in kinds:
        for at in range(cells + (kind == "ins")):
            for ch in (None,) if kind == "del" else CHARACTERS:
                for site in SITES:
                    yield Op(kind, at, ch, site)


def documents(mode):
    shown = (True, False) if mode == "tomb" else (True,)
    for cells in range(CELLS + 1):
        yield from itertools.product(itertools.product(CHARACTERS, shown), repeat=cells)


def allowed(head, a, b):
    chars_are_alike = a.ch is not None and a.ch == b.ch
    return not (head.sites and a.site == b.site) and not (head.chars and chars_are_alike)


# What the properties ask of a transformation, which is seen as a table of the values of pairs of operations.

def values(op):
    """What may become of an operation: nop, or the same at a position of a document with one more cell."""
    return (NOP,) if op == NOP else (NOP, *(op._replace(at=at) for at in range(CELLS + 2)))


def choices(head):
    """Of each two operations the pairs of values that TP1 leaves them, on all documents on which both are enabled."""
    left = {}
    for doc in documents(head.mode):
        for a, b in itertools.combinations_with_replacement(list(operations(head.kinds, len(doc))), 2):
            if not allowed(head, a, b):
                continue
            after_a, after_b = document_after(head.mode, a, doc), document_after(head.mode, b, doc)
            fit = {
                (x, y)
                for x in values(a) if enabled(x, len(after_b))
                for y in values(b) if enabled(y, len(after_a))
                if document_after(head.mode, x, after_b) == document_after(head.mode, y, after_a)
                and (a != b or x == y)
            }
            left[a, b] = left.get((a, b), fit) & fit
    return left


def triples(head):
    """Each three operations that TP2 speaks of."""
    for cells in range(CELLS + 1):
        all_of_them = list(operations(head.kinds, cells))
        for a, b in itertools.combinations(all_of_them, 2):
            if allowed(head, a, b):
                yield from ((a, b, c) for c in all_of_them if allowed(head, a, c) and allowed(head, b, c))


class Contradiction(Exception):
    pass


class Search:
    """The values that are left to each pair of operations, and the equations between two of them."""

    def __init__(self, head, level):
        self.pairs = choices(head)
        self.left = {}
        self.asked = list(triples(head)) if level == "tp2" else []

    def values_of(self, x, y):
        if (x, y) not in self.left:
            self.left[x, y] = frozenset(values(x))
        return self.left[x, y]

    def narrow(self, x, y, fit):
        """Whether less is left than before."""
        now = self.values_of(x, y) & fit
        if not now:
            raise Contradiction
        changed = now != self.left[x, y]
        self.left[x, y] = now
        return changed

    def only(self, x, y):
        found = self.values_of(x, y)
        return next(iter(found)) if len(found) == 1 else None

    def narrow_all(self):
        changed = True
        while changed:
            changed = False
            for (a, b), fit in self.pairs.items():
                fit = {(x, y) for x, y in fit if x in self.values_of(a, b) and y in self.values_of(b, a)}
                self.pairs[a, b] = fit
                changed |= self.narrow(a, b, {x for x, _ in fit})
                changed |= self.narrow(b, a, {y for _, y in fit})
            for a, b, c in self.asked:
                inner = self.only(c, a), self.only(b, a), self.only(c, b), self.only(a, b)
                if None not in inner:
                    one, other = inner[:2], inner[2:]
                    both = self.values_of(*one) & self.values_of(*other)
                    changed |= self.narrow(*one, both)
                    changed |= self.narrow(*other, both)

    def solved(self):
        """Whether a table meets everything: all pairs of values are tried that narrowing leaves."""
        try:
            self.narrow_all()
        except Contradiction:
            return False
        open_pair = next((pair for pair, fit in self.pairs.items() if len(fit) > 1), None)
        if open_pair is None:
            return True
        kept = dict(self.pairs), dict(self.left)
        for chosen in sorted(self.pairs[open_pair], key=lambda pair: rank(open_pair, pair)):
            self.pairs, self.left = dict(kept[0]), dict(kept[1])
            self.pairs[open_pair] = {chosen}
            if self.solved():
                return True
        return False


def rank(pair, chosen):
    """Which values are tried first: of two operations the one of the lower site and then character stays."""
    a, b = pair
    first = (a.site, a.ch or "") <= (b.site, b.ch or "")
    stays, other = chosen if first else chosen[::-1]
    return stays != (a if first else b), other.kind == "nop" and a.kind == "ins", chosen


def can_be_had(head, level):
    return Search(head, level).solved()


# The same asked of z3.

def formula(head, level):
    numbers = {NOP: 0}

    def number(op):
        return numbers.setdefault(op, len(numbers))

    def value(x, y):
        return f"(t {number(x)} {number(y)})"

    lines = ["(set-logic QF_UFLIA)", "(declare-fun t (Int Int) Int)"]
    for (a, b), fit in choices(head).items():
        ways = [f"(and (= {value(a, b)} {number(x)}) (= {value(b, a)} {number(y)}))" for x, y in fit]
        lines.append(f"(assert (or false {' '.join(ways)}))")
    for a, b, c in triples(head) if level == "tp2" else ():
        lines.append(f"(assert (= (t {value(c, a)} {value(b, a)}) (t {value(c, b)} {value(a, b)})))")
    return "\n".join([*lines, "(check-sat)"])


def z3_says(head, level):
    ran = subprocess.run(["z3", "-in"], input=formula(head, level), stdout=subprocess.PIPE, text=True, check=True)
    return {"sat": True, "unsat": False}[ran.stdout.strip()]


# Functions of the language.

def guards(first, second, head, level):
    """The cases of a block, each a guard and a result."""
    stay, tie = f"{first} p1", "s1 <= s2" if head.sites else "c1 <= c2"
    if first == second == "ins":
        return [(f"p1 < p2 or p1 = p2 and {tie}", stay), ("true", f"{first} p1 + 1")]
    if second == "ins":
        return [("p1 < p2", stay), ("true", f"{first} p1 + 1")]
    if first == second == "upd":
        return [(f"p1 < p2 or p2 < p1 or {tie}", stay), ("true", "nop")]
    if second == "upd" or head.mode == "tomb":
        return [("true", stay)]
    if first == "ins":
        return [("p1 <= p2", stay), ("true", f"{first} p1 - 1")]
    return [("p1 < p2", stay), ("p2 < p1", f"{first} p1 - 1"), ("true", "nop")]


def template(head, level):
    """The text of a function of the head that has the level, or none where no transformation has it."""
    if level == "tp2" and head.mode == "plain" and {"ins", "del"} <= set(head.kinds):
        return None
    lines = [f"otfn {2 if 'upd' in head.kinds else 1}", f"text {head.mode}", f"kinds {' '.join(head.kinds)}"]
    lines += ["assume sites differ"] * head.sites + ["assume chars differ"] * head.chars
    for first, second in itertools.product(head.kinds, repeat=2):
        lines.append(f"block {first} {second}")
        lines += [f"case {guard} : {result}" for guard, result in guards(first, second, head, level)]
    return "\n".join([*lines, "end", ""])


def main(words):
    if words[:1] == ["--template"]:
        mode, *kinds = [word for word in words[1:] if not word.startswith("--")]
        assumed = (option in words for option in ("--sites-differ", "--chars-differ"))
        head = Head(mode, tuple(kind for kind in KINDS if kind in kinds), *assumed)
        text = template(head, "tp1" if "--tp1" in words else "tp2")
        print("none tp2" if text is None else text, end="\n" if text is None else "")
        return 1 if text is None else 0
    answer = z3_says if words == ["--z3"] else can_be_had
    for head in heads():
        told = ["some" if answer(head, level) else "none" for level in ("tp1", "tp2")]
        print(f"{name_of(head)}: tp1 {told[0]}, tp2 {told[1]}", flush=True)
    return 0


if __name__ == "__main__":
    sys.exit(main(sys.argv[1:]))
