#!/usr/bin/env python3
"""The shortest document on which a function breaks a property, by a search of its own, and by trying all documents.

    reference/least.py [--tp1] FUNCTION..        searches, turn by turn, and then tries all documents of fewer cells than the
                                             least length, and of as many, where these are at most 3
    reference/least.py --lines FUNCTION          writes the counterexample, and how many cells its document has
    reference/least.py --cert FUNCTION           writes a certificate that no shorter document breaks the property
    reference/least.py --judge FUNCTION FILE     judges one

It shares no code with the program: the plans and the judge are those of certificate.py and judge.py, and what is
tried is executed here on documents.
"""
import re
import sys
from itertools import product

from audit import holds
from certificate import INDEX, LENGTH, ZERO, Ask, Fails, Op, obligations, places_of, plan_of, read_function, token_at
from judge import File, Refused, judge_tree
import judge

FLOORS = [0, 0, 0, 0, 1, 97, 0, 2, 98, 0, 3, 99]
MOST = 1000


def below(f, kinds, bound):
    """The plan of an obligation on the documents of fewer cells than the bound, if there is one."""
    if bound is None:
        return lambda: plan_of(f, kinds)
    return lambda: Ask((LENGTH, ZERO, bound - 1), lambda: plan_of(f, kinds), lambda: judge.Holds())


def search(plan, names):
    """The tokens of the tree, the answers at the first failing end that some integers meet or None, and the cause."""
    tokens = []
    for here, answers in places_of(plan, names):
        if isinstance(here, Fails):
            return tokens, answers, here.why
        tokens.append(token_at(here))
    return tokens, None, None


def values_of(answers, names):
    """The least values above the floors that meet the answers."""
    values = FLOORS[:names]
    for _ in range(names + 1):
        for x, y, k in answers:  # x <= y + k
            values[y] = max(values[y], values[x] - k)
    assert values[0] == 0 and all(values[x] <= values[y] + k for x, y, k in answers)
    return values


def first_end(f, kinds_list, bound):
    """The sections up to the first failing end, and there the obligation, its cause and its least values."""
    sections = []
    for kinds in kinds_list:
        names = 3 + 3 * len(kinds)
        tokens, answers, why = search(below(f, kinds, bound), names)
        if answers is not None:
            behind = answers if bound is None else answers[1:]
            return sections, (kinds, why, values_of(behind, names))
        sections.append("ob " + " ".join(kinds) + "\n" + "".join(tokens) + "\n")
    return sections, None


def parts(f, size):
    """The obligations of one property alone."""
    return [kinds for kinds in obligations(f, True) if len(kinds) == size]


def least(f):
    """The lengths turn by turn, the last obligation, its cause and its values, and the certificate; or None."""
    _, end = first_end(f, obligations(f, True), None)
    if end is None:
        return None
    lengths = []
    while True:
        kinds, why, values = end
        cells = values[LENGTH]
        assert not lengths or cells < lengths[-1]
        lengths.append(cells)
        if cells > MOST:
            return lengths, kinds, why, values, None
        sections, end = first_end(f, parts(f, len(kinds)), cells)
        if end is None:
            level = "tp1" if len(kinds) == 2 else "tp2"
            return lengths, kinds, why, values, f"otlow 1 {level} {cells}\n" + "".join(sections) + "end\n"


# The judge of such a certificate: the first line here, and then the sections by the judge of certificates.

def judge_low(f, content):
    found = re.match(rb"otlow 1 (tp[12]) (0|[1-9][0-9]{0,3})\n", content)
    if found is None or int(found[2]) > MOST:
        lines = [f"otlow 1 {level} {bound}\n".encode() for level in ("tp1", "tp2") for bound in range(MOST + 1)]
        early = any(line.startswith(content) for line in lines)
        raise Refused(f"certificate {len(content)} truncated" if early else "certificate 0 token")
    level, bound = found[1].decode(), int(found[2])
    file = File(content)
    file.at = found.end()
    whole = judge.plan_of
    judge.plan_of = lambda f, kinds: below(f, kinds, bound)()
    try:
        for kinds in parts(f, 2 if level == "tp1" else 3):
            file.take([b"ob " + " ".join(kinds).encode() + b"\n"])
            judge_tree(file, f, kinds)
            file.take([b"\n"])
    finally:
        judge.plan_of = whole
    file.take([b"end\n"])
    if file.at < len(content):
        file.refuse("trailing")
    return f"at least {bound} {level}"


# Documents, executed: a cell is a character and whether it is live.

def enabled(op, doc):
    return op is None or 0 <= op.at < len(doc) + (op.kind == "ins")


def executed(f, op, doc):
    if op is None:
        return doc
    at = op.at
    if op.kind == "ins":
        return doc[:at] + ((op.ch, True),) + doc[at:]
    if op.kind == "upd":
        return doc[:at] + ((op.ch, doc[at][1]),) + doc[at + 1:]
    return doc[:at] + (((doc[at][0], False),) if f.tomb else ()) + doc[at + 1:]


def form(f, a, b):
    """`a` behind `b`, with nop as None; or the word undefined."""
    if a is None or b is None or "undefined" in (a, b):
        return "undefined" if "undefined" in (a, b) else a
    for guard, result in f.blocks[a.kind, b.kind]:
        if holds(guard, a, b):
            return None if result is None else a._replace(at=(a if result[0] else b).at + result[1])
    return "undefined"


def converges(f, doc, a, b):
    b1, a1 = form(f, b, a), form(f, a, b)
    if "undefined" in (a1, b1):
        return False
    one, other = executed(f, a, doc), executed(f, b, doc)
    return enabled(b1, one) and enabled(a1, other) and executed(f, b1, one) == executed(f, a1, other)


def commutes(f, a, b, c):
    left = form(f, form(f, c, a), form(f, b, a))
    right = form(f, form(f, c, b), form(f, a, b))
    return "undefined" not in (left, right, form(f, b, a), form(f, a, b)) and left == right


def allowed(f, ops):
    for i, a in enumerate(ops):
        for b in ops[i + 1:]:
            if f.sites and a.site == b.site or f.chars and "del" not in (a.kind, b.kind) and a.ch == b.ch:
                return False
    return True


def operations(f, length):
    for kind in f.kinds:
        for at in range(length + (kind == "ins")):
            for site, ch in product((1, 2, 3), (97,) if kind == "del" else (97, 98, 99)):
                yield Op(kind, at, ch, site)


def documents(f, length):
    cells = [(ch, live) for ch in (120, 121) for live in ((True, False) if f.tomb else (True,))]
    return product(cells, repeat=length)


def breaks_at(f, length, size):
    """Whether some operations break the property on some document of the length, by trying all."""
    ops = list(operations(f, length))
    if size == 2:
        return any(allowed(f, pair) and not converges(f, doc, *pair) for doc in documents(f, length) for pair in product(ops, repeat=2))
    return any(allowed(f, triple) and not commutes(f, *triple) for triple in product(ops, repeat=3))


# The lines of a counterexample: what the values name, executed.

def op_text(op):
    if op is None:
        return "nop"
    return f"{op.kind} {op.at} " + (f"{chr(op.ch)} " if op.kind != "del" else "") + str(op.site)


def doc_text(doc):
    return "[" + "".join(("" if live else "~") + chr(ch) for ch, live in doc) + "]"


def pair_side(f, doc, a, b):
    """The document behind the first and then the second; or what goes wrong there."""
    there = form(f, b, a)
    if there == "undefined":
        return there
    behind = executed(f, a, doc)
    return executed(f, there, behind) if enabled(there, behind) else "range"


def side_text(side):
    return side if isinstance(side, str) else doc_text(side) if isinstance(side, tuple) and not isinstance(side, Op) else op_text(side)


def lines_of(f, kinds, why, values):
    ops = [Op(kind, *(values[3 + 3 * place + part] for part in (0, 2, 1))) for place, kind in enumerate(kinds)]
    cells = values[LENGTH]
    doc = ((ord("y"), True),) * cells
    if why == "cells":
        # Which cell the left side reads at the index, for its character or its flag: each cell tells its own place by both.
        apart = tuple((("cell", place), ("cell", place)) for place in range(cells))
        read = [part[1] for part in pair_side(f, apart, *ops)[values[INDEX]] if isinstance(part, tuple)]
        doc = tuple((ord("x" if place in read else "y"), True) for place in range(cells))
    if len(kinds) == 2:
        left, right = pair_side(f, doc, *ops), pair_side(f, doc, *reversed(ops))
    else:
        a, b, c = ops
        left, right = form(f, form(f, c, a), form(f, b, a)), form(f, form(f, c, b), form(f, a, b))
    level = "tp1" if len(kinds) == 2 else "tp2"
    numbered = [f"op {number} {op_text(op)}" for number, op in enumerate(ops, 1)]
    return [f"no {level} {why.split()[-1]}", f"doc {doc_text(doc)}", *numbered, f"left {side_text(left)}", f"right {side_text(right)}", f"least {cells}"]


def main():
    words = sys.argv[1:]
    names = [word for word in words if not word.startswith("--")]
    functions = [(name, read_function(open(name).read())) for name in names[:1 if "--judge" in words else None]]
    if "--judge" in words:
        try:
            print(judge_low(functions[0][1], open(names[1], "rb").read()))
        except Refused as refused:
            print(refused)
            sys.exit(2)
        return
    for name, f in functions:
        found = least(f)
        if found is None:
            print("none" if "--cert" in words or "--lines" in words else f"{name}: none")
            continue
        lengths, kinds, why, values, cert = found
        if "--lines" in words:
            print("\n".join(lines_of(f, kinds, why, values) if cert else ["limit bound"]))
            continue
        if "--cert" in words:
            sys.stdout.write(cert or "limit bound\n")
            continue
        level = "tp1" if len(kinds) == 2 else "tp2"
        if cert is None:
            print(f"{name}: no {level} {why}, limit bound ({lengths[0]} cells)")
            continue
        assert judge_low(f, cert.encode()) == f"at least {lengths[-1]} {level}"
        tried = [n for n in range(lengths[-1] + 1) if n <= 3]
        broken = [n for n in tried if breaks_at(f, n, len(kinds))]
        assert broken == [n for n in tried if n == lengths[-1]], (name, lengths, broken)
        print(f"{name}: no {level} {why}, least {lengths[-1]}, by the lengths {lengths}; tried up to {max(tried)}")


if __name__ == "__main__":
    main()
