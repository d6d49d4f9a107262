#!/usr/bin/env python3
"""What the guards of a function reach, or where two functions differ, by a walk of its own.

usage: audit.py [--budget N] [--questions] FN       a line a case and a line a block
       audit.py [--budget N] [--questions] FN FN2   `same`, or the first block on which the two do not agree

The questions are those that docs/AUDIT.md lists, walked as reference/certificate.py walks those of an obligation. An end
that is reached by answers that some integers meet names two operations: the least values that meet the answers. It
ends with status 0 where nothing is found, 1 where something is, and 8 where a question list is longer than the budget.
Nothing of the program is used, and nothing of the program rests on it.
"""
import sys

from certificate import KINDS, ZERO, Ask, Fails, Holds, Op, ask_guard, differ, eq, le, places_of, read_function

FLOORS = [0, 0, 0, 0, 1, ord("a"), 0, 2, ord("b")]


def meant(f, a, b, go):
    return le((ZERO, 0), a.at, lambda: le((ZERO, 0), b.at, lambda: differ(f, a, b, go), Holds), Holds)


def reach(f, kinds, target):
    """Fails where the case of this number is taken, or for None where the block is open."""
    a, b = operations(kinds)
    cases = f.blocks[kinds]

    def from_case(number):
        if number == len(cases):
            return Fails("open")
        guard = cases[number][0]
        if number == target:
            return ask_guard(guard, a, b, lambda: Fails("taken"), Holds)
        return ask_guard(guard, a, b, Holds, lambda: from_case(number + 1))

    return meant(f, a, b, lambda: from_case(0))


def difference(f, g, kinds):
    """Fails where one function gives a result and the other none, or another one."""
    a, b = operations(kinds)

    def results(function, go):
        def from_case(number):
            if number == len(function.blocks[kinds]):
                return go(("none",))
            guard, result = function.blocks[kinds][number]
            if result is None:
                return ask_guard(guard, a, b, lambda: go(("nop",)), lambda: from_case(number + 1))
            base = (a if result[0] else b).at
            place = ("at", (base[0], base[1] + result[1]))
            return ask_guard(guard, a, b, lambda: go(place), lambda: from_case(number + 1))

        return from_case(0)

    def compare(left, right):
        if left[0] == right[0] == "at":
            return eq(left[1], right[1], Holds, lambda: Fails("differ"))
        return Holds() if left == right else Fails("differ")

    return meant(f, a, b, lambda: results(f, lambda left: results(g, lambda right: compare(left, right))))


def operations(kinds):
    return [Op(kind, (3 + 3 * i, 0), 5 + 3 * i, 4 + 3 * i) for i, kind in enumerate(kinds)]


def search(plan):
    """The answers at the first failing end that some integers meet, or None; and how many questions were asked."""
    questions = 0
    for here, answers in places_of(plan, 9):
        if isinstance(here, Fails):
            return answers, questions
        questions += isinstance(here, Ask)
    return None, questions


def least_values(answers):
    values = list(FLOORS)
    for _ in range(len(values) + 1):
        for x, y, k in answers:  # x <= y + k
            values[y] = max(values[y], values[x] - k)
    assert values[0] == 0 and all(values[x] <= values[y] + k for x, y, k in answers)
    return values


def written(op):
    if op is None:
        return "nop"
    at, ch, site = op.at, op.ch, op.site
    return f"del {at} {site}" if op.kind == "del" else f"{op.kind} {at} {chr(ch)} {site}"


def pair_at(kinds, answers):
    values = least_values(answers)
    return [Op(op.kind, values[op.at[0]], values[op.ch], values[op.site]) for op in operations(kinds)]


# The interpreter, by which each pair is looked at again.

def holds(guard, a, b):
    if guard[0] == "true":
        return True
    if guard[0] == "atom":
        _, sort, first, compare, offset = guard
        left, right = (a, b) if first else (b, a)
        things = {"p": "at", "s": "site", "c": "ch"}
        x, y = getattr(left, things[sort]), getattr(right, things[sort]) + offset
        return {"<": x < y, "<=": x <= y, "=": x == y}[compare]
    if guard[0] == "not":
        return not holds(guard[1], a, b)
    both = (holds(part, a, b) for part in guard[1:])
    return all(both) if guard[0] == "and" else any(both)


def transform(f, a, b):
    for guard, result in f.blocks[a.kind, b.kind]:
        if holds(guard, a, b):
            return None if result is None else a._replace(at=(a if result[0] else b).at + result[1])
    return "undefined"


def side(form):
    return form if form == "undefined" else written(form)


def blocks(f):
    return [(k, l) for k in KINDS for l in KINDS if k in f.kinds and l in f.kinds]


def audit(f, budget, counts):
    lines, status = [], 0
    for kinds in blocks(f):
        name = " ".join(kinds)
        for number in list(range(len(f.blocks[kinds]))) + [None]:
            answers, questions = search(lambda: reach(f, kinds, number))
            counts.append(questions)
            if questions > budget:
                return ["spent"], 8
            what = f"block {name}" if number is None else f"case {name} {number}"
            if answers is None:
                lines.append(f"{what} {'total' if number is None else 'never'}")
                status = status if number is None else 1
                continue
            a, b = pair_at(kinds, answers)
            true = [holds(guard, a, b) for guard, _ in f.blocks[kinds]]
            assert not any(true) if number is None else true.index(True) == number
            lines.append(f"{what} {'open' if number is None else 'taken'} {written(a)} against {written(b)}")
            status = 1 if number is None else status
    return lines, status


def same(f, g, budget, counts):
    if (f.tomb, set(f.kinds), f.sites, f.chars) != (g.tomb, set(g.kinds), g.sites, g.chars):
        return ["differ head"], 1
    for kinds in blocks(f):
        answers, questions = search(lambda: difference(f, g, kinds))
        counts.append(questions)
        if questions > budget:
            return ["spent"], 8
        if answers is not None:
            a, b = pair_at(kinds, answers)
            left, right = side(transform(f, a, b)), side(transform(g, a, b))
            assert left != right
            ops = [f"op 1 {written(a)}", f"op 2 {written(b)}"]
            return [f"differ {' '.join(kinds)}"] + ops + [f"left {left}", f"right {right}"], 1
    return ["same"], 0


def main():
    words, budget, counts = sys.argv[1:], 1000000, []
    if "--budget" in words:
        at = words.index("--budget")
        budget = int(words[at + 1])
        del words[at : at + 2]
    files = [word for word in words if not word.startswith("--")]
    functions = [read_function(open(name).read()) for name in files]
    lines, status = audit(functions[0], budget, counts) if len(functions) == 1 else same(*functions, budget, counts)
    print("\n".join(lines))
    if "--questions" in words:
        print(" ".join(map(str, counts)), file=sys.stderr)
    sys.exit(status)


if __name__ == "__main__":
    main()
