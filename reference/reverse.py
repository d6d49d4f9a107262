#!/usr/bin/env python3
"""Whether a second function takes back what the first one makes, by a walk of its own.

usage: reverse.py [--budget N] [--questions] F E

The questions are those that docs/REVERSE.md lists, walked as reference/audit.py walks those of guards. An end that is
reached by answers that some integers meet names a document of live cells `y` and two operations: the least values that
meet the answers. Whatever the questions say, the answer is looked at again by the interpreter: a loss is one, and where
the functions are said to be reversed, no operations on a document of up to 4 cells tell otherwise. It ends with status 0
where the second function reverses the first, 1 where it does not or mode or kinds differ, and 8 where a question list is
longer than the budget. Nothing of the program is used, and nothing of the program rests on it.
"""
import itertools
import sys

from audit import holds, least_values, operations, search, side
from certificate import KINDS, LENGTH, ZERO, Fails, Holds, Op, ask_guard, differ, enabled, eq, le, read_function, transform


def reversal(f, e, kinds):
    """Fails where `f` has no form, or where `e` has none of it, or another one."""
    a, b = operations(kinds)

    def compare(back):
        return Fails("operations") if back is None else eq(back.at, a.at, Holds, lambda: Fails("operations"))

    def come_back(there):
        return Holds() if there is None else transform(e, there, b, compare)

    def both_enabled(go):
        return enabled(a, 0, lambda: enabled(b, 0, go, Holds), Holds)

    forms = lambda: transform(f, a, b, come_back)  # noqa: E731
    return le((ZERO, 0), (LENGTH, 0), lambda: both_enabled(lambda: differ(f, a, b, forms)), Holds)


# The interpreter.

def form(f, a, b):
    for guard, result in f.blocks[a.kind, b.kind]:
        if holds(guard, a, b):
            return None if result is None else a._replace(at=(a if result[0] else b).at + result[1])
    return "undefined"


def there_and_back(f, e, a, b):
    there = form(f, a, b)
    if there in (None, "undefined"):
        return there, there
    return there, form(e, there, b)


def is_lost(f, e, a, b):
    there, back = there_and_back(f, e, a, b)
    return there is not None and back != a


def is_allowed(f, a, b):
    with_chars = "del" not in (a.kind, b.kind)
    return not (f.sites and a.site == b.site) and not (f.chars and with_chars and a.ch == b.ch)


def made(kind, cells):
    last = cells if kind == "ins" else cells - 1
    return [Op(kind, at, ch, site) for at in range(last + 1) for ch in (97, 98) for site in (1, 2)]


def lost_on_small_documents(f, e):
    """Operations on a document of up to 4 cells that are not taken back."""
    for cells, (k, l) in itertools.product(range(5), pairs_of(f)):
        for a, b in itertools.product(made(k, cells), made(l, cells)):
            if is_allowed(f, a, b) and is_lost(f, e, a, b):
                return a, b
    return None


def pairs_of(f):
    return [(k, l) for k in KINDS for l in KINDS if k in f.kinds and l in f.kinds]


def loss(f, e, kinds, answers):
    values = least_values(answers)
    a, b = [Op(op.kind, values[op.at[0]], values[op.ch], values[op.site]) for op in operations(kinds)]
    assert is_allowed(f, a, b) and is_lost(f, e, a, b)
    there, back = there_and_back(f, e, a, b)
    why = "undefined" if "undefined" in (there, back) else "operations"
    lines = [f"no reverse {why}", f"doc [{'y' * values[LENGTH]}]", f"op 1 {side(a)}", f"op 2 {side(b)}"]
    return lines + [f"there {side(there)}", f"back {side(back)}"]


def reverse(f, e, budget, counts):
    if (f.tomb, set(f.kinds)) != (e.tomb, set(e.kinds)):
        return ["differ head"], 1
    for kinds in pairs_of(f):
        answers, questions = search(lambda: reversal(f, e, kinds))
        counts.append(questions)
        if questions > budget:
            return ["spent"], 8
        if answers is not None:
            return loss(f, e, kinds, answers), 1
    assert lost_on_small_documents(f, e) is None
    return ["reversed"], 0


def main():
    words, budget, counts = sys.argv[1:], 1000000, []
    if "--budget" in words:
        at = words.index("--budget")
        budget = int(words[at + 1])
        del words[at : at + 2]
    f, e = [read_function(open(name).read()) for name in words if not name.startswith("--")]
    lines, status = reverse(f, e, budget, counts)
    print("\n".join(lines))
    if "--questions" in words:
        print(" ".join(map(str, counts)), file=sys.stderr)
    sys.exit(status)


if __name__ == "__main__":
    main()
