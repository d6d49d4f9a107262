#!/usr/bin/env python3
"""Writes a certificate of a function at a level, or says where an obligation fails.

usage: certificate.py [--tp1] [--questions] FN > CERT

It reads both languages of function files, walks the questions of each obligation in their order, and keeps a
closed table of distances between the names. Wherever the answers so far have a negative cycle it writes that
cycle, and wherever the obligation holds, an end. It ends with status 1 where an obligation fails at answers
that some integers meet. With --questions it writes the number of questions to the standard error. Nothing of
the program is used, and nothing of the program rests on it.
"""
import re
import sys
from collections import namedtuple

ZERO, LENGTH, INDEX = 0, 1, 2
KINDS = ["ins", "del", "upd"]

Op = namedtuple("Op", "kind at ch site")  # `at` is a name and an offset
Function = namedtuple("Function", "tomb kinds sites chars blocks version")
Holds, Fails, Ask = namedtuple("Holds", ""), namedtuple("Fails", "why"), namedtuple("Ask", "lit yes no")


# Function files. A guard is a tuple: true, an atom, or one joined by and, or, not.

def tokens_of(text):
    for line in text.splitlines():
        found = re.findall(r"[a-z][a-z0-9]*|[0-9]+|<=|[<=+\-():]", line.split("#")[0])
        if found:
            yield found


class Phrase:
    def __init__(self, tokens):
        self.tokens, self.at = tokens, 0

    def next(self):
        self.at += 1
        return self.tokens[self.at - 1]

    def sees(self, *words):
        return self.at < len(self.tokens) and self.tokens[self.at] in words

    def offset(self):
        if not self.sees("+", "-"):
            return 0
        sign = -1 if self.next() == "-" else 1
        return sign * int(self.next())

    def joined(self, word, part):
        left = part()
        while self.sees(word):
            self.next()
            left = (word, left, part())
        return left

    def guard(self):
        return self.joined("or", lambda: self.joined("and", self.unary))

    def unary(self):
        word = self.next()
        if word == "not":
            return ("not", self.unary())
        if word == "(":
            inner = self.guard()
            self.next()
            return inner
        if word == "true":
            return ("true",)
        compare, other = self.next(), self.next()
        assert other[0] == word[0] and other[1] != word[1]
        return ("atom", word[0], word[1] == "1", compare, self.offset())

    def result(self):
        if self.next() == "nop":
            return None
        return self.next() == "p1", self.offset()


def read_function(text):
    blocks, block, assumed, kinds, tomb, version = {}, None, set(), [], False, 1
    for line in tokens_of(text):
        if line[0] == "otfn":
            version = int(line[1])
        elif line[0] == "text":
            tomb = line[1] == "tomb"
        elif line[0] == "kinds":
            kinds = line[1:]
        elif line[0] == "assume":
            assumed.add(line[1])
        elif line[0] == "block":
            block = blocks.setdefault((line[1], line[2]), [])
        elif line[0] == "case":
            phrase = Phrase(line[1:])
            guard = phrase.guard()
            assert phrase.next() == ":"
            block.append((guard, phrase.result()))
    return Function(tomb, kinds, "sites" in assumed, "chars" in assumed, blocks, version)


# Plans. Each function goes on with functions of no argument, or of a value, so that a plan is made as it is
# walked through.

def le(x, y, yes, no):
    if x[0] == y[0]:
        return yes() if x[1] <= y[1] else no()
    return Ask((x[0], y[0], y[1] - x[1]), yes, no)


def lt(x, y, yes, no):
    return le(x, (y[0], y[1] - 1), yes, no)


def eq(x, y, yes, no):
    return le(x, y, lambda: le(y, x, yes, no), no)


COMPARE = {"<": lt, "<=": le, "=": eq}


def thing(op, sort):
    return op.at if sort == "p" else (op.site if sort == "s" else op.ch, 0)


def ask_guard(guard, one, two, yes, no):
    if guard[0] == "true":
        return yes()
    if guard[0] == "atom":
        _, sort, first, compare, offset = guard
        left, right = (one, two) if first else (two, one)
        x, y = thing(left, sort), thing(right, sort)
        return COMPARE[compare](x, (y[0], y[1] + offset), yes, no)
    if guard[0] == "and":
        return ask_guard(guard[1], one, two, lambda: ask_guard(guard[2], one, two, yes, no), no)
    if guard[0] == "or":
        return ask_guard(guard[1], one, two, yes, lambda: ask_guard(guard[2], one, two, yes, no))
    return ask_guard(guard[1], one, two, no, yes)


def transform(f, one, two, go):
    if one is None or two is None:
        return go(one)
    cases = f.blocks[one.kind, two.kind]

    def from_case(number):
        if number == len(cases):
            return Fails("undefined")
        guard, result = cases[number]

        def taken():
            if result is None:
                return go(None)
            base = one if result[0] else two
            return go(one._replace(at=(base.at[0], base.at[1] + result[1])))

        return ask_guard(guard, one, two, taken, lambda: from_case(number + 1))

    return from_case(0)


def enabled(op, more, yes, no):
    if op is None:
        return yes()
    last = le if op.kind == "ins" else lt
    return le((ZERO, 0), op.at, lambda: last(op.at, (LENGTH, more), yes, no), no)


def growth(f, op):
    if op is None or op.kind == "upd":
        return 0
    return 1 if op.kind == "ins" else (0 if f.tomb else -1)


def read_cell(f, ops, j, go):
    """The cell at the index plus j, as (source of its character, source of its flag)."""
    if not ops:
        return go((("base", j), ("base", j)))
    op, below = ops[0], ops[1:]
    if op is None:
        return read_cell(f, below, j, go)
    here = (INDEX, j)

    def before():
        return read_cell(f, below, j, go)

    def behind():
        if op.kind == "del" and not f.tomb:
            return read_cell(f, below, j + 1, go)
        return le(here, op.at, at, lambda: read_cell(f, below, j - 1 if op.kind == "ins" else j, go))

    def at():
        if op.kind == "ins":
            return go((("name", op.ch), "live"))
        if op.kind == "del":
            return read_cell(f, below, j, lambda cell: go((cell[0], "dead")))
        return read_cell(f, below, j, lambda cell: go((("name", op.ch), cell[1])))

    return lt(here, op.at, before, behind)


def same_cells(x, y):
    if x[1] != y[1]:
        return Fails("cells")
    if x[0] == y[0]:
        return Holds()
    if x[0][0] == "name" and y[0][0] == "name":
        return eq((x[0][1], 0), (y[0][1], 0), Holds, lambda: Fails("cells"))
    return Fails("cells")


def differ(f, one, two, go):
    def chars():
        if f.chars and one.kind != "del" and two.kind != "del":
            return eq((one.ch, 0), (two.ch, 0), Holds, go)
        return go()

    return eq((one.site, 0), (two.site, 0), Holds, chars) if f.sites else chars()


# The transformations of a pair and of a triple, in their order: the operation and the one that it is transformed over,
# counted among the operations and then the results.
STEPS = {2: [(1, 0), (0, 1)], 3: [(1, 0), (2, 0), (4, 3), (0, 1), (2, 1), (7, 6)]}


def transformed(f, ops, begin, go, results=()):
    """All transformations from the next one on, and then what goes on with the results. Each of them begins by `begin`,
    which is given the results before it."""
    if len(results) == len(STEPS[len(ops)]):
        return go(*results)
    one, two = ((ops + results)[place] for place in STEPS[len(ops)][len(results)])
    onward = lambda result: transformed(f, ops, begin, go, (*results, result))
    return begin(results, lambda: transform(f, one, two, onward))


def converge(f, a, b, begin):
    def both(b1, a1):
        left, right = growth(f, a) + growth(f, b1), growth(f, b) + growth(f, a1)

        def compare():
            if left != right:
                return Fails("lengths")
            return le((ZERO, 0), (INDEX, 0), lambda: lt((INDEX, 0), (LENGTH, left), cells, Holds), Holds)

        def cells():
            return read_cell(f, [b1, a], 0, lambda x: read_cell(f, [a1, b], 0, lambda y: same_cells(x, y)))

        out = lambda: Fails("out of range")
        return enabled(b1, growth(f, a), lambda: enabled(a1, growth(f, b), compare, out), out)

    return transformed(f, (a, b), begin, both)


def commute(f, a, b, c, begin):
    def compare(b1, c1, left, a1, c2, right):
        if left is None or right is None:
            return Holds() if left is right else Fails("operations")
        return eq(left.at, right.at, Holds, lambda: Fails("operations"))

    return transformed(f, (a, b, c), begin, compare)


def plan_of(f, kinds, begin=lambda results, go: go()):
    ops = [Op(kind, (3 + 3 * i, 0), 5 + 3 * i, 4 + 3 * i) for i, kind in enumerate(kinds)]
    pairs = [(i, j) for i in range(len(ops)) for j in range(i + 1, len(ops))]

    def all_enabled(i):
        if i == len(ops):
            return all_differ(0)
        return enabled(ops[i], 0, lambda: all_enabled(i + 1), Holds)

    def all_differ(i):
        if i == len(pairs):
            return converge(f, *ops, begin) if len(ops) == 2 else commute(f, *ops, begin)
        return differ(f, ops[pairs[i][0]], ops[pairs[i][1]], lambda: all_differ(i + 1))

    return le((ZERO, 0), (LENGTH, 0), lambda: all_enabled(0), Holds)


def obligations(f, tp2):
    kinds = [kind for kind in KINDS if kind in f.kinds]
    pairs = [(k, l) for i, k in enumerate(kinds) for l in kinds[i:]]
    return pairs + ([(k, l, m) for m in kinds for (k, l) in pairs] if tp2 else [])


# Answers. A table has for each two names x, y the least offset k known for x <= y + k, with the numbers of
# the answers that it comes from, in the order of a walk from x to y.

def closed(table, x, y, k, number):
    """The table with one more answer; or the numbers of a negative cycle."""
    back = table[y][x]
    if back is not None and back[0] + k < 0:
        return None, (number,) + back[1]
    to_x = [(p, row[x]) for p, row in enumerate(table) if row[x] is not None]
    from_y = [(q, way) for q, way in enumerate(table[y]) if way is not None]
    new = [list(row) for row in table]
    for p, first in to_x:
        for q, last in from_y:
            offset, known = first[0] + k + last[0], new[p][q]
            if p != q and (known is None or offset < known[0]):
                new[p][q] = (offset, first[1] + (number,) + last[1])
    return new, None


def places_of(plan, names):
    """The places of a plan over so many variables, yes before no: what stands at each that some integers reach, in place
    of the others a negative cycle of the answers there; and these answers."""
    waiting = [(plan, (), [[(0, ()) if x == y else None for y in range(names)] for x in range(names)], None)]
    while waiting:
        go, answers, table, lit = waiting.pop()
        if lit is not None:
            answers += (lit,)
            table, cycle = closed(table, *lit, len(answers) - 1)
            if cycle is not None:
                yield cycle, answers
                continue
        here = go()
        yield here, answers
        if isinstance(here, Ask):
            x, y, k = here.lit
            waiting.append((here.no, answers, table, (y, x, -k - 1)))
            waiting.append((here.yes, answers, table, (x, y, k)))


def token_at(here):
    """The token at a place that does not fail."""
    if isinstance(here, Ask):
        return "?"
    return "." if isinstance(here, Holds) else "x" + ",".join(map(str, here)) + ";"


def tree_of(f, kinds):
    """The tokens of the tree, the number of questions, and the cause of a failure or None."""
    tokens, why = [], None
    for here, _ in places_of(lambda: plan_of(f, kinds), 3 + 3 * len(kinds)):
        if isinstance(here, Fails):
            why = here.why
            break
        tokens.append(token_at(here))
    return tokens, tokens.count("?"), why


def main():
    words = sys.argv[1:]
    tp2 = "--tp1" not in words
    f = read_function(open([w for w in words if not w.startswith("--")][0]).read())
    names = obligations(f, tp2)
    version = 2 if any("upd" in name for name in names) else 1
    parts, asked = [f"otcert {version} {'tp2' if tp2 else 'tp1'}\n"], 0
    for kinds in names:
        tokens, questions, why = tree_of(f, kinds)
        asked += questions
        if why is not None:
            print(f"no {'tp1' if len(kinds) == 2 else 'tp2'} {why}: {' '.join(kinds)}, {asked} questions", file=sys.stderr)
            sys.exit(1)
        parts.append("ob " + " ".join(kinds) + "\n" + "".join(tokens) + "\n")
    parts.append("end\n")
    sys.stdout.write("".join(parts))
    if "--questions" in words:
        print(f"{asked} questions", file=sys.stderr)


if __name__ == "__main__":
    main()
