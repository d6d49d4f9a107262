"""The obligations of a function in the words of solvers of linear integer arithmetic (SMT-LIB 2).

Each operation has a variable for its position, its character and its site, and each result of the function has one for
its position and one that says whether it is `nop`. A guard is named once. Two documents are compared at one index, which is
followed down through the operations. So an obligation has a few dozen variables and grows with the cases, not with the
ways through them. Each stands between a push and a pop: it holds where the solver answers `unsat`.

It shares the reader of function files with reference/certificate.py, and nothing of its plans.
"""
from collections import namedtuple

from certificate import obligations

# A result of the function: terms for its position and for "it is nop", beside what it has of the operation it comes from.
Result = namedtuple("Result", "kind at ch site nop")
Cell = namedtuple("Cell", "index named ch live dead")


def plus(term, offset):
    if offset == 0:
        return term
    return f"(+ {term} {offset})" if offset > 0 else f"(- {term} {-offset})"


def both(*terms):
    kept = [term for term in terms if term != "true"]
    return "false" if "false" in kept else "true" if not kept else kept[0] if len(kept) == 1 else f"(and {' '.join(kept)})"


def either(*terms):
    kept = [term for term in terms if term != "false"]
    return "true" if "true" in kept else "false" if not kept else kept[0] if len(kept) == 1 else f"(or {' '.join(kept)})"


def no(term):
    return {"true": "false", "false": "true"}.get(term) or f"(not {term})"


def choice(test, yes, other):
    return yes if test == "true" or yes == other else other if test == "false" else f"(ite {test} {yes} {other})"


class Obligation:
    def __init__(self, function, kinds):
        self.function, self.lines, self.count = function, ["(push 1)"], 0
        self.length = self.number()
        self.ops = [Result(kind, self.number(), self.number(), self.number(), "false") for kind in kinds]

    def number(self):
        return self.name("Int")

    def name(self, sort):
        self.count += 1
        self.lines.append(f"(declare-const x{self.count} {sort})")
        return f"x{self.count}"

    def say(self, term):
        if term != "true":
            self.lines.append(f"(assert {term})")

    def named(self, term, sort="Bool"):
        """A variable for a term that several others read."""
        if "(" not in term:
            return term
        name = self.name(sort)
        self.lines.append(f"(assert (= {name} {term}))")
        return name

    def guard(self, guard, one, two):
        if guard[0] == "true":
            return "true"
        if guard[0] == "atom":
            _, sort, first, compare, offset = guard
            left, right = (one, two) if first else (two, one)
            x, y = ((op.at if sort == "p" else op.site if sort == "s" else op.ch) for op in (left, right))
            return f"({compare} {x} {plus(y, offset)})"
        parts = [self.guard(part, one, two) for part in guard[1:]]
        return {"and": both, "or": either, "not": no}[guard[0]](*parts)

    def transform(self, one, two):
        """The result, and a term that says whether it is defined."""
        at, nop, defined = one.at, "true", "false"
        for guard, result in reversed(self.function.blocks[one.kind, two.kind]):
            test = self.named(self.guard(guard, one, two))
            if result is None:
                nop = choice(test, "true", nop) if nop == "true" else either(test, nop)
            else:
                base = one if result[0] else two
                at, nop = choice(test, plus(base.at, result[1]), at), both(no(test), nop)
            defined = either(test, defined)
        # Where one of the two is nop, the other's cases are not asked.
        nop = either(one.nop, both(no(two.nop), nop))
        at = choice(two.nop, one.at, at)
        return one._replace(at=self.named(at, "Int"), nop=self.named(nop)), either(one.nop, two.nop, defined)

    def enabled(self, op, more):
        last = "<=" if op.kind == "ins" else "<"
        return either(op.nop, both(f"(<= 0 {op.at})", f"({last} {op.at} {plus(self.length, more)})"))

    def growth(self, op):
        return 1 if op.kind == "ins" else -1 if op.kind == "del" and not self.function.tomb else 0

    def differ(self, one, two):
        sites = f"(not (= {one.site} {two.site}))" if self.function.sites else "true"
        chars = f"(not (= {one.ch} {two.ch}))" if self.function.chars and "del" not in (one.kind, two.kind) else "true"
        return both(sites, chars)

    def cell_after(self, ops, index):
        """The cell at an index behind operations, the last one first: where it stood, and what they made of it."""
        named, ch, live, dead, whole = "false", "0", "false", "false", "true"
        for op in ops:
            there = both(whole, no(op.nop))
            if op.kind == "del" and not self.function.tomb:
                index = self.named(choice(both(no(op.nop), f"(<= {op.at} {index})"), plus(index, 1), index), "Int")
                continue
            here = self.named(both(there, f"(= {index} {op.at})"))
            if op.kind == "del":
                dead = either(dead, both(no(live), here))
                continue
            ch = self.named(choice(both(here, no(named)), op.ch, ch), "Int")
            named = self.named(either(named, here))
            if op.kind == "ins":
                live = self.named(either(live, both(no(dead), here)))
                whole = self.named(both(whole, no(here)))
                index = self.named(choice(both(there, f"(< {op.at} {index})"), plus(index, -1), index), "Int")
        return Cell(index, named, ch, live, dead)

    def same_cells(self, x, y):
        base = f"(= {x.index} {y.index})"
        flags = both(f"(= {x.live} {y.live})", f"(= {x.dead} {y.dead})", either(x.live, x.dead, base))
        chars = both(f"(= {x.named} {y.named})", choice(x.named, f"(= {x.ch} {y.ch})", base))
        return both(flags, chars)

    def converge(self, a, b):
        b1, b_defined = self.transform(b, a)
        a1, a_defined = self.transform(a, b)
        index = self.number()

        def longer(first, second):
            return plus(self.length, self.growth(first)), plus(self.length, self.growth(first) + self.growth(second))

        (short, long), (other_short, other_long) = longer(a, b1), longer(b, a1)
        left = self.named(choice(b1.nop, short, long), "Int")
        right = self.named(choice(a1.nop, other_short, other_long), "Int")
        within = both(f"(<= 0 {index})", f"(< {index} {left})")
        same = self.same_cells(self.cell_after([b1, a], index), self.cell_after([a1, b], index))
        return both(
            b_defined, a_defined, self.enabled(b1, self.growth(a)), self.enabled(a1, self.growth(b)),
            f"(= {left} {right})", either(no(within), same),
        )

    def behind(self, a, b, c):
        b1, b_defined = self.transform(b, a)
        c1, c_defined = self.transform(c, a)
        last, last_defined = self.transform(c1, b1)
        return last, both(b_defined, c_defined, last_defined)

    def commute(self, a, b, c):
        (left, left_defined), (right, right_defined) = self.behind(a, b, c), self.behind(b, a, c)
        same = either(both(left.nop, right.nop), both(no(left.nop), no(right.nop), f"(= {left.at} {right.at})"))
        return both(left_defined, right_defined, same)

    def text(self):
        self.say(f"(<= 0 {self.length})")
        for i, op in enumerate(self.ops):
            self.say(self.enabled(op, 0))
            for other in self.ops[i + 1:]:
                self.say(self.differ(op, other))
        self.say(no(self.converge(*self.ops) if len(self.ops) == 2 else self.commute(*self.ops)))
        return self.lines + ["(check-sat)", "(pop 1)"]


def script(function, tp2):
    lines = ["(set-logic QF_IDL)"]
    for kinds in obligations(function, tp2):
        lines += Obligation(function, kinds).text()
    return "\n".join(lines) + "\n"
