#!/usr/bin/env python3
"""Judges a proof with lemmas, and says at which byte and why it is refused.

usage: proof.py FN PROOF

It is as plain as it can be: it reads the whole file, and keeps what is still wanted with its own list of literals.
Nothing of the program is used. Its plans are those of certificate.py, with the starts of transformations marked, and a
cycle is summed up as judge.py does it.
"""
import re
import sys
from collections import namedtuple

from certificate import Ask, Holds, obligations, plan_of, read_function
from judge import File, Refused, judge_cycle

MOST_LEMMAS = 1_000_000

# The results that are still read where a transformation begins, by how many operations there are and how many results
# were delivered.
READ = {2: [(), (0,)], 3: [(), (0,), (0, 1), (2,), (2, 3), (2, 3, 4)]}

NUMBER = rb"(?:0|[1-9][0-9]{0,4})"
NAME = rb"(?:0|[1-9][0-9]?)"
OFFSET = rb"(?:0|-?[1-9][0-9]{0,3})"
LITERAL = NAME + rb"," + NAME + rb"," + OFFSET
TOKEN = re.compile(
    rb"[?.]"
    rb"|x" + NUMBER + rb"(?:," + NUMBER + rb"){0,11};"
    rb"|l(?:" + LITERAL + rb"(?:/" + LITERAL + rb"){0,23})?;"
    rb"|c(?:0|[1-9][0-9]{0,5});"
)
# What begins a token and is none.
BEGUN = re.compile(
    rb"|x(?:" + NUMBER + rb",){0,11}(?:" + NUMBER + rb")?"
    rb"|l(?:" + LITERAL + rb"/){0,23}(?:" + NAME + rb"(?:,(?:" + NAME + rb"(?:,(?:-|" + OFFSET + rb")?)?)?)?)?"
    rb"|c(?:0|[1-9][0-9]{0,5})?"
)

# A place of a plan at which a transformation begins, with the results before it and the plan that goes on.
Start = namedtuple("Start", "results go")
# What is still wanted: a tree for a plan; a cycle, of a list that ends with a negation; or nothing, and a lemma is known.
Tree, Cycle, Learn = namedtuple("Tree", "go list"), namedtuple("Cycle", "list"), namedtuple("Learn", "results literals")


def marked_plan(f, kinds):
    return plan_of(f, kinds, Start)


def reached(go):
    """The results before the transformation that begins at a place, or None where none begins, and what the plan does
    there. A start that is reached without a question is at the place of the start before it, and is none."""
    place, results = go(), None
    while isinstance(place, Start):
        results = place.results if results is None else results
        place = place.go()
    return results, place


def conditions(count, lemma, here):
    """The literals under which a lemma serves at a start, by the results before each; or None, if they do not compare."""
    if len(lemma) != len(here):
        return None
    found = []
    for number in READ[count][len(here)]:
        theirs, ours = lemma[number], here[number]
        if theirs is None or ours is None:
            if theirs is not ours:
                return None
            continue
        (y, j), (x, i) = theirs.at, ours.at
        if x != y:
            found += [(x, y, j - i), (y, x, i - j)]
        elif i != j:
            return None
    return found


def negated(lit):
    x, y, k = lit
    return (y, x, -k - 1)


def numbers_of(token):
    return [int(number) for number in token[1:-1].split(b",")]


def literals_of(token):
    return [tuple(map(int, literal.split(b","))) for literal in token[1:-1].split(b"/") if literal]


class ProofFile(File):
    def refuse(self, word):
        raise Refused(f"proof {len(self.content) if word == 'truncated' else self.at} {word}")

    def tree_token(self):
        """The bytes of a token of a tree; they are not taken yet."""
        token = TOKEN.match(self.content, self.at)
        if token:
            return token[0]
        self.refuse("truncated" if BEGUN.fullmatch(self.content, self.at) else "token")


class Section:
    """The judge of one obligation: what is wanted, the next one last, and the lemmas that are known."""

    def __init__(self, file, f, kinds):
        self.file, self.count, self.known = file, len(kinds), []
        self.wanted = [Tree(lambda: marked_plan(f, kinds), ())]

    def judge(self):
        while self.wanted:
            if isinstance(self.wanted[-1], Learn):
                self.known.append(self.wanted.pop())
                continue
            token = self.file.tree_token()
            wanted = self.wanted.pop()
            results, plan = reached(wanted.go) if isinstance(wanted, Tree) else (None, None)
            kind = token[:1]
            if kind == b"x":
                judge_cycle(self.file, numbers_of(token), wanted.list)
            elif kind == b"?":
                self.question(wanted, plan)
            elif kind == b".":
                self.end(plan)
            elif results is None:
                self.file.refuse("nostart")
            elif kind == b"l":
                self.lemma(wanted, results, literals_of(token))
            else:
                self.citation(wanted, results, int(token[1:-1]))
            self.file.at += len(token)

    def question(self, wanted, plan):
        if not isinstance(plan, Ask):
            self.file.refuse("notaquestion")
        self.wanted.append(Tree(plan.no, (*wanted.list, negated(plan.lit))))
        self.wanted.append(Tree(plan.yes, (*wanted.list, plan.lit)))

    def end(self, plan):
        if isinstance(plan, Ask):
            self.file.refuse("notdone")
        if not isinstance(plan, Holds):
            self.file.refuse("fails")

    def lemma(self, wanted, results, literals):
        if len(self.known) == MOST_LEMMAS:
            self.file.refuse("lemmas")
        self.wanted += [wanted, Learn(results, literals), Tree(wanted.go, tuple(literals))]

    def citation(self, wanted, results, number):
        if number >= len(self.known):
            self.file.refuse("lemma")
        lemma = self.known[number]
        under = conditions(self.count, lemma.results, results)
        if under is None:
            self.file.refuse("goal")
        self.wanted += [Cycle((*wanted.list, negated(lit))) for lit in reversed(lemma.literals + under)]


def judge(f, content):
    file = ProofFile(content)
    try:
        level = file.take([f"otproof 1 tp{number}\n".encode() for number in (1, 2)])
        for kinds in obligations(f, level == 1):
            file.take([b"ob " + " ".join(kinds).encode() + b"\n"])
            Section(file, f, kinds).judge()
            file.take([b"\n"])
        file.take([b"end\n"])
        if file.at < len(content):
            file.refuse("trailing")
        return 0, f"confirmed tp{level + 1}"
    except Refused as refused:
        return 2, str(refused)


def main():
    sys.setrecursionlimit(100_000)
    function, proof = sys.argv[1:]
    with open(function, encoding="utf-8") as file:
        f = read_function(file.read())
    with open(proof, "rb") as file:
        status, text = judge(f, file.read())
    print(text)
    sys.exit(status)


if __name__ == "__main__":
    main()
