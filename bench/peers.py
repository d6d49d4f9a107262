#!/usr/bin/env python3
"""Asks `otp` and, where they are installed, z3 and cvc5 whether functions have TP1 and TP2, and measures them.

usage: peers.py [--smt] [FN..]      (after `otp`; where none are named, the gallery's functions and two with many cases)

With --smt it writes what the solvers are given for one function. The encoding is written from the definitions of the
two properties alone: each parameter of an operation and each result is a variable, a block's guards stand once, as
functions of the parameters, the document is its length and two uninterpreted functions (character and flag of a cell),
and each pair or triple of kinds is an obligation between push and pop, whose negation has to be unsatisfiable. Nothing
of how the program asks is used.

The solvers get the pairs, and where none of them fails the triples in a second run. Each time is that of the whole
process or of both; the least of three runs is told. Behind a verdict `no` stands how many cells the document has.
"""
import os
import re
import shutil
import subprocess
import sys
import tempfile
import time

import gallery
from gallery import brute

SOLVERS = {"z3": ["z3"], "cvc5": ["cvc5", "--incremental", "--produce-models"]}
RUNS = 3


def number(value):
    return str(value) if value >= 0 else f"(- {-value})"


def plus(text, offset):
    return text if not offset else f"(+ {text} {number(offset)})"


def guard_smt(guard):
    word, *parts = guard
    if word == "atom":
        left, compare, right, offset = parts
        return f"({compare} {left} {plus(right, offset)})"
    if word == "true":
        return "true"
    return f"({word} {' '.join(map(guard_smt, parts))})"


# A block as three functions of the parameters: whether there is a result, whether it is nop, and its position.

PARAMETERS = "(p1 Int) (c1 Int) (s1 Int) (p2 Int) (c2 Int) (s2 Int)"


def block_smt(name, cases):
    has, nop, at = "false", "false", "0"
    for case in reversed(cases):
        guard, result = guard_smt(case.guard), case.result
        has = f"(ite {guard} true {has})"
        nop = f"(ite {guard} {'true' if result == 'nop' else 'false'} {nop})"
        at = f"(ite {guard} {'0' if result == 'nop' else plus(*result)} {at})"
    return [f"(define-fun has_{name} ({PARAMETERS}) Bool {has})", f"(define-fun nop_{name} ({PARAMETERS}) Bool {nop})",
            f"(define-fun at_{name} ({PARAMETERS}) Int {at})"]


class Form:
    """An operation whose position and whether it is nop are variables, as is whether there is one."""

    def __init__(self, kind, letter, name=None):
        self.kind, self.letter, self.name = kind, letter, name or letter
        self.made = name is None

    at = property(lambda self: f"{self.name}_p")
    nop = property(lambda self: "false" if self.made else f"{self.name}_nop")
    has = property(lambda self: "true" if self.made else f"{self.name}_has")
    parameters = property(lambda self: f"{self.name}_p {self.letter}_c {self.letter}_s")


class Script:
    def __init__(self, f):
        self.f = f
        self.lines = ["(set-logic QF_UFLIA)", "(declare-fun char (Int) Int)", "(declare-fun live (Int) Bool)",
                      "(declare-const n Int)", "(declare-const i Int)", "(assert (>= n 0))"]
        for kinds, cases in f.blocks.items():
            self.lines += block_smt("_".join(kinds), cases)

    def declare(self, name, sort):
        self.lines.append(f"(declare-const {name} {sort})")

    def say(self, text):
        self.lines.append(f"(assert {text})")

    def operation(self, kind, letter):
        for part in "pcs":
            self.declare(f"{letter}_{part}", "Int")
        self.say(f"(and (<= 0 {letter}_p) ({'<=' if kind == 'ins' else '<'} {letter}_p n))")
        return Form(kind, letter)

    def assume(self, one, two):
        if self.f.sites:
            self.say(f"(not (= {one.letter}_s {two.letter}_s))")
        if self.f.chars and "del" not in (one.kind, two.kind):
            self.say(f"(not (= {one.letter}_c {two.letter}_c))")

    def transformed(self, one, two):
        """What the first becomes behind the second: a form with variables of its own."""
        form = Form(one.kind, one.letter, f"{one.name}_{two.name}")
        block, given = f"{one.kind}_{two.kind}", f"{one.parameters} {two.parameters}"
        self.declare(form.at, "Int")
        self.declare(form.nop, "Bool")
        self.declare(form.has, "Bool")
        stays = f"(or {one.nop} {two.nop})"
        self.say(f"(= {form.has} (and {one.has} {two.has} (or {stays} (has_{block} {given}))))")
        self.say(f"(= {form.nop} (ite {stays} {one.nop} (nop_{block} {given})))")
        self.say(f"(= {form.at} (ite {stays} {one.at} (at_{block} {given})))")
        return form

    # Documents.

    def growth(self, form):
        if form.kind == "upd" or form.kind == "del" and self.f.tomb:
            return "0"
        return f"(ite {form.nop} 0 {number(1 if form.kind == 'ins' else -1)})"

    def enabled(self, form, length):
        return f"(or {form.nop} (and (<= 0 {form.at}) ({'<=' if form.kind == 'ins' else '<'} {form.at} {length})))"

    def cell(self, forms, j, part):
        """The character or the flag of the cell at j behind the forms, of which the last was executed last."""
        if not forms:
            return f"({part} {j})"
        *before, form = forms
        letter, at = form.letter, form.at
        own = {"ins": {"char": f"{letter}_c", "live": "true"}, "upd": {"char": f"{letter}_c"}, "del": {"live": "false"}}
        here = shifted = self.cell(before, j, part)
        is_cut = form.kind == "del" and not self.f.tomb
        if form.kind == "ins" or is_cut:
            beyond = self.cell(before, f"(+ {j} 1)" if is_cut else f"(- {j} 1)", part)
            shifted = f"(ite (< {j} {at}) {here} {beyond})"
        if part in own[form.kind] and not is_cut:
            shifted = f"(ite (= {j} {at}) {own[form.kind][part]} {shifted})"
        return shifted if form.made else f"(ite {form.nop} {here} {shifted})"

    # Obligations.

    def pair(self, kinds):
        a, b = (self.operation(kind, letter) for kind, letter in zip(kinds, "ab"))
        self.assume(a, b)
        b1, a1 = self.transformed(b, a), self.transformed(a, b)
        behind_a, behind_b = f"(+ n {self.growth(a)})", f"(+ n {self.growth(b)})"
        left, right = f"(+ {behind_a} {self.growth(b1)})", f"(+ {behind_b} {self.growth(a1)})"
        parts = [(self.cell([a, b1], "i", part), self.cell([b, a1], "i", part)) for part in ("char", "live")]
        cells = f"(=> (and (<= 0 i) (< i {left})) (and {' '.join(f'(= {one} {other})' for one, other in parts)}))"
        can = f"{b1.has} {a1.has} {self.enabled(b1, behind_a)} {self.enabled(a1, behind_b)}"
        self.say(f"(not (and {can} (= {left} {right}) {cells}))")

    def triple(self, kinds):
        a, b, c = (self.operation(kind, letter) for kind, letter in zip(kinds, "abc"))
        for one, two in ((a, b), (a, c), (b, c)):
            self.assume(one, two)
        b1, a1 = self.transformed(b, a), self.transformed(a, b)
        left = self.transformed(self.transformed(c, a), b1)
        right = self.transformed(self.transformed(c, b), a1)
        same = f"(or (and {left.nop} {right.nop}) (and (not {left.nop}) (not {right.nop}) (= {left.at} {right.at})))"
        self.say(f"(not (and {left.has} {right.has} {b1.has} {a1.has} {same}))")

    def obligations(self, size):
        kinds = self.f.kinds
        pairs = [(one, two) for at, one in enumerate(kinds) for two in kinds[at:]]
        wanted = pairs if size == 2 else [(*pair, third) for third in kinds for pair in pairs]
        for part in wanted:
            self.lines.append("(push 1)")
            (self.pair if size == 2 else self.triple)(part)
            self.lines += ["(check-sat)", "(get-value (n))", "(pop 1)"]
        return "\n".join([*self.lines, "(exit)", ""])


# Functions with many cases: TTF with cases in front that a later one covers, each at a distance of its own.

def many_cases(*counts):
    distances = iter(range(sum(counts), 0, -1))
    blocks = {
        "ins ins": ["p1 < p2 : ins p1", "p1 = p2 and s1 < s2 : ins p1", "true : ins p1 + 1"],
        "ins del": ["true : ins p1"],
        "del ins": ["p1 < p2 : del p1", "true : del p1 + 1"],
        "del del": ["true : del p1"],
    }
    lines = ["otfn 1", "text tomb", "kinds ins del", "assume sites differ"]
    for (block, cases), count in zip(blocks.items(), counts):
        more = [f"p1 < p2 - {next(distances)} : {block[:3]} p1" for _ in range(count)]
        lines += [f"block {block}", *(f"case {case}" for case in more + cases)]
    return "\n".join([*lines, "end", ""])


MANY = {"16-more-cases": (16, 0, 0, 0), "14-cases-a-block": (11, 13, 12, 13)}


# The runs.

def timed(words):
    best = None
    for _ in range(RUNS):
        start = time.monotonic()
        done = subprocess.run(words, stdout=subprocess.PIPE, stderr=subprocess.DEVNULL, text=True, check=False)
        took = time.monotonic() - start
        best = (took, done) if best is None or took < best[0] else best
    return best


def by_solver(words, f):
    """The verdict, the cells of the first counterexample, and the seconds."""
    seconds = 0.0
    for size in (2, 3):
        with tempfile.NamedTemporaryFile("w", suffix=".smt2") as file:
            file.write(Script(f).obligations(size))
            file.flush()
            took, done = timed([*words, file.name])
        seconds += took
        answers = re.findall(r"^(sat|unsat|unknown)$", done.stdout, re.M)
        if "unknown" in answers or not answers:
            return "unknown", None, seconds
        if "sat" in answers:
            behind = done.stdout.split("\nsat\n", 1)[-1] if not done.stdout.startswith("sat\n") else done.stdout[4:]
            cells = re.search(r"\(\(n (\d+)\)\)", behind)
            return f"no tp{size - 1}", int(cells[1]), seconds
    return "yes", None, seconds


def by_otp(path):
    seconds, done = timed([gallery.PROGRAM, "prove", path])
    if done.returncode == 0:
        return "yes", None, seconds, len(done.stdout)
    doc = re.search(r"^doc \[(.*)\]$", done.stdout, re.M)
    return " ".join(done.stdout.split()[:2]), len(gallery.document_of(doc[1])), seconds, None


def shown(verdict, cells, seconds):
    return f"{verdict}{'' if cells is None else f' ({cells})'}, {seconds * 1000:.0f} ms"


def main():
    words = [word for word in sys.argv[1:] if word != "--smt"]
    if "--smt" in sys.argv[1:]:
        with open(words[0], encoding="utf-8") as file:
            text = file.read()
        sys.stdout.write("".join(Script(brute.read_function(text)).obligations(size) for size in (2, 3)))
        return
    with tempfile.TemporaryDirectory() as folder:
        paths = words or [gallery.path_of(name) for name in gallery.names()]
        for name, counts in {} if words else MANY.items():
            paths.append(os.path.join(folder, name + ".ot"))
            with open(paths[-1], "w", encoding="utf-8") as file:
                file.write(many_cases(*counts))
        report(paths)


def report(paths):
    solvers = {name: solver for name, solver in SOLVERS.items() if shutil.which(name)}
    print("| " + " | ".join(["function", "otp", "certificate", *solvers]) + " |\n" + "|---" * (3 + len(solvers)) + "|")
    totals, wrong = dict.fromkeys(["otp", *solvers], 0.0), 0
    for path in paths:
        with open(path, encoding="utf-8") as file:
            f = brute.read_function(file.read())
        *ours, size = by_otp(path)
        row = [os.path.splitext(os.path.basename(path))[0], shown(*ours), f"{size:,} bytes" if size else ""]
        totals["otp"] += ours[2]
        for name, solver in solvers.items():
            answer = by_solver(solver, f)
            wrong += answer[0] != ours[0]
            totals[name] += answer[2]
            row.append(shown(*answer))
        print("| " + " | ".join(row) + " |")
    ours, *others = (f"{seconds:.2f} s" for seconds in totals.values())
    print("| all | " + " | ".join([ours, "", *others]) + " |")
    left = "".join(f"; left out: {name}" for name in SOLVERS if name not in solvers)
    print(f"\n{len(paths)} functions; {wrong} verdicts differ from that of otp{left}")
    sys.exit(1 if wrong else 0)


if __name__ == "__main__":
    main()
