#!/usr/bin/env python3
"""Writes the generated part of examples/gallery/README.md: what `otp` answers to each function of the gallery.

usage: gallery.py            writes the page's part anew (after `otp`)
       gallery.py --check    says whether it is current, and ends with 1 where it is not

The functions are those of examples/gallery/expected.txt, in its order. What operations become in the diagrams is
computed by reference/brute.py, and compared with what `otp least` says comes out.
"""
import concurrent.futures
import os
import re
import subprocess
import sys
import textwrap

TOP = os.path.dirname(os.path.dirname(os.path.abspath(__file__)))
sys.path[:0] = [os.path.join(TOP, "reference"), os.path.join(TOP, "tools")]

import brute  # noqa: E402
from program import PROGRAM  # noqa: E402

GALLERY = os.path.join(TOP, "examples/gallery")
PAGE = os.path.join(GALLERY, "README.md")
BEGIN, END = "<!-- begin: made by bench/gallery.py -->\n", "<!-- end: made by bench/gallery.py -->\n"


def names():
    """The names of the functions, in the order of the table of what is expected."""
    with open(os.path.join(GALLERY, "expected.txt"), encoding="utf-8") as lines:
        return [line.split()[0] for line in lines if line.strip() and not line.startswith("#")]


def path_of(name):
    return os.path.join(GALLERY, name + ".ot")


def text_of(name):
    with open(path_of(name), encoding="utf-8") as file:
        return file.read()


def run(*words):
    done = subprocess.run([PROGRAM, *words], stdin=subprocess.DEVNULL, stdout=subprocess.PIPE, check=False)
    return done.returncode, done.stdout.decode()


def comments(text):
    """What a file is, its first comment, and what its other comments say by their first words."""
    lines = []
    for line in text.splitlines():
        if not line.startswith("#"):
            break
        if line.startswith("#  "):
            lines[-1] += line[2:]
        else:
            lines.append(line[2:])
    return lines[0], dict(line.split(": ", 1) for line in lines[1:])


# What `otp` answers.

def questions(path, *level):
    """How long the question list is: the least budget that is not spent."""
    def is_spent(budget):
        return run("prove", *level, "--budget", str(budget), path)[0] == 8

    low, high = 0, 1  # low is spent
    while is_spent(high):
        low, high = high, 2 * high
    while high - low > 1:
        middle = (low + high) // 2
        low, high = (middle, high) if is_spent(middle) else (low, middle)
    return high


class Counterexample:
    """The lines of `otp least`."""

    def __init__(self, text):
        lines = text.splitlines()
        _, self.level, self.cause = lines[0].split()
        self.document = document_of(lines[1][len("doc [") : -1])
        self.operations = [operation_of(line.split(" ", 2)[2]) for line in lines if line.startswith("op ")]
        self.left, self.right = (line.split(" ", 1)[1] for line in lines[-3:-1])
        self.cells = int(lines[-1].split()[1])


def document_of(text):
    return tuple((ch, not dead) for dead, ch in re.findall(r"(~?)(.)", text))


def operation_of(text):
    kind, at, *ch, site = text.split()
    return brute.Operation(kind, int(at), ch[0] if ch else "", int(site))


class Entry:
    """A function, and what `otp` answers."""

    def __init__(self, name):
        self.name, text = name, text_of(name)
        self.function = brute.read_function(text)
        self.what, self.said = comments(text)
        self.source = self.said["From"].rstrip(".")
        path = path_of(name)
        # The highest level that it has: its name, and how many questions decide it.
        self.proved = proved(path, "tp2") or proved(path, "tp1", "--tp1")
        status, least = run("least", path)
        self.broken = Counterexample(least) if status == 1 else None
        self.audit = audit_word(run("audit", path)[1])
        self.edits = edits(path) if self.proved else edits(path) or edits(path, "--tp1")

    def link(self):
        return f"[`{self.name}`]({self.name}.ot)"

    def is_slip(self):
        return self.name.startswith("slip-")

    def is_published(self):
        return re.search(r"\b(19|20)\d\d\b", self.source) is not None

    def row(self):
        level, count = self.proved
        return [self.link(), self.source, level, f"{count:,}", "none" if self.edits is None else str(self.edits)]

    def fault(self):
        """What is wrong with one that is refuted, with its authors where it was published."""
        authors = f" ({self.source})" if self.is_published() else ""
        return f"- {self.link()}{authors} lacks {self.broken.level.upper()}: {self.broken.cause}"

    def sentence(self):
        return f"{self.fault()}. {self.what}"

    def sentence_with_operations(self):
        """Besides, at which document and operations, of which site 1 makes the first one and site 2 the second."""
        ops = self.broken.operations
        made = " and ".join(f"`{shown(op)}`" for op in ops) + " of one site" * (len({op.site for op in ops}) == 1)
        return f"{self.fault()}, on `{document_text(self.broken.document)}` by {made}. {self.what}"


def proved(path, level, *options):
    status, _ = run("prove", *options, path)
    return (level, questions(path, *options)) if status == 0 else None


def edits(path, *level):
    """How many edits lead to a function with the level; None where no function of the head has it."""
    status, text = run("mend", *level, path)
    if status != 0:
        return None if text == "none\n" else "more"
    return len(re.findall("^# (?!as it was)", text, re.MULTILINE))


def audit_word(text):
    lines = text.splitlines()
    is_open = any(line.startswith("block") and " open " in line for line in lines)
    is_dead = any(line.endswith(" never") for line in lines)
    return " and ".join(["open"] * is_open + ["a case never"] * is_dead) or "whole"


# Diagrams.

def shown(op):
    if op is None:
        return "nop"
    if op == brute.UNDEFINED:
        return "no result"
    return f"{op.kind} {op.at}" + (f" {op.ch}" if op.kind != "del" else "")


def cell_text(cell):
    return ("" if cell[1] else "~") + cell[0]


def document_text(document):
    """The document; of a long one each run of ten or more equal cells is shown by one cell and their number."""
    parts, at = [], 0
    while at < len(document):
        end = at
        while end < len(document) and document[end] == document[at]:
            end += 1
        count = end - at
        parts.append(f"{cell_text(document[at])}*{count} " if count >= 10 else cell_text(document[at]) * count)
        at = end
    return "[" + "".join(parts).strip() + "]"


def way(f, document, ops):
    """The steps of one way: each operation, over those before it, and the document behind; and how it ends."""
    executed, steps = [], []
    for op in ops:
        chain = [op]
        for before in executed:
            chain.append(brute.transform(f, chain[-1], before))
        form = chain[-1]
        text = " -> ".join(map(shown, chain))
        if form == brute.UNDEFINED or document is None or not brute.is_enabled(form, document):
            document = None
            steps.append((text, "" if form == brute.UNDEFINED else "not enabled"))
            break
        document = brute.execute(f, form, document)
        steps.append((text, document_text(document)))
        executed.append(form)
    return steps, form, document


def result_text(broken, form, document):
    """What `otp` writes of a way that ended so."""
    if form == brute.UNDEFINED:
        return "undefined"
    if broken.level == "tp2":
        return shown(form) + (f" {form.site}" if form else "")
    return "range" if document is None else "[" + "".join(map(cell_text, document)) + "]"


def diagram(entry):
    broken, f = entry.broken, entry.function
    a, b, *rest = broken.operations
    ways = [way(f, broken.document, ops) for ops in ((a, b, *rest), (b, a, *rest))]
    for (_, form, document), wanted in zip(ways, (broken.left, broken.right)):
        assert result_text(broken, form, document) == wanted, (entry.name, form, document, wanted)
    columns = [table_of(steps) for steps, _, _ in ways]
    is_said = rest or a.site == b.site  # else the heads say who makes what
    heads = [f"first {shown(op)}" if is_said else f"first site {op.site}'s {shown(op)}" for op in (a, b)]
    width = max(map(len, columns[0] + heads[:1])) + 4
    height = max(map(len, columns))
    left, right = ([head] + column + [""] * (height - len(column)) for head, column in zip(heads, columns))
    made = [f"site {op.site} makes {shown(op)}" for op in broken.operations if is_said]
    lines = [f"{'all' if rest else 'both'} begin with {document_text(broken.document)}", *made, ""]
    lines += [f"{one:{width}}{other}".rstrip() for one, other in zip(left, right)]
    return "\n".join(lines)


def table_of(steps):
    width = max(len(text) for text, _ in steps)
    return [f"  {text:{width}}  {document}".rstrip() for text, document in steps]


HEADS = ["function", "from", "level", "questions", "edits to both"]
NUMBERS = {1: "One edit mends", 2: "Two edits mend", "more": "More than two edits mend"}
AUDITS = {"open": "Some operations have no case in", "a case never": "A case is never taken in"}


def audits(entries):
    """What `audit` finds, by functions: of all others each case is taken and each block total."""
    for word, meaning in AUDITS.items():
        names = ", ".join(f"`{entry.name}`" for entry in entries if word in entry.audit)
        if names:
            yield f"- {meaning} {names}."


def mended(entries):
    """How many edits mend the refuted ones."""
    for number, word in NUMBERS.items():
        names = ", ".join(f"`{entry.name}`" for entry in entries if not entry.proved and entry.edits == number)
        if names:
            yield f"- {word} {names}."


def broken_alike(entries):
    """The diagrams, each with the functions that break so, in the order of the first of them."""
    found = {}
    for entry in entries:
        if entry.broken:
            found.setdefault(diagram(entry), []).append(entry)
    return found.items()


def wrapped(item):
    return textwrap.wrap(item, 120, subsequent_indent="  ", break_on_hyphens=False)


def generated():
    with concurrent.futures.ThreadPoolExecutor(4) as pool:
        entries = list(pool.map(Entry, names()))
    lines = ["| " + " | ".join(HEADS) + " |", "|" + "---|" * len(HEADS)]
    lines += ["| " + " | ".join(entry.row()) + " |" for entry in entries if entry.proved]
    lines += ["", "`otp audit` finds besides:", ""]
    lines += [line for item in audits(entries) for line in wrapped(item)]
    lines += ["", "`otp mend` gives the others both properties, or TP1 where their head has no more:", ""]
    lines += [line for item in mended(entries) for line in wrapped(item)]
    lines += ["", "## What breaks the refuted ones", ""]
    others = []
    for shape, broken in broken_alike(entries):
        if not any(map(Entry.is_published, broken)):
            others += broken
            continue
        lines += [line for entry in broken for line in wrapped(entry.sentence())]
        lines += ["", "```text", shape, "```", ""]
    lines += ["The others, each with the shortest document and the operations there:", ""]
    lines += [line for entry in others if not entry.is_slip() for line in wrapped(entry.sentence_with_operations())]
    lines += ["", "The other slips, whose documents `otp least` prints:", ""]
    lines += [line for entry in others if entry.is_slip() for line in wrapped(entry.sentence())]
    return "\n".join(lines) + "\n"


def main():
    with open(PAGE, encoding="utf-8") as file:
        text = file.read()
    begin, end = text.index(BEGIN) + len(BEGIN), text.index(END)
    part = "\n" + generated() + "\n"
    if "--check" in sys.argv[1:]:
        if text[begin:end] != part:
            print("gallery: examples/gallery/README.md is not what bench/gallery.py writes")
            sys.exit(1)
        return
    with open(PAGE, "w", encoding="utf-8") as file:
        file.write(text[:begin] + part + text[end:])


if __name__ == "__main__":
    main()
