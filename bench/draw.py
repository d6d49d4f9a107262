#!/usr/bin/env python3
"""Draws the counterexample of a function as an SVG, from what `otp explain` prints.

usage: draw.py [--tp1] FN > SVG      (after `otp`)

Of TP1 it is a diamond: the document at the top, the two operations down its sides, and the two documents that should be
one at the bottom. Of TP2 it is the diamond of two operations, with the third one in each corner as it is there, and
below the two forms that should be one, with the documents that they lead to: two sides of a cube. Beside each edge of a
transformed operation stands the case that was taken. What operations become is computed by reference/brute.py, and
compared with what `otp` prints.
"""
import os
import re
import sys
from xml.sax.saxutils import escape

from gallery import brute, document_of, document_text, operation_of, result_text, run, shown, way

INK, FAINT, WRONG = "#1f2328", "#6e7781", "#b3261e"
COLOURS = ["#0b57b0", "#a34800", "#1a6e34"]
LETTER = 8.4
CASE = re.compile(r"  ((?:ins|del|upd) (?:ins|del|upd) \d+): ")


class Explained:
    """The lines of `otp explain` of a function that is broken."""

    def __init__(self, text):
        lines = text.splitlines()
        lines = lines[lines[0] == "tp1 holds":]
        _, self.level, self.cause = lines[0].split()
        self.document = document_of(lines[1][len("doc [") : -1])
        self.operations = [operation_of(line.split(" ", 2)[2]) for line in lines if line.startswith("op ")]
        self.left, self.right = (next(line[len(side) + 1:] for line in lines if line.startswith(side + " ")) for side in ("left", "right"))
        self.cases, side = {}, None
        for line in lines:
            if line in ("left", "right"):
                side = line
            elif side and line.startswith("  op "):
                self.cases[side, re.split("  +", line.strip())[0]] = case_name(line)

    def case(self, side, label):
        return self.cases.get((side, label), "")


def case_name(line):
    """The case that the line of a transformation names, or that there is none."""
    found = CASE.search(line)
    return f"case {found[1]}" if found else "no case" if line.endswith("no case") else ""


def width_of(*lines):
    return max(len(line) for line in lines) * LETTER + 24


class Drawing:
    def __init__(self, width, height):
        self.width, self.height, self.lines, self.boxes = width, height, [], []
        self.has_dead_cells = False

    def document(self, document):
        """The text of a document; where a cell of it is dead there is a legend."""
        self.has_dead_cells |= any(not live for _, live in document)
        return document_text(document)

    def end(self, form, document):
        """What stands where a way ends."""
        if form == brute.UNDEFINED:
            return "no result"
        return "not enabled" if document is None else self.document(document)

    def text(self, x, y, text, colour=INK, size=14, weight="normal"):
        style = f'font-size="{size}" font-weight="{weight}" fill="{colour}"'
        self.boxes.append(f'<text x="{x:.0f}" y="{y:.0f}" {style}>{escape(text)}</text>')

    def box(self, x, y, lines, colour=INK):
        """A corner: each of its lines has its own colour. The middle of it is at the place."""
        wide, high = max(width_of(*(text for text, _ in lines)), 52), 20 * len(lines) + 14
        left, top = x - wide / 2, y - high / 2
        place = f'x="{left:.0f}" y="{top:.0f}" width="{wide:.0f}" height="{high}"'
        self.boxes.append(f'<rect {place} rx="7" fill="#ffffff" stroke="{colour}" stroke-width="1.6"/>')
        for number, (text, ink) in enumerate(lines):
            self.text(x, top + 22 + 20 * number, text, ink)

    def arrow(self, start, end, label, colour, side, *notes):
        """An edge; the label stands beside its middle, on the left with side -1 and on the right with 1, and the notes
        below it."""
        (x, y), (u, v) = start, end
        self.lines.append(f'<line x1="{x:.0f}" y1="{y:.0f}" x2="{u:.0f}" y2="{v:.0f}" stroke="{colour}" '
                          f'stroke-width="1.8" marker-end="url(#{colour[1:]})"/>')
        # Clear of the edge: above it where it leads outwards, and below it where it leads back.
        notes = [note for note in notes if note]
        middle = (x + u) / 2 + side * (width_of(label, *notes) / 2 + 4)
        height = (y + v) / 2 + (-8 if side * (u - x) > 0 else 8) + 5 - 6 * len(notes)
        self.text(middle, height, label, colour)
        for number, note in enumerate(notes, 1):
            self.text(middle, height + 1 + 16 * number, note, FAINT, 12)

    def svg(self, title):
        if self.has_dead_cells:
            self.text(self.width / 2, self.height - 12, "~ marks a dead cell: it is deleted, and positions count it", FAINT, 12)
        size = f'width="{self.width}" height="{self.height}"'
        font = 'font-family="DejaVu Sans Mono, monospace" text-anchor="middle"'
        head = f'<svg xmlns="http://www.w3.org/2000/svg" {size} viewBox="0 0 {self.width} {self.height}" {font}>'
        heads = "".join(map(arrow_head, [*COLOURS, WRONG]))
        parts = [head, f"<title>{escape(title)}</title>", f"<defs>{heads}</defs>", f'<rect {size} fill="#ffffff"/>']
        return "\n".join([*parts, *self.lines, *self.boxes, "</svg>", ""])


def arrow_head(colour):
    place = 'viewBox="0 0 10 10" refX="9" refY="5" markerWidth="7" markerHeight="7" orient="auto"'
    return f'<marker id="{colour[1:]}" {place}><path d="M0 0L10 5L0 10z" fill="{colour}"/></marker>'


def ways_of(f, broken):
    a, b, *rest = broken.operations
    found = [way(f, broken.document, ops) for ops in ((a, b, *rest), (b, a, *rest))]
    for (_, form, document), wanted in zip(found, (broken.left, broken.right)):
        assert result_text(broken, form, document) == wanted, (form, document, wanted)
    return found


def made(op):
    return f"site {op.site}: {shown(op)}"


def was(op, form):
    return f"was {shown(op)}" if shown(op) != shown(form) else None


def first_steps(drawing, f, broken, corners, notes):
    """The document, and the first operation of each way; `notes` are further lines in the corners."""
    top = corners[0]
    for side, corner, note, op, colour in zip((-1, 1), corners[1:], notes[1:], broken.operations, COLOURS):
        start, end = (top[0] + side * 20, top[1] + 12), (corner[0], corner[1] - 19 - 10 * len(note))
        drawing.arrow(start, end, made(op), colour, side)
        drawing.box(*corner, [(drawing.document(brute.execute(f, op, broken.document)), INK), *note])
    drawing.box(*top, [(drawing.document(broken.document), INK), *notes[0]])


def diamond(f, broken, title):
    a, b = broken.operations
    drawing = Drawing(0, 390)
    ends = [drawing.end(form, document) for _, form, document in ways_of(f, broken)]
    apart = max(width_of(*ends) / 2 + 22, 60)
    side = max(apart + 70, width_of(document_text(broken.document)) + 30, 170)
    labels = [("left", "op 2 after op 1"), ("right", "op 1 after op 2")]
    drawing.width = int(2 * side + 2 * width_of(made(a), made(b)) + 60)
    x = drawing.width / 2
    drawing.text(x, 28, title, INK, 15, "bold")
    corners = [(x, 70), (x - side, 190), (x + side, 190)]
    for at, end, op, other, colour, label in ((-1, ends[0], b, a, 1, labels[0]), (1, ends[1], a, b, 0, labels[1])):
        form = brute.transform(f, op, other)
        start, corner = (x + at * side, 207), (x + at * apart, 330)
        aim = (corner[0], corner[1] - 18)
        drawing.arrow(start, aim, shown(form), COLOURS[colour], at, was(op, form), broken.case(*label))
        drawing.box(*corner, [(end, WRONG)], WRONG)
    first_steps(drawing, f, broken, corners, [[], [], []])
    drawing.text(x, 336, "≠", WRONG, 20, "bold")
    return drawing.svg(title)


def cube(f, broken, title):
    a, b, c = broken.operations
    (left, right) = ways_of(f, broken)
    behind = [brute.transform(f, c, a), brute.transform(f, c, b)]
    a1, b1 = brute.transform(f, a, b), brute.transform(f, b, a)
    both = brute.execute(f, b1, brute.execute(f, a, broken.document))
    side, width = 190, int(2 * 190 + 2 * width_of(made(a), made(b)) + 60)
    x = width / 2
    drawing = Drawing(width, 540)
    drawing.text(x, 28, title, INK, 15, "bold")
    drawing.text(x, 50, f"in green, site {c.site}'s operation in each corner", COLOURS[2], 12)
    corners = [(x, 95), (x - side, 215), (x + side, 215)]
    for at, form, op, colour, label in ((-1, b1, b, 1, ("left", "op 2 after op 1")), (1, a1, a, 0, ("right", "op 1 after op 2"))):
        aim = (x + at * 22, 333)
        drawing.arrow((x + at * side, 242), aim, shown(form), COLOURS[colour], at, was(op, form), broken.case(*label))
    for at, side_name, (_, form, document) in ((-1, "left", left), (1, "right", right)):
        corner = (x + at * 130, 480)
        case = broken.case(side_name, "op 3 after both")
        drawing.arrow((x + at * 14, 367), (corner[0], corner[1] - 18), shown(form), COLOURS[2], at, case)
        drawing.box(*corner, [(drawing.end(form, document), WRONG)], WRONG)
    first_steps(drawing, f, broken, corners, [[(shown(form), COLOURS[2])] for form in (c, *behind)])
    drawing.box(x, 350, [(drawing.document(both), INK)])
    drawing.text(x, 486, "≠", WRONG, 20, "bold")
    return drawing.svg(title)


def refusal(path, status, text):
    """Why nothing is drawn."""
    first = (text.splitlines() or [""])[0]
    return "draw: " + {
        0: f"nothing to draw: {path} has {'TP1' if first == 'yes tp1' else 'both properties'}",
        3: f"{path} is no function file: {first}",
        6: f"{path} can't be read",
        8: f"neither `prove` nor `settle` decides {path}",
        9: f"{path} is longer than a function file may be",
    }.get(status, f"`otp explain` ends with {status} of {path}")


def drawn(path, *level):
    status, text = run("explain", *level, "--", path)
    if status != 1:
        sys.exit(refusal(path, status, text))
    broken = Explained(text)
    with open(path, encoding="utf-8", errors="replace") as file:
        f = brute.read_function(file.read())
    title = f"{os.path.basename(path)} lacks {broken.level.upper()}: {broken.cause}"
    return (diamond if broken.level == "tp1" else cube)(f, broken, title)


def main():
    words = sys.argv[1:]
    level = [word for word in words if word == "--tp1"]
    names = [word for word in words if word != "--tp1"]
    if len(level) > 1 or len(names) != 1:
        sys.exit("usage: draw.py [--tp1] FN > SVG")
    sys.stdout.write(drawn(*names, *level))


if __name__ == "__main__":
    main()
