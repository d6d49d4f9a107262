"""Draws functions, and reads and changes their cases."""
from certificate import KINDS


def drawn_atom(draw, letters):
    letter = draw.choice(letters)
    first, second = draw.choice(["12", "21"])
    offset = draw.choice(["", "", " + 1", " - 1", " + 99", " - 99"]) if letter == "p" else ""
    return f"{letter}{first} {draw.choice(['<', '<=', '='])} {letter}{second}{offset}"


def drawn_guard(draw, letters, depth=3):
    shape = draw.random()
    if depth == 0 or shape < 0.4:
        return drawn_atom(draw, letters)
    if shape < 0.45:
        return "true"
    if shape < 0.6:
        return f"not ({drawn_guard(draw, letters, depth - 1)})"
    join = draw.choice(["and", "or"])
    return f"({drawn_guard(draw, letters, depth - 1)}) {join} ({drawn_guard(draw, letters, depth - 1)})"


def drawn_case(draw, first, second):
    letters = "ppsc" if "del" not in (first, second) else "pps"
    place = f"{first} {draw.choice(['p1', 'p2'])}{draw.choice(['', '', ' + 1', ' - 1', ' + 99'])}"
    return f"case {drawn_guard(draw, letters)} : {draw.choice([place, place, place, 'nop'])}"


def drawn_function(draw):
    """A head, and the cases of each block."""
    kinds = [kind for kind in KINDS if draw.random() < 0.6] or [draw.choice(KINDS)]
    head = ["otfn 2" if "upd" in kinds else "otfn 1", f"text {draw.choice(['plain', 'tomb'])}", "kinds " + " ".join(kinds)]
    assumed = draw.choice([[], ["assume sites differ"], ["assume sites differ", "assume chars differ"]])
    blocks = {(k, l): [drawn_case(draw, k, l) for _ in range(draw.randint(0, 4))] for k in kinds for l in kinds}
    return head + assumed, blocks


def text_of(function):
    head, blocks = function
    lines = [line for kinds, cases in blocks.items() for line in [f"block {' '.join(kinds)}", *cases]]
    return "\n".join([*head, *lines, "end", ""])


def parts_of(text):
    """The head and the blocks of a function's text."""
    head, blocks, cases = [], {}, None
    for line in (line.split("#")[0].strip() for line in text.splitlines()):
        if line.startswith("block"):
            cases = blocks.setdefault(tuple(line.split()[1:]), [])
        elif line and line != "end":
            (head if cases is None else cases).append(line)
    return head, blocks


def changed(draw, function, change):
    """The function with one block's cases changed."""
    head, blocks = function
    kinds = draw.choice(list(blocks))
    return head, {**blocks, kinds: change(kinds, list(blocks[kinds]))}


def with_another_case(draw, text):
    """The function with a case planted, one put in front, or a sign or the result exchanged in one."""
    def change(kinds, cases):
        place = draw.randrange(len(cases))
        signs = [("<=", "<"), (" < ", " <= "), (" = ", " <= "), ("- 1", "+ 1"), (" and ", " or ")]
        signs += [(f": {kinds[0]} p1", f": {kinds[0]} p2"), (f": {kinds[0]} p1", ": nop # ")]
        here = [(old, new) for old, new in signs if old in cases[place]]
        way = draw.random()
        if way < 0.4 or not here:
            cases.insert(place, drawn_case(draw, *kinds))
        elif way < 0.6:
            cases.insert(0, cases.pop(place))
        else:
            cases[place] = cases[place].replace(*draw.choice(here), 1)
        return cases

    return text_of(changed(draw, parts_of(text), change))
