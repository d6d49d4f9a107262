"""Draws functions to mend: right ones with so many edits, some of which no function is mended by."""
import brute
import mend
from comparison import texts_of
from drawing import with_another_case

# Right functions, each at the highest level that it has.
RIGHT = [
    ("gallery", "tomb-ttf.ot", "tp2"),
    ("gallery", "plain-adopted.ot", "tp1"),
    ("gallery", "plain-dopt-mended.ot", "tp1"),
    ("gallery", "tomb-char.ot", "tp2"),
    ("gallery", "plain-wins-upd.ot", "tp2"),
    ("gallery", "fixed-table.ot", "tp2"),
    ("gallery", "plain-ins-char.ot", "tp2"),
    ("gallery", "register-site.ot", "tp2"),
    ("gallery", "tomb-cancel-char.ot", "tp2"),
    ("gallery", "plain-three.ot", "tp1"),
    ("gallery", "update-site.ot", "tp2"),
]


def right_functions():
    return [(text, level) for folder, name, level in RIGHT for found, text in texts_of(folder, ".ot") if found == name]


def edited(draw, text):
    """The function with one edit, each kind of which is as likely: most are those that functions are mended by."""
    f = brute.read_function(text)
    if draw.random() < 0.3 and all(f.blocks.values()):
        return with_another_case(draw, text)
    kinds = draw.choice(sorted(f.blocks))
    assumed = [it for it in mend.ASSUMPTIONS if getattr(f, it)]
    found = {}
    for change, _, block in mend.changes(kinds, tuple(f.blocks[kinds]), assumed):
        found.setdefault(change[0], []).append(block)
    block = draw.choice(found[draw.choice(sorted(found))])
    return brute.function_text(f._replace(blocks={**f.blocks, kinds: block}))


def drawn(draw, count):
    """So many functions with one edit and with two, in turn, and the level that is wanted of each."""
    right = right_functions()
    for number in range(count):
        text, level = draw.choice(right)
        for _ in range(1 + number % 2):
            text = edited(draw, text)
        yield f"drawn {number}", text, level


def shipped():
    """The functions of the examples, each at both levels."""
    for folder in ("functions", "designing", "gallery"):
        for name, text in texts_of(folder, ".ot"):
            yield from ((f"{folder}/{name}", text, level) for level in ("tp1", "tp2"))
