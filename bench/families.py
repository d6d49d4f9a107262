#!/usr/bin/env python3
"""Families of great functions, each of as many cases a block as is wanted, to measure searches and judges by.

usage: families.py NAME CASES > FN
       families.py                  the names, and the numbers of cases that are usual

Each function transforms as a small one does, whose cases are cut into many: `plain` as sites.ot, which has TP1 alone;
`upd`, `mixed`, `pinned` and `random` as ttfu.ot; and all others as ttf.ot. All but `plain` have both properties.
`function_of(name, cases)` gives the text of a function; a number after `random`, as in `random-7`, is the seed that it is
drawn by.

| name | its cases |
|---|---|
| split | cut by p1 - p2, spread, in each block at offsets of its own |
| near | cut by p1 - p2, at the offsets next to 0, which are the same in each block |
| nest | cut by guards of seven atoms, which nest |
| heavy | cut by guards of 13 to 16 atoms |
| plain, upd | cut as in split |
| sitecut | cut by p1 - p2, at other offsets for each order of the sites |
| charcut | cut by p1 - p2, at other offsets for each order of the characters, where both have one |
| rules | the drill's: so many further cases in front of the block of two insertions, which a later one implies |
| cover | cut by p1 - p2 into pieces that overlap nowhere, shuffled, with no last `case true`; of one point by p2 |
| alias | cut into points next to 0, the results there told by p2; the usual cases stand behind them |
| mixed | cut by p1 - p2 beside the characters, where both have one, and the sites in one guard |
| deep | cut by p1 - p2 in guards that nest 32 deep |
| pinned | points that two comparisons pin, the results told by p2; the usual cases stand behind them |
| random | cut by guards of up to 16 atoms that are drawn, each at few distances, some results at points told by p2 |
"""
import os
import random
import sys
from collections import namedtuple

TOP = os.path.dirname(os.path.dirname(os.path.abspath(__file__)))
sys.path.insert(0, os.path.join(TOP, "reference"))

from drill import function_of as rules  # noqa: E402

SIZES = (8, 16, 32, 63)

# What becomes of the first operation in front of the second one, at its place by further guards, and behind it.
Block = namedtuple("Block", "front tie behind")


def same(result):
    return Block(result, [], result)


TOMB = {
    "ins ins": Block("ins p1", [("s1 < s2", "ins p1")], "ins p1 + 1"),
    "ins del": same("ins p1"),
    "del ins": Block("del p1", [], "del p1 + 1"),
    "del del": same("del p1"),
}
UPDATES = {
    **TOMB,
    "ins upd": same("ins p1"),
    "del upd": same("del p1"),
    "upd ins": Block("upd p1", [], "upd p1 + 1"),
    "upd del": same("upd p1"),
    "upd upd": Block("upd p1", [("s2 < s1", "nop")], "upd p1"),
}
PLAIN = {
    "ins ins": TOMB["ins ins"],
    "ins del": Block("ins p1", [("true", "ins p1")], "ins p1 - 1"),
    "del ins": TOMB["del ins"],
    "del del": Block("del p1", [("true", "nop")], "del p1 - 1"),
}


# Where a block is cut: guards that stand in front of `p1 < p2`, by the distance of each, and behind it.

def differs_by(offset):
    """p1 is less than p2 plus the offset."""
    return f"p1 < p2 {'-' if offset < 0 else '+'} {abs(offset)}" if offset else "p1 < p2"


def spread(number, place, count):
    """The distance of a cut, which is of so many, in the block of a number: at most 99."""
    return 1 + number + place * max(1, 88 // count)


def split(kinds, number, place, count, sign):
    return differs_by(sign * spread(number, place, count))


def near(kinds, number, place, count, sign):
    return differs_by(sign * (1 + place))


def nest(kinds, number, place, count, sign):
    first, second, third = (sign * spread(number, other, count) for other in (place, place // 2, max(place - 1, 0)))
    inner = f"{differs_by(first)} and (s1 < s2 or {differs_by(second - 1)})"
    return f"{inner} or {differs_by(third)} and not s1 < s2 and {differs_by(first)}"


def heavy(kinds, number, place, count, sign):
    atoms = 12 + place % 4
    guard = differs_by(sign * spread(number, place, count))
    for atom in range(atoms - 1, 0, -1):
        part = ["s1 < s2", differs_by(sign * spread(number, (place + atom) % count, count)), "s2 < s1"][atom % 3]
        guard = f"({part} {'or' if atom % 2 else 'and'} {guard})"
    return guard[1:-1]


def ordered(first, second):
    """Cuts whose order is told in turns by one guard and by another one."""
    def cut(kinds, number, place, count, sign):
        return f"{[first, second][place % 2]} and {split(kinds, number, place, count, sign)}"

    return cut


by_sites = ordered("s1 < s2", "s2 < s1")


def by_characters(kinds, number, place, count, sign):
    both = "del" not in kinds
    return (ordered("c1 < c2", "c2 < c1") if both else by_sites)(kinds, number, place, count, sign)


def mixed(kinds, number, place, count, sign):
    both = "del" not in kinds
    near_by, far = split(kinds, number, place, count, sign), split(kinds, number, max(place - 1, 0), count, sign)
    order = ["c1 < c2", "c2 < c1", "c1 = c2"][place % 3] if both else "s2 < s1"
    return f"{order} and {near_by} or not ({order} or s2 < s1) and ({far} or s1 < s2 and {near_by})"


def deep(kinds, number, place, count, sign):
    guard = split(kinds, number, place, count, sign)
    for depth in range(14):
        part = ["s1 < s2", split(kinds, number, (place + depth) % count, count, sign)][depth % 2]
        guard = f"not ({part} and {guard})" if depth % 2 else f"({part} or {guard})"
    return "not " * (32 - guard.count("(") - guard.count("not") - 2) + guard


FAMILIES = {
    "split": ("tomb", TOMB, split),
    "near": ("tomb", TOMB, near),
    "nest": ("tomb", TOMB, nest),
    "heavy": ("tomb", TOMB, heavy),
    "plain": ("plain", PLAIN, split),
    "upd": ("tomb", UPDATES, split),
    "sitecut": ("tomb", TOMB, by_sites),
    "charcut": ("tomb", TOMB, by_characters),
    "mixed": ("tomb", UPDATES, mixed),
    "deep": ("tomb", TOMB, deep),
}


def within(half, guard):
    """The guard of a cut, which stays in one half of the positions also where it is made of more than one comparison."""
    return f"{half} and ({guard})" if "(" in guard else guard


def block_of(kinds, number, block, cases, cut):
    """The lines of a block of so many cases."""
    cuts = max(cases - len(block.tie) - 2, 0)
    front, behind = (cuts + 1) // 2, cuts // 2
    lines = [f"block {kinds}"]
    for place in range(front - 1, -1, -1):
        lines.append(f"case {within('p1 < p2', cut(kinds, number, place, front, -1))} : {block.front}")
    lines.append(f"case p1 < p2 : {block.front}")
    lines += [f"case p1 = p2{'' if guard == 'true' else f' and {guard}'} : {result}" for guard, result in block.tie]
    for place in range(behind):
        lines.append(f"case {within('p2 < p1', cut(kinds, number, place, behind, 1))} : {block.behind}")
    return lines + [f"case true : {block.behind}"]


# Blocks whose results are told by p2 at points.

def plus(offset):
    return f" {'-' if offset < 0 else '+'} {abs(offset)}" if offset else ""


def told_by_second(result, distance):
    """A result where p1 is p2 plus the distance, told by p2."""
    if result == "nop":
        return result
    kind, _, *offset = result.split(" ")
    return f"{kind} p2{plus(distance + int(''.join(offset) or 0))}"


def at_point(block, guard, distance):
    return f"case {guard} : {told_by_second(block.front if distance < 0 else block.behind, distance)}"


def usual(block):
    """The cases of the small function."""
    ties = [f"case p1 = p2{'' if guard == 'true' else f' and {guard}'} : {result}" for guard, result in block.tie]
    return [f"case p1 < p2 : {block.front}", *ties, f"case true : {block.behind}"]


def points(cases):
    """The distances of so many cases but for the usual ones, next to 0."""
    most = max(cases - 4, 0) // 2
    return [*range(-most, 0), *range(1, most + 1)]


def alias_block(draw, kinds, number, block, cases):
    return [at_point(block, f"p1 = p2{plus(distance)}", distance) for distance in points(cases)] + usual(block)


def pinned_block(draw, kinds, number, block, cases):
    lines = []
    for place in points(cases):
        distance = (-1 if place < 0 else 1) * spread(number, abs(place) - 1, 30)
        guard = f"p1 <= p2{plus(distance)} and p2 <= p1{plus(-distance)}"
        lines.append(at_point(block, guard, distance))
    return lines + usual(block)


def negation_of(guard):
    return {"s1 < s2": "s2 < s1", "s2 < s1": "s1 < s2"}[guard]


def cover_block(draw, kinds, number, block, cases):
    """Pieces between cuts at distances that are drawn. Each third piece is one point."""
    pieces = max(cases - 1 - len(block.tie), 2)
    lines = [f"case p1 = p2 and {guard} : {result}" for guard, result in block.tie]
    lines += [f"case p1 = p2{f' and {negation_of(block.tie[0][0])}' if block.tie else ''} : {block.behind}"]
    for sign, count in ((-1, (pieces + 1) // 2), (1, pieces // 2)):
        ends = sorted(draw.sample(range(2, 99), count - 1))
        begun = 1
        for place, end in enumerate([*ends, None]):
            # The distances from `begun` on, up to the one before `end`.
            lines += piece_of(block, sign, begun, end, place)
            begun = end
    draw.shuffle(lines)
    return lines


def piece_of(block, sign, begun, end, place):
    result = block.front if sign < 0 else block.behind
    if end is not None and end - begun == 1:
        return [at_point(block, f"p1 = p2{plus(sign * begun)}", sign * begun)]
    first = f"p1 <= p2{plus(-begun)}" if sign < 0 else f"p2 <= p1{plus(-begun)}"
    if end is None:
        return [f"case {first} : {result}"]
    last = f"p2 < p1{plus(end)}" if sign < 0 else f"p1 < p2{plus(end)}"
    return [f"case {first} and {last} : {result}"]


# Guards that are drawn.

def drawn_atom(draw, both):
    sort = draw.choice("pps" + "c" * both)
    first, second = draw.sample([f"{sort}1", f"{sort}2"], 2)
    return f"{first} {draw.choice(['<', '<='])} {second}{plus(draw.randint(-99, 99)) if sort == 'p' else ''}"


def drawn_guard(draw, both, atoms):
    """A guard of so many atoms."""
    if atoms == 1:
        return f"{'not ' * (draw.random() < 0.2)}{drawn_atom(draw, both)}"
    first = draw.randint(1, atoms - 1)
    left, right = drawn_guard(draw, both, first), drawn_guard(draw, both, atoms - first)
    return f"{'not ' * (draw.random() < 0.2)}({left} {draw.choice(['and', 'or'])} {right})"


def window(sign, begun, end):
    """The distances from one on, up to before another one, below or above."""
    if sign < 0:
        return f"p1 <= p2{plus(-begun)} and p2 < p1{plus(end)}"
    return f"p2 <= p1{plus(-begun)} and p1 < p2{plus(end)}"


def random_block(draw, kinds, number, block, cases):
    """Guards of up to 16 atoms, each of which holds at few distances, so that the later cases are taken too."""
    both, lines = "del" not in kinds, []
    for _ in range(max(cases - len(block.tie) - 2, 0)):
        sign, begun, guard = draw.choice([-1, 1]), draw.randint(1, 98), drawn_guard(draw, both, draw.randint(1, 14))
        if draw.random() < 0.1:
            lines.append(at_point(block, f"p1 = p2{plus(sign * begun)} and {guard}", sign * begun))
        else:
            result = block.front if sign < 0 else block.behind
            lines.append(f"case {window(sign, begun, min(begun + draw.randint(1, 12), 99))} and {guard} : {result}")
    return lines + usual(block)


# Families whose blocks are made as a whole.
BLOCKS = {
    "cover": (TOMB, cover_block),
    "alias": (TOMB, alias_block),
    "pinned": (UPDATES, pinned_block),
    "random": (UPDATES, random_block),
}
NAMES = [*FAMILIES, "rules", *BLOCKS]


def members(family):
    """The names and the numbers of cases that are usual of a family: of the drawn one ten seeds at the most cases."""
    return [(f"random-{seed}", 64) for seed in range(1, 11)] if family == "random" else [(family, cases) for cases in SIZES]


def function_of(name, cases):
    family, *seed = name.split("-")
    if family == "rules":
        return rules(min(cases, 61))
    if family in BLOCKS:
        (blocks, made), text, draw = BLOCKS[family], "tomb", random.Random(f"{name} {cases}")

        def of(kinds, number, block):
            return [f"block {kinds}", *made(draw, kinds, number, block, cases)]
    else:
        text, blocks, cut = FAMILIES[family]

        def of(kinds, number, block):
            return block_of(kinds, number, block, cases, cut)
    kinds = [kind for kind in ("ins", "del", "upd") if f"{kind} {kind}" in blocks]
    head = [f"otfn {2 if 'upd' in kinds else 1}", f"text {text}", "kinds " + " ".join(kinds), "assume sites differ"]
    lines = [line for number, (pair, block) in enumerate(blocks.items()) for line in of(pair, number, block)]
    return "\n".join([*head, *lines, "end", ""])


def main():
    if len(sys.argv) == 3:
        sys.stdout.write(function_of(sys.argv[1], int(sys.argv[2])))
    else:
        print(*NAMES)
        print(*SIZES)


if __name__ == "__main__":
    main()
