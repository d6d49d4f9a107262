#!/usr/bin/env python3
"""Runs a session as docs/SESSIONS.md defines it, and writes what `otp replay` has to write.

usage: sessions.py FN SESSION          the text, with the exit status of `otp replay`
       sessions.py --forms FN SESSION  the same, and before it how many forms were counted and how events were answered

It follows the definitions: a form is sought by recursion on the list of what a site has integrated, and nothing of the
program is used. A form that was made before at the same site is remembered, since the recursion alone does not end in
reasonable time; only its first making is counted. A list of operations is kept as the set of their places in what the
site has integrated, which are in order.
"""
import json
import math
import sys

from certificate import read_function

MAX_CELLS, MAX_SITES, MAX_EVENTS, MAX_MADE, MAX_FORMS = 1_000_000, 16, 65_536, 1_024, 500_000
MAX_POSITION, MAX_NUMBER = 2_147_483_647, 4_294_967_295
MAX_DEPTH = 127


class Ended(Exception):
    """The command ends with this status and this text."""

    def __init__(self, status, text):
        super().__init__(text)
        self.status, self.text = status, text + "\n"


# Operations: ("ins", at, ch, site), ("del", at, site), ("upd", at, ch, site), or None for nop.

def site_of(op):
    return op[-1]


def moved(op, at):
    return (op[0], at) + op[2:]


def is_enabled(op, length):
    if op is None:
        return True
    return 0 <= op[1] <= length if op[0] == "ins" else 0 <= op[1] < length


def executed(f, op, doc):
    """The document behind an operation that is enabled on it. A cell is a character and whether it is live."""
    if op is None:
        return doc
    at = op[1]
    if op[0] == "ins":
        return doc[:at] + [(op[2], True)] + doc[at:]
    if op[0] == "upd":
        return doc[:at] + [(op[2], doc[at][1])] + doc[at + 1:]
    return doc[:at] + ([(doc[at][0], False)] if f.tomb else []) + doc[at + 1:]


def thing(op, sort):
    return op[1] if sort == "p" else site_of(op) if sort == "s" else ord(op[2])


def is_true(guard, one, two):
    if guard[0] == "true":
        return True
    if guard[0] == "not":
        return not is_true(guard[1], one, two)
    if guard[0] == "and":
        return is_true(guard[1], one, two) and is_true(guard[2], one, two)
    if guard[0] == "or":
        return is_true(guard[1], one, two) or is_true(guard[2], one, two)
    _, sort, first, compare, offset = guard
    left, right = (one, two) if first else (two, one)
    x, y = thing(left, sort), thing(right, sort) + offset
    return x < y if compare == "<" else x <= y if compare == "<=" else x == y


class NoForm(Exception):
    pass


def transform(f, one, two):
    if one is None or two is None:
        return one
    for guard, result in f.blocks[one[0], two[0]]:
        if is_true(guard, one, two):
            if result is None:
                return None
            keeps, offset = result
            return moved(one, (one if keeps else two)[1] + offset)
    raise NoForm


# Sessions.

class Site:
    def __init__(self, doc):
        self.doc, self.seen, self.held = doc, [], set()
        self.places = {}  # operation: its place in `seen`
        self.known = {}   # operation: the places of those that are before it
        self.forms = {}   # (operation, places of a list): the form behind the list


class Session:
    def __init__(self, f, doc, sites):
        self.f, self.counted = f, 0
        self.made = []    # (operation, the set of those before it)
        self.sites = {number: Site(doc) for number in range(1, sites + 1)}

    def make(self, number, op):
        if number not in self.sites:
            return "site"
        if site_of(op) != number:
            return "owner"
        if op[0] not in self.f.kinds:
            return "kind"
        site = self.sites[number]
        if not is_enabled(op, len(site.doc)):
            return "enabled"
        if len(self.made) == MAX_MADE:
            raise Ended(9, "limit ops")
        self.made.append((op, set(site.seen)))
        self.execute(site, len(self.made) - 1, op)
        return None

    def execute(self, site, o, form):
        site.doc = executed(self.f, form, site.doc)
        site.places[o] = len(site.seen)
        site.seen.append(o)

    def take(self, number, o):
        if number not in self.sites:
            return "site"
        if o >= len(self.made):
            return "number"
        site = self.sites[number]
        if o in site.places or o in site.held:
            return "repeat"
        if not self.is_ready(site, o):
            site.held.add(o)
            return "held"
        while o is not None:
            self.integrate(site, o)
            site.held.discard(o)
            o = next((x for x in sorted(site.held) if self.is_ready(site, x)), None)
        return None

    def is_ready(self, site, o):
        return all(x in site.places for x in self.made[o][1])

    def integrate(self, site, o):
        form = self.form(site, o, (1 << len(site.seen)) - 1)
        if not is_enabled(form, len(site.doc)):
            raise NoForm
        self.execute(site, o, form)

    def form(self, site, o, behind):
        """The form of an operation behind a list that is part of what the site has integrated."""
        if o not in site.known:
            site.known[o] = sum(1 << site.places[x] for x in self.made[o][1])
        others = behind & ~site.known[o]
        if others == 0:
            return self.made[o][0]
        if (o, behind) in site.forms:
            return site.forms[o, behind]
        last = others.bit_length() - 1
        fewer = behind & ~(1 << last)
        own = self.form(site, o, fewer)
        by = self.form(site, site.seen[last], fewer)
        if self.counted == MAX_FORMS:
            raise Ended(8, "spent")
        self.counted += 1
        site.forms[o, behind] = transform(self.f, own, by)
        return site.forms[o, behind]


def replayed(f, script):
    """The session behind the events, and how often each answer came that ends nothing."""
    doc, sites, events = script
    session, answers = Session(f, doc, sites), {"held": 0, "repeat": 0}
    for number, (word, site, what) in enumerate(events):
        try:
            answer = session.make(site, what) if word == "make" else session.take(site, what)
        except NoForm:
            raise Ended(1, f"stuck event {number}") from None
        if answer in answers:
            answers[answer] += 1
        elif answer is not None:
            raise Ended(4, f"case event {number} {answer}")
    return session, answers


def doc_text(doc):
    escaped = {"\\": "\\\\", "~": "\\~", "\n": "\\n", "\r": "\\r"}
    return "".join(("" if live else "~") + escaped.get(ch, ch) for ch, live in doc)


def told(session):
    lines = [f"site {number} {len(site.seen)} [{doc_text(site.doc)}]" for number, site in session.sites.items()]
    sets = {number: frozenset(site.seen) for number, site in session.sites.items()}
    for number, site in session.sites.items():
        for other in session.sites:
            if number < other and sets[number] == sets[other] and site.doc != session.sites[other].doc:
                return 1, "\n".join(lines + [f"differ {number} {other}\n"])
    return 0, "\n".join(lines + ["same\n"])


# Session files. A whole number is one that is written with digits alone and fits in 64 bits.

def real_of(digits):
    number = float(digits)
    if math.isinf(number):
        raise ValueError("out of range")
    return number


def number_of(digits):
    return int(digits) if digits.isdigit() and len(digits) <= 20 and int(digits) < 1 << 64 else real_of(digits)


def refused_constant(word):
    raise ValueError(word)


def depth_of(value):
    deepest, left = 0, [(value, 1)]
    while left:
        value, depth = left.pop()
        if isinstance(value, (list, dict)):
            deepest = max(deepest, depth)
            left += [(x, depth + 1) for x in (value.values() if isinstance(value, dict) else value)]
    return deepest


def json_of(content):
    try:
        value = json.loads(content.decode("utf-8"), parse_int=number_of, parse_float=real_of, parse_constant=refused_constant)
        json.dumps(value, ensure_ascii=False).encode("utf-8")  # half a pair of surrogates is refused
    except (ValueError, RecursionError):
        raise Ended(4, "case json") from None
    if depth_of(value) > MAX_DEPTH:
        raise Ended(4, "case json")
    return value


def is_whole(value, most):
    return isinstance(value, int) and not isinstance(value, bool) and value <= most


def doc_of(value):
    refusal = Ended(4, "case field doc")
    if not isinstance(value, str):
        raise refusal
    cells, chars = [], iter(value)
    for ch in chars:
        live = ch != "~"
        if not live:
            ch = next(chars, "~")
            if ch == "~":
                raise refusal
        if ch == "\\":
            ch = {"\\": "\\", "~": "~", "n": "\n", "r": "\r"}.get(next(chars, None))
            if ch is None:
                raise refusal
        if len(cells) == MAX_CELLS:
            raise Ended(9, "limit cells")
        cells.append((ch, live))
    return cells


def is_operation(value):
    if not isinstance(value, list) or not value or value[0] not in ("ins", "del", "upd"):
        return False
    if len(value) != (3 if value[0] == "del" else 4):
        return False
    has_char = len(value) == 3 or isinstance(value[2], str) and len(value[2]) == 1
    return is_whole(value[1], MAX_POSITION) and has_char and is_whole(value[-1], MAX_NUMBER)


def is_event(value):
    if not isinstance(value, list) or len(value) != 3 or not is_whole(value[1], MAX_NUMBER):
        return False
    if value[0] == "make":
        return is_operation(value[2])
    return value[0] == "take" and is_whole(value[2], MAX_NUMBER)


def parts_of(content, is_event):
    """The document, the number of sites and the events of a file, or its first fault."""
    top = json_of(content)
    part = top.get if isinstance(top, dict) else lambda key: None
    doc = doc_of(part("doc"))
    sites = part("sites")
    if not is_whole(sites, 1 << 64) or sites == 0:
        raise Ended(4, "case field sites")
    if sites > MAX_SITES:
        raise Ended(9, "limit sites")
    events = part("events")
    if not isinstance(events, list):
        raise Ended(4, "case field events")
    if len(events) > MAX_EVENTS:
        raise Ended(9, "limit events")
    if not all(is_event(event) for event in events):
        raise Ended(4, "case field events")
    return doc, sites, events


def script_of(content):
    doc, sites, events = parts_of(content, is_event)
    return doc, sites, [(word, site, tuple(what) if word == "make" else what) for word, site, what in events]


def answer(function_text, content, tell=lambda session, answers: None):
    """The status and the text of `otp replay` for a function that is one, and the bytes of a session file."""
    f = read_function(function_text)
    try:
        session, answers = replayed(f, script_of(content))
    except Ended as end:
        return end.status, end.text
    tell(session, answers)
    return told(session)


def main():
    tells, names = sys.argv[1:2] == ["--forms"], sys.argv[1:]
    function, session = names[1:] if tells else names
    with open(function) as file:
        text = file.read()
    with open(session, "rb") as file:
        content = file.read()

    def tell(session, answers):
        print(f"forms {session.counted}, made {len(session.made)}, held {answers['held']}, repeated {answers['repeat']}")

    status, written = answer(text, content, tell if tells else lambda session, answers: None)
    sys.stdout.write(written)
    sys.exit(status)


# A form is sought as deep as the list is long.
sys.setrecursionlimit(20_000)
if __name__ == "__main__":
    main()
