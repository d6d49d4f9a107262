#!/usr/bin/env python3
"""Tells a session event by event, as docs/EXPLAIN.md says, and writes what `otp trace --session` has to write.

usage: traces.py FN SESSION     the text, with the exit status of `otp trace --session`

It runs the session by reference/sessions.py. What an operation was carried over it finds anew: from the oldest operation
that is not before it to the newest, each in the form that it has after those before it. Nothing of the program is used.
A refused file or event is told by its line alone: its place in the file is left to others.
"""
import itertools
import sys

import brute
from certificate import read_function
from sessions import Ended, NoForm, Session, doc_text, is_true, moved, script_of, told

FIRST, SECOND, LONG, AROUND = 22, 14, 5, 12


def padded(width, text):
    return text + " " * max(2, width - len(text))


def columns(first, second, last):
    return padded(FIRST, first) + padded(SECOND, second) + last


def op_text(op):
    if op is None:
        return "nop"
    return f"{op[0]} {op[1]}" + (f" {doc_text([(op[2], True)])}" if op[0] != "del" else "")


def short_document(place, doc):
    """A document in brackets, shortened around a place."""
    runs = [(cell, len(list(cells))) for cell, cells in itertools.groupby(doc)]
    ends = list(itertools.accumulate(count for _, count in runs))
    here = next((number for number, end in enumerate(ends) if place < end), len(runs))
    first, after = max(0, here - AROUND), min(here + AROUND + 1, len(runs))
    text, was_long = "", None
    for cell, count in runs[first:after]:
        is_long = count >= LONG
        if was_long is not None and (was_long or is_long):
            text += " "
        text += doc_text([cell]) + f"*{count}" if is_long else doc_text([cell] * count)
        was_long = is_long
    return "[" + "..." * (first > 0) + text + "..." * (after < len(runs)) + "]"


class Cases:
    """The cases of a function, with their canonical texts."""

    def __init__(self, text):
        self.blocks, self.printed = read_function(text).blocks, brute.read_function(text).blocks

    def taken(self, one, two):
        """What a transformation comes to, and the case that is taken."""
        if one is None or two is None:
            return one, "nop"
        kinds = one[0], two[0]
        for number, ((guard, result), case) in enumerate(zip(self.blocks[kinds], self.printed[kinds])):
            if is_true(guard, one, two):
                guard_text, end = case
                end = end if end == "nop" else f"{kinds[0]} {end[0]}{brute.offset_text(end[1])}"
                form = None if result is None else moved(one, (one if result[0] else two)[1] + result[1])
                return form, f"{kinds[0]} {kinds[1]} {number}: {brute.guard_text(guard_text)} : {end}"
        raise NoForm


def carried_lines(session, cases, site, o):
    """Over what an operation was carried that the site has integrated."""
    place = site.places[o]
    behind, form = site.known[o], session.made[o][0]
    for at in range(place):
        if behind >> at & 1:
            continue
        other = site.seen[at]
        by = session.form(site, other, behind)
        form, case = cases.taken(form, by)
        yield columns(f"  {o} over {other}: {op_text(by)}", op_text(form), case)
        behind |= 1 << at


def taken_lines(session, cases, number, o):
    site, before = session.sites[number], len(session.sites[number].seen)
    answer = session.take(number, o)
    if answer in ("site", "number"):
        return answer, []
    if answer is not None:
        return None, ["  " + {"repeat": "repeated", "held": "held"}[answer]]
    done = site.seen[before:]
    lines = [line for one in done for line in carried_lines(session, cases, site, one)]
    return None, [*lines, "  integrated " + " ".join(map(str, done)) + " " + short_document(0, site.doc)]


def event_lines(session, cases, place, event):
    word, number, what = event
    name = f"event {place} site {number}"
    if word == "make":
        answer = session.make(number, what)
        if answer is not None:
            return answer, []
        doc = short_document(what[1], session.sites[number].doc)
        return None, [columns(name, op_text(what), f"op {len(session.made) - 1}"), columns("  done", op_text(what), doc)]
    answer, lines = taken_lines(session, cases, number, what)
    return answer, [padded(FIRST, name) + f"op {what}", *lines]


def answer(function_text, content):
    """The status and the text of `otp trace --session` for a function that is one, and the bytes of a session file."""
    cases, lines = Cases(function_text), []
    try:
        doc, sites, events = script_of(content)
        session = Session(read_function(function_text), doc, sites)
        for place, event in enumerate(events):
            try:
                refusal, more = event_lines(session, cases, place, event)
            except NoForm:
                raise Ended(1, f"stuck event {place}") from None
            if refusal is not None:
                raise Ended(4, f"case event {place} {refusal}")
            lines += more
        status, end = told(session)
    except Ended as ended:
        status, end = ended.status, ended.text
    return status, "".join(line + "\n" for line in lines) + end


def main():
    function, session = sys.argv[1:]
    with open(function, encoding="utf-8") as file:
        text = file.read()
    with open(session, "rb") as file:
        status, written = answer(text, file.read())
    sys.stdout.write(written)
    sys.exit(status)


sys.setrecursionlimit(20_000)
if __name__ == "__main__":
    main()
