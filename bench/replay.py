#!/usr/bin/env python3
"""Measures `otp replay` on great sessions: time, counted forms, and peak memory.

usage: replay.py

The function is examples/functions/ttf.ot, and each document is empty. In the first two sessions two sites make 512
insertions each, and site 1 takes 488 of those of site 2, or 489, which wants more forms than are allowed. In the others
each of three sites makes so many operations, a third of them deletions; site 1 takes those of the others in rising
order, site 2 in falling order, where all but the last of a site are held, and site 3 those of site 2 and then those of
site 1. The last session is as long as one can be: all its events but the first are repeats. How many forms were counted
is what reference/sessions.py says.
"""
import os
import subprocess
import sys

from measure import REFERENCE, TOP, report_events

from drill import make, takes
from program import PROGRAM, make_ready

FUNCTION = os.path.join(TOP, "examples/functions/ttf.ot")


def two_sites(taken):
    made = [make(1, "ins", char="a")] * 512 + [make(2, "ins", char="b")] * 512
    return {"doc": "", "sites": 2, "events": made + takes(1, range(512, 512 + taken))}


def three_sites(each):
    made = [make(site, "del") if turn % 3 == 2 else make(site, "ins", char="abc"[site - 1])
            for turn in range(each) for site in (1, 2, 3)]
    numbers = range(3 * each)
    of = {site: [number for number in numbers if number % 3 == site - 1] for site in (1, 2, 3)}
    events = made + takes(1, sorted(of[2] + of[3])) + takes(2, sorted(of[1] + of[3], reverse=True)) + takes(3, of[2] + of[1])
    return {"doc": "", "sites": 3, "events": events}


def repeats():
    return {"doc": "", "sites": 1, "events": [make(1, "ins", char="a")] + takes(1, [0] * 65_535)}


def forms_of(name):
    told = subprocess.run([sys.executable, os.path.join(REFERENCE, "sessions.py"), "--forms", FUNCTION, name], stdout=subprocess.PIPE, text=True)
    first = told.stdout.splitlines()[0]
    return (first.split(",")[0] if first.startswith("forms") else "forms 500000") + ", "


def report(name, session):
    report_events(name, [PROGRAM, "replay", FUNCTION], session, forms_of)


def main():
    make_ready()
    report("two sites, 488 takes", two_sites(488))
    report("two sites, 489 takes", two_sites(489))
    report("three sites of 100 operations each", three_sites(100))
    report("three sites of 300 operations each", three_sites(300))
    report("repeats", repeats())


if __name__ == "__main__":
    main()
