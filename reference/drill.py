#!/usr/bin/env python3
"""Generates the workload of a number as docs/DRILL.md defines it, and writes what `otp drill` has to write.

usage: drill.py               the lines of each number from 1 to 16
       drill.py N             the lines of one
       drill.py --function N  its function file
       drill.py --session N   its session, as a file for `otp replay`

It follows the definitions, and nothing of the program is used: certificate.py walks the questions of the function, and
sessions.py runs the session. What is held, repeated and left in the document is counted in that run.
"""
import json
import os
import sys

from certificate import obligations, read_function, tree_of
from sessions import replayed, script_of, told

TOP = os.path.dirname(os.path.dirname(os.path.abspath(__file__)))
MOST = 16


def make(site, op, at=0, char=()):
    return ["make", site, [op, at, *char, site]]


def takes(site, numbers):
    return [["take", site, number] for number in numbers]


def function_of(number):
    """The text of ttf.ot without its comments, with so many further cases for two insertions."""
    with open(os.path.join(TOP, "examples/functions/ttf.ot"), encoding="utf-8") as file:
        lines = [line for line in file.read().splitlines() if not line.startswith("#")]
    behind = lines.index("block ins ins") + 1
    further = [f"case p1 < p2 - {k} : ins p1" for k in range(number, 0, -1)]
    return "\n".join(lines[:behind] + further + lines[behind:]) + "\n"


def session_of(number):
    made = [make(site, "del") if turn % 3 == 2 else make(site, "ins", char="a")
            for turn in range(number) for site in (1, 2, 3)]

    def others(site):
        return [o for o in range(len(made)) if o % 3 != site - 1]

    taken = takes(1, others(1)) + takes(2, others(2)[::-1]) + takes(3, others(3)) + takes(3, others(3))
    return {"doc": "", "sites": 3, "events": made + taken}


def judged(f):
    for tp2 in (True, False):
        if all(tree_of(f, kinds)[2] is None for kinds in obligations(f, tp2)):
            return f"accepted tp{1 + tp2}"
    return "refused"


def text_of(number):
    """What `otp drill` has to write."""
    f = read_function(function_of(number))
    session, answers = replayed(f, script_of(json.dumps(session_of(number)).encode("utf-8")))
    _, sites = told(session)
    lines = [
        f"drill {number}",
        f"cases {sum(map(len, f.blocks.values()))}",
        judged(f),
        f"operations {len(session.made)}",
        f"held {answers['held']}",
        f"repeated {answers['repeat']}",
        f"cells {len(session.sites[1].doc)}",
        sites.splitlines()[-1],
    ]
    return "\n".join(lines) + "\n"


def main():
    words = sys.argv[1:]
    if words[:1] == ["--function"]:
        sys.stdout.write(function_of(int(words[1])))
    elif words[:1] == ["--session"]:
        print(json.dumps(session_of(int(words[1])), separators=(",", ":")))
    else:
        for number in [int(word) for word in words] or range(1, MOST + 1):
            sys.stdout.write(text_of(number))


if __name__ == "__main__":
    main()
