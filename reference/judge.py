#!/usr/bin/env python3
"""Judges a certificate, and says at which byte and why it is refused.

usage: judge.py FN CERT            the answer to one certificate
       judge.py --changes FN CERT  the answers where one byte is changed, at each position to each of CHANGES

It is as plain as it can be: it reads the whole file, and sums up a cycle from the answers. Nothing of the program is
used. Its plans are those of certificate.py.
"""
import re
import sys

from certificate import Ask, Holds, obligations, plan_of, read_function

CHANGES = b"?.x0;,\n"
NUMBER = rb"(?:0|[1-9][0-9]{0,4})"
CYCLE = re.compile(rb"x" + NUMBER + rb"(?:," + NUMBER + rb"){0,11};")
# the beginnings of a cycle
BEGUN = re.compile(rb"x(?:" + NUMBER + rb",){0,11}(?:" + NUMBER + rb")?")


class Refused(Exception):
    pass


class File:
    def __init__(self, content):
        self.content, self.at = content, 0

    def refuse(self, word):
        raise Refused(f"certificate {len(self.content) if word == 'truncated' else self.at} {word}")

    def left(self):
        return self.content[self.at:]

    def take(self, texts):
        """The number of the text that stands here; each of them is a token that may stand here."""
        for number, text in enumerate(texts):
            if self.left().startswith(text):
                self.at += len(text)
                return number
        self.refuse("truncated" if any(text.startswith(self.left()) for text in texts) else "token")

    def tree_token(self):
        """The bytes of a token of a tree; they are not taken yet."""
        left = self.left()
        if left[:1] in (b"?", b"."):
            return left[:1]
        cycle = CYCLE.match(left)
        if cycle:
            return cycle[0]
        self.refuse("truncated" if left == b"" or BEGUN.fullmatch(left) else "token")


def judge_cycle(file, picks, answers):
    if any(pick >= len(answers) for pick in picks):
        file.refuse("pick")
    lits = [answers[pick] for pick in picks]
    if any(lit[1] != after[0] for lit, after in zip(lits, lits[1:] + lits[:1])):
        file.refuse("cycle")
    if sum(lit[2] for lit in lits) >= 0:
        file.refuse("notnegative")


def judge_tree(file, f, kinds):
    waiting = [(lambda: plan_of(f, kinds), ())]
    while waiting:
        token = file.tree_token()
        go, answers = waiting[-1]
        plan = go()
        if token[:1] == b"x":
            judge_cycle(file, [int(number) for number in token[1:-1].split(b",")], answers)
            waiting.pop()
        elif token == b"?":
            if not isinstance(plan, Ask):
                file.refuse("notaquestion")
            x, y, k = plan.lit
            waiting[-1] = (plan.no, answers + ((y, x, -k - 1),))
            waiting.append((plan.yes, answers + ((x, y, k),)))
        elif isinstance(plan, Ask):
            file.refuse("notdone")
        elif isinstance(plan, Holds):
            waiting.pop()
        else:
            file.refuse("fails")
        file.at += len(token)


def judge(f, content):
    file = File(content)
    try:
        levels = [names for names in (obligations(f, False), obligations(f, True))]
        versions = [2 if any("upd" in name for name in names) else 1 for names in levels]
        headers = [f"otcert {version} tp{i + 1}\n".encode() for i, version in enumerate(versions)]
        level = file.take(headers)
        for kinds in levels[level]:
            file.take([b"ob " + " ".join(kinds).encode() + b"\n"])
            judge_tree(file, f, kinds)
            file.take([b"\n"])
        file.take([b"end\n"])
        if file.left():
            file.refuse("trailing")
        return f"accepted tp{level + 1}"
    except Refused as refused:
        return str(refused)


def main():
    words = sys.argv[1:]
    changes = words[0] == "--changes"
    function, certificate = words[-2:]
    f = read_function(open(function).read())
    content = open(certificate, "rb").read()
    if not changes:
        print(judge(f, content))
        return
    for at, old in enumerate(content):
        for new in CHANGES:
            if new != old:
                print(f"{at} {bytes([new])!r} {judge(f, content[:at] + bytes([new]) + content[at + 1:])}")


if __name__ == "__main__":
    main()
