"""What the languages have in common."""
import os
import sys

HERE = os.path.dirname(os.path.abspath(__file__))
sys.path.insert(0, os.path.join(os.path.dirname(os.path.dirname(HERE)), "reference"))

import brute  # noqa: E402


def part(*names):
    """A part of a module, as it stands in the folder of its language."""
    with open(os.path.join(HERE, *names), encoding="utf-8") as file:
        return file.read()


def filled(template, **parts):
    """The template with each `<<name>>` replaced, and each line `<<name>>` by any number of lines."""
    for name, text in parts.items():
        if isinstance(text, str):
            template = template.replace(f"<<{name}>>", text)
        else:
            template = template.replace(f"<<{name}>>\n", "".join(line + "\n" for line in text))
    return template


def joined(guard, word):
    """The parts that one word joins."""
    if guard[0] != word:
        return [guard]
    return joined(guard[1], word) + joined(guard[2], word)


def taken_cases(cases):
    """The cases up to one that is always taken, and that one or None."""
    for number, case in enumerate(cases):
        if case.guard == ("true",):
            return cases[:number], case
    return cases, None


class Language:
    """A language's words, and how it writes a guard and what a case gives."""

    nop = "NOP"

    def thing(self, word):
        name = {"p": "position", "s": "site", "c": "character"}[word[0]]
        return f"{'a' if word[1] == '1' else 'b'}.{name}"

    def condition(self, guard):
        """A guard in one line."""
        word = guard[0]
        if word == "true":
            return self.true
        if word == "atom":
            _, left, compare, right, offset = guard
            sign = self.equal if compare == "=" else compare
            return f"{self.thing(left)} {sign} {self.thing(right)}{brute.offset_text(offset)}"
        if word == "not":
            inner = self.condition(guard[1])
            return f"{self.no}({inner})" if guard[1][0] in ("atom", "and", "or") else f"{self.no}{inner}"
        return f" {self.words[word]} ".join(self.operands(guard))

    def operands(self, guard):
        return [self.operand_text(part) for part in joined(guard, guard[0])]

    def operand_text(self, guard):
        """An operand of `and` or `or`, in parentheses where it is the other one of the two."""
        return f"({self.condition(guard)})" if guard[0] in ("and", "or") else self.condition(guard)

    def stripped(self, guard):
        """What stands in the parentheses of an operand, with or without a `not` in front of them."""
        return guard[1] if guard[0] == "not" else guard

    def found(self, text):
        return text

    def result(self, case):
        if case is None:
            return self.nothing
        if case.result == "nop":
            return self.nop
        place, offset = case.result
        moved = self.thing(place) + brute.offset_text(offset)
        return self.found("a" if case.result == ("p1", 0) else self.moved(moved))

    def block(self, kinds, cases):
        """The function of one block."""
        first, last = taken_cases(cases)
        lines = [line for case in first for line in self.when(case.guard, self.result(case))]
        return self.routine(kinds, lines + [self.returned(self.result(last))])

    def blocks(self, f):
        return [line for kinds, cases in f.blocks.items() for line in self.block(kinds, cases)]

    def commented(self, lines):
        return "".join(f"{self.comment} {line}".rstrip() + "\n" for line in lines)
