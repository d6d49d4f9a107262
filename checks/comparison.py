"""Compares a command of the program with a second program, on a function and a file of events."""
import os
import random
import subprocess
import sys
import tempfile

TOP = os.path.dirname(os.path.dirname(os.path.abspath(__file__)))
sys.path.insert(0, os.path.join(TOP, "tools"))

from program import PROGRAM, make_ready  # noqa: E402

DOCUMENTS = ["", "x", "x~yz", "~x\\~\\\\"]


def texts_of(folder, ending):
    """The names and the texts of a folder of examples/."""
    folder = os.path.join(TOP, "examples", folder)
    for name in sorted(os.listdir(folder)):
        if name.endswith(ending):
            with open(os.path.join(folder, name), encoding="utf-8") as file:
                yield name, file.read()


def drawn_operation(draw, f, site, length):
    kind = draw.choice(f.kinds)
    # Now and then one that is not enabled.
    at = draw.randint(0, length if draw.random() < 0.05 else max(length - (kind != "ins"), 0))
    return (kind, at, site) if kind == "del" else (kind, at, draw.choice("abc"), site)


def drawing_of(words):
    """What draws, and how often, by the words of a script: a seed and a count."""
    seed, count = (int(word) for word in (words + ["1", "400"][len(words):]))
    return random.Random(seed), count


class Comparison:
    def __init__(self, command, answer, folder):
        self.command, self.answer, self.folder = command, answer, folder
        self.count, self.wrong, self.statuses = 0, 0, {}
        make_ready()

    def file(self, name, content):
        path = os.path.join(self.folder, name)
        with open(path, "w", encoding="utf-8") as file:
            file.write(content)
        return path

    def compare(self, function, *contents):
        """The status that the second program gives."""
        names = [self.file("function", function), *(self.file("other", content) for content in contents)]
        ran = subprocess.run([PROGRAM, *self.command.split(), *names], stdout=subprocess.PIPE, check=False)
        status, text = self.answer(function, *(content.encode("utf-8") for content in contents))
        self.count += 1
        self.statuses[status] = self.statuses.get(status, 0) + 1
        if (ran.returncode, ran.stdout) != (status, text.encode("utf-8")):
            self.wrong += 1
            print(f"{self.command}: wanted {status} {text[:200]!r}, got {ran.returncode} {ran.stdout[:200]!r}, for\n{function}{''.join(contents)[:1000]}")
        return status

    def end(self):
        told = ", ".join(f"{times} of status {status}" for status, times in sorted(self.statuses.items()))
        print(f"{self.command}: {self.count} compared, {told}; {self.wrong} differ")
        return self.wrong


def differing(command, answer, compare_all):
    """How many differ of what `compare_all` gives to a comparison of the command."""
    with tempfile.TemporaryDirectory() as folder:
        comparison = Comparison(command, answer, folder)
        compare_all(comparison)
    return comparison.end()


def compared(command, answer, compare_all):
    """The same, and ends with what came of it."""
    sys.exit(1 if differing(command, answer, compare_all) else 0)
