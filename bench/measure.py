"""Runs a program and measures it: its output, status, seconds and peak memory in KiB.

The peak is that of GNU time, which is small itself: a child of Python would show Python's own. A program that takes
less than a second runs once more, alone and with its output in a file, so that the seconds are those from its own
start to its own end.
"""
import json
import os
import re
import shutil
import subprocess
import sys
import tempfile
import time
from collections import namedtuple

TOP = os.path.dirname(os.path.dirname(os.path.abspath(__file__)))
# Programs that share no code with otp; who measures imports them behind this module, and where the program stands.
REFERENCE = os.path.join(TOP, "reference")
sys.path[1:1] = [REFERENCE, os.path.join(TOP, "tools")]


def run_under_time(words, wanted):
    with tempfile.NamedTemporaryFile("r") as numbers:
        run = subprocess.run(["/usr/bin/time", "-q", "-f", wanted, "-o", numbers.name, *words], stdout=subprocess.PIPE, text=True)
        return run.stdout.strip(), run.returncode, numbers.read().split()


def run_alone(words):
    """The seconds of a program whose output goes to a file."""
    with tempfile.TemporaryFile() as output:
        to_file = [(os.POSIX_SPAWN_DUP2, output.fileno(), 1)]
        start = time.perf_counter()
        os.waitpid(os.posix_spawnp(words[0], words, os.environ, file_actions=to_file), 0)
        return time.perf_counter() - start


def measure(words):
    start = time.perf_counter()
    text, status, numbers = run_under_time(words, "%M")
    seconds = time.perf_counter() - start
    return text, status, run_alone(words) if seconds < 1 else seconds, int(numbers[0])


def report_events(name, words, script, told=lambda file: ""):
    """Measures a command on a script of events, and prints its last line, with what else is told of the script's file."""
    with tempfile.NamedTemporaryFile("w", suffix=".json") as file:
        json.dump(script, file)
        file.flush()
        text, status, seconds, peak = measure([*words, file.name])
        last = text.splitlines()[-1] if text else ""
        print(f"{name}: {len(script['events'])} events, {told(file.name)}{seconds:.2f} s, {peak} KiB at the peak: {last} ({status})")


def measure_processor(words):
    """The seconds are those of the processor, to compare programs on a machine that does other work."""
    text, status, numbers = run_under_time(words, "%U %M")
    return text, status, float(numbers[0]), int(numbers[1])


def counts_instructions():
    """Whether there is a program that counts them."""
    return shutil.which("valgrind") is not None


def instructions(words):
    """How many instructions a whole process takes: as many in each run, whatever else the machine does."""
    with tempfile.NamedTemporaryFile() as counts:
        valgrind = ["valgrind", "--tool=callgrind", f"--callgrind-out-file={counts.name}"]
        run = subprocess.run([*valgrind, *words], stdout=subprocess.DEVNULL, stderr=subprocess.PIPE, text=True)
    return int(re.search(r"Collected : (\d+)", run.stderr)[1])


Run = namedtuple("Run", "text status seconds peak")


def quickest(commands, count):
    """A run of each command, with the least time of so many. They take turns, so that what else the machine does meets
    all of them; one that takes a second is run once."""
    best = [Run(*measure(words)) for words in commands]
    for _ in range(count - 1):
        best = [one if one.seconds >= 1 else one._replace(seconds=min(one.seconds, run_alone(words)))
                for one, words in zip(best, commands)]
    return best
