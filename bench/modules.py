#!/usr/bin/env python3
"""Tells what the proof of a crate spends its time on: seconds by function, and by kind of module.

usage: modules.py [--test] CRATE      (over what `tools/build` made of the libraries below it)

A check proves one module after another and writes a file for each, in a folder that is gone when it ends. With one job,
the time between two of these files is that of the later one. So what is needed by several functions counts for the first
of them, and on a machine at work all takes longer. The kinds that cost most are `Lts`, a function's part on lifetimes,
and `Proof`, the search for its goals. The status is that of the check.
"""
import os
import re
import subprocess
import sys
import tempfile
import time

TOP = os.path.dirname(os.path.dirname(os.path.abspath(__file__)))
sys.path.insert(0, os.path.join(TOP, "tools"))

import toolchain  # noqa: E402

# How often it looks, in seconds, and how many rows it prints.
PAUSE = 0.2
ROWS = 25


def command_of(name, is_test):
    """The words of a check of the crate, by one job, and the folder where it runs."""
    rtlib = toolchain.load().rtlib
    crates = {crate.name: crate for crate in rtlib.crates_below(TOP)}
    if name not in crates:
        sys.exit(f"modules: there is no crate {name}")
    lacking = [crate.name for crate in crates[name].below() if not crate.is_built()]
    if lacking:
        sys.exit(f"modules: run tools/build {' '.join(crate.name for crate in crates[name].deps)} first")
    words = crates[name].words(["--jobs", "1"], tests=is_test, keeps=False)
    return [rtlib.RATTLE, "check", *words], crates[name].folder


def files_while(running, room):
    """When each file was written that the check puts below the folder while it runs."""
    written = {}
    while running.poll() is None:
        for folder, _, names in os.walk(room):
            for name in names:
                if name not in written:
                    try:
                        written[name] = os.stat(os.path.join(folder, name)).st_mtime
                    except OSError:
                        continue
        time.sleep(PAUSE)
    return written


def seconds_of(written, began):
    """The seconds of each module, by its name."""
    seconds, before = {}, began
    for name, when in sorted(written.items(), key=lambda it: it[1]):
        seconds[name.removesuffix(".oantt")] = when - before
        before = when
    return seconds


def told(title, seconds, part_of):
    """Prints what the parts of the modules took, the dearest first."""
    parts = {}
    for module, taken in seconds.items():
        parts[part_of(module)] = parts.get(part_of(module), 0) + taken
    print(f"{title}:")
    for part, taken in sorted(parts.items(), key=lambda it: -it[1])[:ROWS]:
        print(f"{taken:8.1f} s  {part}")


def main():
    names = [word for word in sys.argv[1:] if word != "--test"]
    if len(names) != 1:
        sys.exit("usage: modules.py [--test] CRATE")
    command, folder = command_of(names[0], "--test" in sys.argv[1:])
    with tempfile.TemporaryDirectory(dir=toolchain.room()) as room:
        began = time.time()
        with open(os.path.join(room, "log"), "w+", encoding="utf-8") as log:
            how = {"cwd": folder, "env": {**os.environ, "TMPDIR": room}, "stdout": log, "stderr": subprocess.STDOUT}
            with subprocess.Popen(command, **how) as running:
                written = files_while(running, room)
            log.seek(0)
            last = log.read().strip().rpartition("\n")[2]
    written.pop("log", None)
    seconds = seconds_of(written, began)
    told("by function", seconds, lambda module: re.sub(r"\.[A-Z][^.]*$", "", module))
    told("by kind of module", seconds, lambda module: module.rpartition(".")[2])
    print(f"{sum(seconds.values()):8.1f} s in all; {last}")
    sys.exit(running.returncode)


main()
