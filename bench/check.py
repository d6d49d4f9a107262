#!/usr/bin/env python3
"""Measures `otp check` on two certificates: time and peak memory of each run.

usage: check.py

The first function is examples/functions/ins.ot. The second has 64 cases of up to 16 comparisons each:
61 cases for insertions far to the left of the other one, each of 16 comparisons, before its own. Both
certificates are made by reference/certificate.py.
"""
import os
import subprocess
import sys
import tempfile

from measure import REFERENCE, TOP, measure

from program import PROGRAM, make_ready


def many_cases():
    lines = ["otfn 1", "text plain", "kinds ins", "assume sites differ", "block ins ins"]
    for k in range(61, 0, -1):
        lines.append("case " + " and ".join([f"p1 < p2 - {k}"] * 16) + " : ins p1")
    lines += ["case p1 < p2 : ins p1", "case p1 = p2 and s1 < s2 : ins p1", "case true : ins p1 + 1", "end"]
    return "\n".join(lines) + "\n"


def report(name, function, certificate):
    text, status, seconds, peak = measure([PROGRAM, "check", function, certificate])
    size = os.path.getsize(certificate)
    print(f"{name}: {size} bytes, {seconds:.3f} s, {peak} KiB at the peak: {text} ({status})")


def main():
    make_ready()
    with tempfile.TemporaryDirectory() as folder:
        many = os.path.join(folder, "many.ot")
        with open(many, "w") as file:
            file.write(many_cases())
        for name, function in [("ins.ot", os.path.join(TOP, "examples/functions/ins.ot")), ("64 cases", many)]:
            certificate = os.path.join(folder, "certificate")
            with open(certificate, "w") as file:
                made = subprocess.run([sys.executable, os.path.join(REFERENCE, "certificate.py"), "--tp1", function], stdout=file)
            if made.returncode == 0:
                report(name, function, certificate)
            else:
                print(f"{name}: no certificate")


if __name__ == "__main__":
    main()
