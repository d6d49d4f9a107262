#!/usr/bin/env python3
"""Measures search and checker on a plan with 99,999 questions on one path: time and peak memory.

usage: deep_path.py      (after `rt run` in crates/measures, or `rt ci`)
"""
import os

from measure import measure

TOP = os.path.dirname(os.path.dirname(os.path.abspath(__file__)))

text, _, seconds, peak = measure([os.path.join(TOP, "crates/measures/out/measures"), "paths"])
print(f"two searches, 199,999 tokens: {seconds:.3f} s, {peak} KiB at the peak: {text}")
