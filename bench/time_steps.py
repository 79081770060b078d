#!/usr/bin/env python3
"""Runs what bench/shared_steps.sh has made in a folder: time_steps.py FOLDER. Each program prints how many steps its
harts took.
"""
import os
import pathlib
import subprocess
import sys
import time


def run(program):
    before, began = os.times(), time.monotonic()
    steps = int(subprocess.run([program], capture_output=True, text=True, check=True).stdout)
    after, ended = os.times(), time.monotonic()
    processor = sum(after[2:4]) - sum(before[2:4])
    return steps, processor / steps * 1e9, (ended - began) / steps * 1e9


def main():
    folder = pathlib.Path(sys.argv[1])
    for name in ("one_hart", "four_harts_own_words", "four_harts_one_word"):
        for _ in range(3):
            (steps, processor, clock), (same, plain, plain_clock) = (run(folder / f"{name}.{of}") for of in ("rattle", "rust"))
            assert steps == same, (steps, same)
            print(
                f"{name}: {steps} steps: rattle {processor:.2f} ns, rust {plain:.2f} ns a step, ratio {processor / plain:.2f}; "
                f"by the clock {clock:.2f} and {plain_clock:.2f}, ratio {clock / plain_clock:.2f}"
            )


main()
