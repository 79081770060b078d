#!/usr/bin/env python3
"""Says what the last check of a crate spent its time on: python3 bench/slow.py crates/NAME/out/incremental [LINES].

A check writes a file for each thing that it has checked, so the gap between the times of two files is what the later
one took, by the clock.
"""
import os
import sys


def main():
    top = sys.argv[1]
    lines = int(sys.argv[2]) if len(sys.argv) > 2 else 15
    files = []
    for folder, _, names in os.walk(top):
        for name in names:
            path = os.path.join(folder, name)
            files.append((os.stat(path).st_mtime, os.path.basename(path)))
    files.sort()
    gaps = [(files[i][0] - files[i - 1][0], files[i][1]) for i in range(1, len(files))]
    print(f"{len(files)} files, {files[-1][0] - files[0][0]:.0f} s")
    for seconds, name in sorted(gaps, reverse=True)[:lines]:
        print(f"{seconds:7.1f} {name}")


main()
