#!/usr/bin/env python3
"""Says what a running gate costs, by crate: python3 bench/gate_cost.py TOP [SECONDS], beside `rt ci` in the folder TOP.

It looks twice a second at the processes of the prover and keeps the processor time of each, so that a process
that ends between two looks counts up to half a second too little. It ends when no `rt ci` runs any more.
"""
import os
import sys
import time
from collections import defaultdict

TICK = os.sysconf("SC_CLK_TCK")


def words_of(pid):
    try:
        with open(f"/proc/{pid}/cmdline", "rb") as file:
            return file.read().decode(errors="replace").split("\0")
    except OSError:
        return []


def times_of(pid):
    """The parent, the start and the processor time of a process, with that of its ended children."""
    with open(f"/proc/{pid}/stat") as file:
        fields = file.read().rsplit(")", 1)[1].split()
    return int(fields[1]), int(fields[19]), sum(int(it) for it in fields[11:15]) / TICK


def kind_of(words, folder):
    if "--test" in words or words[1:2] == ["test"]:
        return "tests"
    if folder.startswith("/tmp/"):
        return "edits"
    return "proof"


def look(top, seen):
    running = False
    for pid in filter(str.isdigit, os.listdir("/proc")):
        words = words_of(pid)
        if len(words) < 2:
            continue
        if words[-2:-1] == ["ci"] or words[2:3] == ["ci"]:
            running = True
        if not words[0].endswith("/rattle") or "--crate-name" not in words:
            continue
        try:
            folder = os.readlink(f"/proc/{pid}/cwd")
            _, start, spent = times_of(pid)
        except (OSError, IndexError):
            continue
        if not any(top in it for it in (*words, folder)):
            continue
        name = words[words.index("--crate-name") + 1]
        seen[pid, start] = (name, kind_of(words, folder), spent)
    return running


def table(seen):
    cost = defaultdict(float)
    for name, kind, spent in seen.values():
        cost[name, kind] += spent
    names = sorted({name for name, _ in cost}, key=lambda it: -sum(cost[it, kind] for kind in KINDS))
    print("| crate | proof | tests | edits | all |\n|---|---|---|---|---|")
    for name in [*names, "all"]:
        rows = names if name == "all" else [name]
        parts = [sum(cost[it, kind] for it in rows) for kind in KINDS]
        print(f"| {name} | {' | '.join(f'{it:.0f}' for it in [*parts, sum(parts)])} |")


KINDS = ("proof", "tests", "edits")


def main():
    top = os.path.abspath(sys.argv[1])
    seen, begun = {}, False
    while True:
        running = look(top, seen)
        if begun and not running:
            return table(seen)
        begun = begun or running
        time.sleep(0.5)


main()
