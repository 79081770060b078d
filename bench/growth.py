"""How what `ldso run` takes grows, beside `ldso turns`: seconds and MiB of each scenario at three sizes, of which each is twice
the one before, and per event of the journal the bytes that the last step took:

    python3 bench/growth.py [SCENARIO..]

`openings`: a hart opens and closes a library, up to 100,000 times, beside three that bind a slot and run. `slots`: four
harts bind up to 4,000 slots at once, each in its own order. `refused`: up to 1,000 openings of a file that isn't accepted.
`waits`: a hart waits while a constructor takes up to 4,000,000 turns. `turns of the lock`: four harts open and close a
library each, up to 10,000 times; besides, how many events of others came at most between two of one hart, and how long
that is if each takes as long. The program is that of LDSO, or crates/ldso/out/ldso. Nothing else should run."""

import re
import sys
import tempfile
from pathlib import Path

import costs
from threads import COMMANDS, EXIT, FUEL, LIBRARIES, OPENER

SLOTS = """.kind prog
.needed libm.so
.global upwards
.global downwards
upwards: nop
_start: mv s0, ra
{up}li a0, 0
jalr zero, 0(s0)
downwards: mv s0, ra
{down}li a0, 0
jalr zero, 0(s0)
"""

# Each opening reads the file anew and refuses it.
REFUSED = """.kind prog
_start: li s0, {times}
again: la a0, name
li a1, 1
call dlopen
bnez a0, bad
addi s0, s0, -1
bnez s0, again
{exit}bad: ebreak
.data
name: .asciz "libbad.so"
"""

# The constructor wakes the second hart, which opens the library too and so waits.
WAITS = """.kind prog
.global flag
.global other
_start: la a0, name
li a1, 1
call dlopen
{exit}other: la t0, flag
ld t1, 0(t0)
beqz t1, other
j _start
.data
.align 8
flag: .dword 0
name: .asciz "libw.so"
"""

SLOW = """.init c
c: lga t0, flag
sd ra, 0(t0)
li t1, {rounds}
more: addi t1, t1, -1
bnez t1, more
ret
"""

EACH = """.kind prog
.global again
_start: nop
again: li s0, {times}
more: la a0, name
li a1, 1
call dlopen
call dlclose
addi s0, s0, -1
bnez s0, more
{exit}.data
name: .asciz "libg.so"
"""


def opened(size):
    return {"prog": OPENER.format(exit=EXIT, times=size, rounds=1000 * size // 25)}, ["other"] * 3


def bound(size):
    calls = [f"call f{k}\n" for k in range(size)]
    defines = "".join(f".global f{k}\nf{k}: ret\n" for k in range(size))
    return {"prog": SLOTS.format(up="".join(calls), down="".join(calls[::-1])), "lib/libm.so": defines}, ["downwards", "upwards", "downwards"]


def refused(size):
    return {"prog": REFUSED.format(exit=EXIT, times=size), "lib/libbad.so": b"\x7fELF"}, []


def waited(size):
    return {"prog": WAITS.format(exit=EXIT), "lib/libw.so": SLOW.format(rounds=size // 2)}, ["other"]


def each(size):
    return {"prog": EACH.format(exit=EXIT, times=size)}, ["again"] * 3


SCENARIOS = {
    "openings": (opened, 25_000),
    "slots": (bound, 1_000),
    "refused": (refused, 250),
    "waits": (waited, 1_000_000),
    "turns of the lock": (each, 2_500),
}


def measured(command, files, harts, is_traced=False):
    """What a run takes; it has to end with exit 0."""
    before, behind = COMMANDS[command]
    options = ["--fuel", str(FUEL), "--lib", "lib"] + (["--harts", ",".join(harts)] if harts else [])
    trace = ["--trace"] if is_traced and command == "run" else []
    with tempfile.TemporaryDirectory() as folder:
        costs.write(folder, {**LIBRARIES, **files})
        done = costs.Measured([*before, *trace, *options, *behind, "prog"], folder, seconds=900)
    if done.status != 0:
        sys.exit(f"{command} of {sorted(files)}: {done.end()}")
    return done


def longest_wait(lines, harts):
    """The most events of others between two of one hart, from its first on."""
    last, most = {}, 0
    for number, line in enumerate(lines):
        found = re.search(r" h=(\d+)", line)
        if found:
            most = max(most, number - last.get(found[1], number))
            last[found[1]] = number
    return most


def row(command, name, make, first):
    found = [(size, measured(command, *make(size))) for size in (first, 2 * first, 4 * first)]
    files, harts = make(4 * first)
    traced = measured(command, files, harts, is_traced=True)
    lines = traced.text.splitlines()
    grown = (found[2][1].mib - found[1][1].mib) * 2**20 * 2 / len(lines)
    parts = [f"{size:,}: {done.wall:.2f} s, {done.mib:.0f} MiB" for size, done in found]
    wait = longest_wait(lines, harts)
    told = f"; {wait} events at most between two of one hart, {wait * traced.wall / len(lines):.3f} s" if name.startswith("turns") else ""
    print(f"| {name} | `{command}` | {' | '.join(parts)} | {len(lines):,} events, {grown:.0f} bytes each{told} |", flush=True)


def main(words):
    print("| scenario | command | | | | journal |\n|---|---|---|---|---|---|")
    for name, (make, first) in SCENARIOS.items():
        if not words or name in words:
            for command in COMMANDS:
                row(command, name, make, first)


if __name__ == "__main__":
    main(sys.argv[1:])
