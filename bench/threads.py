"""Harts on threads: what `ldso run` costs beside `turns`, what more harts give, what a bound slot costs, how openings and
closings go beside harts that run; and how each cost grows. A row for each, with ratios of one call of this script:

    python3 bench/threads.py [MILLIONS] [TOPIC..]

Topics are `beside` and `growth`; both where none is named. MILLIONS of instructions a hart, 20 if not said. The program is
that of LDSO, or crates/ldso/out/ldso. Seconds are by the clock, the least of three runs; so nothing else should run. Wanted
on four processors: one hart under `run` at most 3 times a turn of `turns`; four harts in words of their own at least 3.5
times the instructions a second of one; a call through a bound slot as quick as one through a plain pointer; and each step
of a growth at most as many times the first as there is more to do."""

import sys
import tempfile
from pathlib import Path

import costs
from costs import EXIT

FUEL = 4294967296
# What `run` and `turns` have in front of their program.
COMMANDS = {"turns": (["turns"], ["rr"]), "run": (["run"], [])}

# Five instructions a round, in a page of the hart's own; a0 is the hart's number.
LOOP = """.kind prog
.global again
_start: li a0, 0
again: la t0, words
slli t1, a0, 12
add t0, t0, t1
li t1, {rounds}
next: ld a0, 0(t0)
add a0, a0, sp
sd a0, 0(t0)
addi t1, t1, -1
bnez t1, next
{exit}.bss
.align 4096
words: .zero 65536
"""

# Each hart adds to one word.
SHARED = """.kind prog
.global again
_start: la t0, word
j first
again: la t0, word
first: li t1, {rounds}
li a0, 1
next: amoadd.d t2, a0, (t0)
addi t1, t1, -1
bnez t1, next
{exit}.data
.align 8
word: .dword 0
"""

# The call is bound once. Then it goes through its entry of the linkage table: an address, a load, a jump.
BOUND = """.kind prog
.needed libf.so
_start: li s0, {rounds}
next: call f
addi s0, s0, -1
bnez s0, next
{exit}"""

# As many instructions, with a pointer in data.
POINTER = """.kind prog
_start: la t0, f
la s1, pointer
sd t0, 0(s1)
li s0, {rounds}
next: call through
addi s0, s0, -1
bnez s0, next
{exit}through: nop
ld t3, 0(s1)
jr t3
f: ret
.data
.align 8
pointer: .dword 0
"""

# The first hart opens and closes a library so often; each other one binds a slot and runs on.
OPENER = """.kind prog
.needed libf.so
.global other
_start: li s0, {times}
again: la a0, name
li a1, 1
call dlopen
beqz a0, bad
call dlclose
bnez a0, bad
addi s0, s0, -1
bnez s0, again
{exit}bad: li a0, 1
li a7, 93
ecall
other: li s0, {rounds}
next: call f
addi s0, s0, -1
bnez s0, next
{exit}.data
name: .asciz "libg.so"
"""

# Each hart asks for its block of a library that was there at the start, so often.
STORAGE = """.kind prog
.needed libt.so
.global again
_start: nop
again: li s0, {times}
next: call block
addi s0, s0, -1
bnez s0, next
{exit}"""

LIBRARIES = {
    "lib/libf.so": ".soname libf.so\n.global f\nf: ret\n",
    "lib/libg.so": ".soname libg.so\n.needed libf.so\n.global g\ng: call f\nret\n.data\n.zero 4096\n",
    "lib/libt.so": """.soname libt.so
.global block
block: addi sp, sp, -16
sd ra, 0(sp)
la.tls.gd a0, own
call __tls_get_addr
ld ra, 0(sp)
addi sp, sp, 16
ret
.tbss
.align 8
own: .zero 8
""",
}


def names(harts, entry):
    """The option for so many harts, of which all but the first enter here."""
    return ["--harts", ",".join([entry] * (harts - 1))] if harts > 1 else []


def timed(command, files, options=()):
    """Seconds of the quickest of three runs, how far they were apart, and MiB; each run has to end with exit 0."""
    before, behind = COMMANDS[command]
    runs = []
    with tempfile.TemporaryDirectory() as folder:
        costs.write(folder, {**LIBRARIES, **files})
        for _ in range(3):
            words = [*before, "--fuel", str(FUEL), "--lib", "lib", *options, *behind, "prog"]
            runs.append(costs.Measured(words, folder, seconds=600))
            if runs[-1].status != 0:
                sys.exit(f"{' '.join(words)}: {runs[-1].end()}")
    walls = [run.wall for run in runs]
    return min(walls), max(walls) - min(walls), max(run.mib for run in runs)


def program(text, **values):
    return {"prog": text.format(exit=EXIT, **values)}


def row(what, value, wanted=""):
    print(f"| {what} | {value} | {wanted} |", flush=True)


# ---- beside one another


def beside(millions):
    rounds = millions * 200_000
    loop = program(LOOP, rounds=rounds)
    turns, _, _ = timed("turns", loop)
    one, _, _ = timed("run", loop)
    each = [f"{seconds * 1000 / millions:.1f} ns" for seconds in (one, turns)]
    row("one hart: a turn of `run` beside one of `turns`", f"{one / turns:.2f} ({each[0]} and {each[1]})", "at most 3")
    four, _, _ = timed("run", loop, names(4, "again"))
    row("four harts in words of their own: instructions a second, beside one hart", f"{4 * one / four:.2f}", "at least 3.5")
    shared = program(SHARED, rounds=rounds)
    alone, _, _ = timed("run", shared)
    together, _, _ = timed("run", shared, names(4, "again"))
    row("four harts that add to one word: additions a second, beside one hart", f"{4 * alone / together:.2f}")
    for command in COMMANDS:
        bound, far, _ = timed(command, program(BOUND, rounds=rounds // 2))
        plain, _, _ = timed(command, program(POINTER, rounds=rounds // 2))
        row(f"`{command}`: a call through a bound slot, beside one through a pointer", f"{bound / plain:.2f}, runs {far / bound:.2f} apart", "1")
    for command in COMMANDS:
        seconds, _, mib = timed(command, program(OPENER, times=1000, rounds=rounds // 10), names(4, "other"))
        row(f"`{command}`: 1,000 openings and closings beside three harts that bind and run", f"{seconds:.2f} s, {mib:.0f} MiB")


# ---- growth


def grows(what, command, sizes, make):
    """Seconds and MiB at each size, and how many times those of the first they are."""
    found = [timed(command, *make(size)) for size in sizes]
    first = found[0]
    parts = [f"{size:,}: {run[0]:.2f} s, {run[2]:.0f} MiB ({run[0] / first[0]:.1f} and {run[2] / first[2]:.1f} times)" for size, run in zip(sizes, found)]
    row(f"`{command}`: {what}", "; ".join(parts), " and ".join(f"{size // sizes[0]}" for size in sizes[1:]) + " times at most")


def growth(millions):
    rounds = millions * 200_000
    grows("instructions of one hart", "run", (rounds, 2 * rounds, 4 * rounds), lambda size: (program(LOOP, rounds=size),))
    grows("harts in words of their own", "run", (1, 4, 16), lambda size: (program(LOOP, rounds=rounds), names(size, "again")))
    grows("harts that add to one word", "run", (1, 4, 16), lambda size: (program(SHARED, rounds=rounds // 4), names(size, "again")))
    for command in COMMANDS:
        grows("openings and closings", command, (500, 1000, 2000), lambda size: (program(OPENER, times=size, rounds=1),))
        grows("requests of a block that is there", command, (10_000, 20_000, 40_000), lambda size: (program(STORAGE, times=size),))
    grows("harts that ask for a block that is there, 10,000 times each", "run", (1, 4, 16), lambda size: (program(STORAGE, times=10_000), names(size, "again")))


TOPICS = {"beside": beside, "growth": growth}


def main(words):
    millions = next((int(word) for word in words if word.isdigit()), 20)
    chosen = [word for word in words if not word.isdigit()] or list(TOPICS)
    print("| what | found | wanted |\n|---|---|---|", flush=True)
    for topic in chosen:
        TOPICS[topic](millions)


if __name__ == "__main__":
    main(sys.argv[1:])
