"""Counts out which hart binds which of forty slots where three harts take a turn each, from the rules alone: how many
instructions a call takes, and that a grant, its exchange and its end are a turn each. Run by hand; the grants of the
example of three harts in crates/test_commands/data/assembled.txt are what it prints. The definitions that the slots get, and
their addresses, are those of the example before it."""
import os
import re

DATA = f"{os.path.dirname(os.path.abspath(__file__))}/../crates/test_commands/data/assembled.txt"
SLOTS = 40
# The slot of the function that counts in thread-local storage, which has eight instructions in place of two.
COUNTER = 10

found = {}
for line in open(DATA):
    grant = re.match(r"    \| grant g=\d+ h=0 o=1 slot=(\d+) (-> \S+ 0x\w+)$", line)
    if grant:
        found.setdefault(int(grant[1]), grant[2])

bound = [False] * SLOTS
unsettled = {}
grants = 0


def service(event):
    """Each service settles first what the harts are done with, in the order of the harts."""
    for hart in sorted(unsettled):
        print(unsettled[hart])
    unsettled.clear()
    print(event)


def call(hart, slot):
    """A call through a slot, a turn at each yield."""
    global grants
    yield from (None,) * 2  # auipc ra, jalr ra
    yield  # of the slot's entry: auipc t3
    lazy = not bound[slot]
    yield  # ld t3
    yield  # jalr t1, t3
    if lazy:
        yield from (None,) * 8  # the entry in front of all
        grants += 1
        grant = grants
        service(f"grant g={grant} h={hart} o=1 slot={slot} {found[slot]}")
        yield
        won = not bound[slot]
        bound[slot] = True
        yield
        saw = found[slot].split()[2]
        unsettled[hart] = f"bound g={grant}" if won else f"lost g={grant} saw={saw}"
        yield
    yield from (None,) * (8 if slot == COUNTER else 2)


def first():
    yield  # li s0, 0
    for slot in range(SLOTS):
        yield from call(0, slot)
        yield  # add s0, s0, a0
    yield from (None,) * 2  # mv a0, s0, and li a7, 93
    service("ended h=0 exit 40")
    yield


def other(hart, nops):
    yield from (None,) * nops
    for slot in reversed(range(SLOTS)):
        yield from call(hart, slot)
    yield from (None,) * 2  # li a0, 0, and li a7, 93
    service(f"ended h={hart} exit 0")
    yield


running = [first(), other(1, 2), other(2, 1)]
while running:
    for hart in list(running):
        if next(hart, running) is running:
            running.remove(hart)
