"""Judges journals of `ldso turns` and `ldso run` a second time, by what docs/ says of linking and of its history alone:
whether each event may come where it comes, with the objects, addresses, choices and numbers that it has.

    python3 bench/history.py                     every example of crates/test_commands/data with a journal
    python3 bench/history.py --mutated [COUNT]   and COUNT changed copies of each, which have to be refused
    python3 bench/history.py --run FOLDER WORDS  what the program prints in a folder: `turns ..`, or `run --trace ..`

Where an example of `run` doesn't show its journal, one is made; bench/many_runs.py judges many of each.

Objects are read by bench/oracle.py; only those that examples have as sources are made by `ldso asm`. It writes into no
folder but temporary ones. What guests do isn't followed: that a hart calls what
it calls, what it writes, and when it ends is taken as it stands."""

import dataclasses
import os
import random
import re
import shlex
import subprocess
import sys
import tempfile
from collections import Counter, defaultdict

import examples
import oracle
from linker import LINKER_NAME, LINKER_SYMBOLS

PAGE, FIRST, LINKER = 4096, 0x10000, 0x80F000
LAZY, NOW, NOLOAD, DEEPBIND, GLOBAL, NODELETE = 1, 2, 4, 8, 0x100, 0x1000
R_NONE, R_64, R_RELATIVE, R_COPY, R_SLOT, R_MODULE, R_OFFSET, R_STATIC = 0, 2, 3, 4, 5, 7, 9, 11
ABSOLUTE, TLS_TYPE, WEAK = 0xFFF1, 6, 2
ALL_ONES = 2**64 - 1
STATUS = {
    "missing-library": 127, "missing-version": 127, "missing-symbol": 127, "unresolved": 127, "not-accepted": 126,
    "read-fault": 121, "address-space-full": 118, "needs-static-tls": 118, "not-code": 118, "fuel": 124, "memory": 123,
}  # fmt: skip


class Illegal(Exception):
    """Why a line may not stand where it stands."""


class Refusal(Exception):
    """The refusal of a call, as its line has it."""


class Waits(Exception):
    """The call has to wait, so it has no event."""


def demand(good, why):
    if not good:
        raise Illegal(why)


def up(number, to):
    return (number + to - 1) // to * to


class Object:
    """A loaded object."""

    def __init__(self, path, data, is_program):
        self.path, self.record = path, oracle.read_object(data, is_program)
        headers = oracle.headers_of(data)
        self.memory = oracle.Memory(data, headers)
        loads = self.memory.segments
        self.low = min(h.vaddr for h in loads) // PAGE * PAGE
        self.pages = (up(max(h.vaddr + h.memsz for h in loads), PAGE) - self.low) // PAGE
        self.align = max([PAGE] + [h.align for h in loads])
        self.code = [(h.vaddr // PAGE * PAGE, up(h.vaddr + h.memsz, PAGE)) for h in loads if h.flags & 1]
        self.storage = next((h for h in headers if h.kind == oracle.STORAGE), None)
        last = dict(oracle.tags_of(self.memory, headers))
        self.binds_now = 24 in last or bool(last.get(30, 0) & 8 or last.get(0x6FFFFFFB, 0) & 1)
        self.stays = bool(last.get(0x6FFFFFFB, 0) & 8)
        self.has_preinits, self.has_constructors = bool(last.get(33)), 12 in last or bool(last.get(27))
        self.has_destructors = 13 in last or bool(last.get(28))
        self.is_deep, self.state, self.found, self.edges = False, "initialising", [], set()
        self.serial = self.base = self.module = self.offset = self.ns = self.hart = None
        self.bound_at_load = {}

    def address(self, index):
        symbol = self.record.symbols[index]
        return symbol.value if symbol.section == ABSOLUTE else (symbol.value + self.base) % 2**64

    def is_code(self, address):
        return any(start <= address - self.base < end for start, end in self.code)

    def lazy_word(self, slot):
        place = self.record.slots[slot].place
        return (oracle.number_at(self.memory.bytes_at(place, 8), 0, 8) + self.base) % 2**64

    def version(self, index):
        return oracle.version_name(oracle.index_of(self.record, index), self.record.definitions, self.record.needs)


def pick(o, name, kind, version=None):
    """The definition of an object that a name leads to: for a reference of a version or of none, dlsym, or dlvsym."""
    record = o.record
    offers = [
        i for i in range(record.first, len(record.symbols))
        if oracle.is_exported(record.symbols[i]) and record.symbols[i].name == name
    ]  # fmt: skip
    if record.indexes is None:
        return offers[0] if offers else None
    offers = [i for i in offers if oracle.index_of(record, i)]
    seen = [i for i in offers if record.indexes[i] < 0x8000]
    if kind == "version":
        fitting = [i for i in offers if o.version(i) == version or record.indexes[i] == 1]
    elif kind == "dlvsym":
        fitting = [i for i in offers if o.version(i) == version]
    else:
        fitting = [i for i in offers if oracle.index_of(record, i) in ((1, 2) if kind == "plain" else (1,))]
        fitting = fitting or (seen if len(seen) == 1 else [])
    return fitting[0] if fitting else None


class Namespace:
    def __init__(self):
        self.objects, self.everyone, self.opens = [], [], []


class Grant:
    def __init__(self, number, hart, owner, slot, target, value):
        self.number, self.hart, self.owner, self.slot, self.target, self.value = number, hart, owner, slot, target, value
        self.state = "open"


class Closing:
    """A closing by a hart of some objects, and the next serial then."""

    def __init__(self, hart, objects, since):
        self.hart, self.objects, self.since = hart, objects, since


class Setup:
    """What a run is given, from the words of its command."""

    def __init__(self, words):
        words = shlex.split(words)
        self.folders, self.preload, self.harts, self.now, plain = [], [], [], False, []
        rest = words[1:]
        while rest:
            word, _, value = rest.pop(0).partition("=")
            if word == "--now":
                self.now = True
            elif word == "--trace":
                continue
            elif word == "--":
                plain += rest
                rest = []
            elif word in ("--lib", "--preload", "--harts", "--fuel"):
                value = value or rest.pop(0)
                self.take(word, value)
            else:
                plain.append(word)
        self.program = plain[-1].encode() if plain else b""

    def take(self, word, value):
        if word == "--lib":
            self.folders = value.encode().split(b":")
        elif word == "--preload":
            self.preload = value.encode().split(b":")
        elif word == "--harts":
            self.harts = value.encode().split(b",")


class State:
    """What there is after the events so far."""

    def __init__(self, setup, files, fails):
        self.setup, self.fails = setup, [n for what, n in fails if what == "read"]
        self.files = files
        self.harts = 1 + len(setup.harts)
        self.spaces, self.used, self.modules, self.blocks = {}, set(), {}, {}
        self.grants, self.inits, self.finis, self.closings = [], [], [], []
        self.kept, self.next, self.tp = {}, 1, {}
        self.endings, self.heads, self.reads = [], set(), 0
        self.named_harts, self.loading, self.start_refused, self.unbound = 0, defaultdict(list), None, None
        self.settled = -1

    # ---- objects

    def mapped(self):
        return [o for space in self.spaces.values() for o in space.objects]

    def object(self, serial):
        return next((o for o in self.mapped() if o.serial == serial), None)

    def breadth(self, root):
        order = [root]
        for serial in order:
            order += [f for f in dict.fromkeys(self.object(serial).found) if f and f not in order]
        return order

    def scope(self, owner):
        space = self.spaces[owner.ns]
        order = [owner.serial] if owner.record.is_symbolic else []
        order += [] if owner.is_deep else space.everyone
        for root, _ in space.opens:
            breadth = self.breadth(root)
            order += breadth if owner.serial in breadth else []
        order += self.breadth(owner.serial) + (space.everyone if owner.is_deep else [])
        is_dying = owner.state == "dying"
        return [s for s in dict.fromkeys(order) if is_dying or self.object(s).state != "dying"] + [0]

    def searched(self, serials, name, kind, version=None):
        for serial in serials:
            if serial == 0:
                if name in LINKER_SYMBOLS[1:]:
                    return 0, LINKER_SYMBOLS.index(name)
                continue
            index = pick(self.object(serial), name, kind, version)
            if index is not None:
                return serial, index
        return None

    def choice(self, owner, reloc):
        """What a relocation chooses: a serial and an index, "weak" or "missing"."""
        symbol = owner.record.symbols[reloc.symbol]
        is_copy = reloc.kind == R_COPY
        is_own = symbol.info >> 4 == 0 or symbol.section and symbol.other & 3
        if not is_copy and (reloc.symbol == 0 or is_own):
            return owner.serial, reloc.symbol
        scope = [s for s in self.scope(owner) if not (is_copy and s == 1)]
        version = self.wanted(owner, reloc.symbol)
        found = self.searched(scope, symbol.name, "plain" if version is None else "version", version)
        return found or ("weak" if symbol.info >> 4 == WEAK else "missing")

    @staticmethod
    def wanted(owner, symbol):
        return owner.version(symbol) if oracle.index_of(owner.record, symbol) >= 2 else None

    def value(self, choice):
        if choice == "weak":
            return 0
        serial, index = choice
        return LINKER + 16 * index if serial == 0 else self.object(serial).address(index)

    def slot_leads_to_code(self, owner, slot, choice):
        if choice == "weak":
            return True
        value = self.value(choice)
        in_code = LINKER <= value < LINKER + PAGE if choice[0] == 0 else self.object(choice[0]).is_code(value)
        return in_code and value != owner.lazy_word(slot)

    # ---- memory

    def reserve(self, pages, align=PAGE):
        start = up(FIRST, align)
        while start + pages * PAGE <= LINKER:
            taken = [at for at in range(start, start + pages * PAGE, PAGE) if at in self.used]
            if not taken:
                self.used.update(range(start, start + pages * PAGE, PAGE))
                return start
            start = up(taken[-1] + PAGE, align)
        raise Refusal(f"address-space-full {pages}")

    def place(self, o):
        if o.record.is_exec:
            pages = range(o.low, o.low + o.pages * PAGE, PAGE)
            if o.low < FIRST or pages[-1] >= LINKER or self.used & set(pages):
                raise Refusal(f"address-space-full {o.pages}")
            self.used.update(pages)
            o.base = 0
        else:
            o.base = self.reserve(o.pages, o.align) - o.low
        o.ranges = set(range(o.base + o.low, o.base + o.low + o.pages * PAGE, PAGE))

    def block(self, hart, o):
        """Where a hart's block of an object's storage is, or None."""
        return self.tp[hart] + o.offset if o.offset is not None else self.blocks.get((hart, o.serial), (None,))[0]

    def new_block(self, o):
        """The address, the first page and the pages of the next block."""
        align = max(o.storage.align, 1)
        residue = o.storage.vaddr % align
        pages = max(1, up(residue + o.storage.memsz, PAGE) // PAGE)
        start = self.reserve(pages, max(align, PAGE))
        return start + residue, set(range(start, start + pages * PAGE, PAGE))

    # ---- opening

    def read(self, path, known):
        """The bytes at a path, or None; each path is read once in a load."""
        if path in known:
            return known[path]
        self.reads += 1
        if self.reads in self.fails:
            raise Refusal(f"read-fault {oracle.written(path)}")
        known[path] = self.files.get(path)
        return known[path]

    def find(self, space, new, name, hart, known, loads, is_program=False, is_passed=False):
        """The object that a name leads to: one that is there or a new one, or the linker's, 0."""
        if name == LINKER_NAME and not is_passed and not is_program:
            return 0
        here = space.objects + new
        if not is_program and b"/" not in name:
            for o in here:
                if o.record.soname == name:
                    return self.may_use(o, hart, new)
        paths = [name] if is_program or b"/" in name else [folder + b"/" + name for folder in self.setup.folders]
        for path in paths:
            for o in here:
                if o.path == path:
                    return self.may_use(o, hart, new)
            data = self.read(path, known) if loads else None
            if data is None:
                continue
            try:
                new.append(Object(path, data, is_program))
            except oracle.Broken as broken:
                raise Refusal(f"not-accepted {oracle.written(path)} {broken.rule} {broken.number}") from None
            return new[-1]
        raise Refusal(f"missing-library {oracle.written(name)}")

    @staticmethod
    def may_use(o, hart, new):
        if o in new:
            return o
        if o.state == "dying":
            if o.hart == hart:
                raise Refusal(f"closing-here {oracle.written(o.path)}")
            raise Waits
        if o.state == "initialising" and o.hart != hart:
            raise Waits
        return o

    def walk(self, space, hart, name, loads, is_startup):
        """The root and the new objects, with what their names found."""
        new, known = [], {}
        root = self.find(space, new, name, hart, known, loads, is_startup, not is_startup)
        for o in new:
            names = (self.setup.preload if is_startup and o is root else []) + o.record.needed
            o.finds = [self.find(space, new, n, hart, known, loads) for n in names]
            o.needed_finds = dict(reversed(list(zip(o.record.needed, o.finds[len(o.finds) - len(o.record.needed) :]))))
        return root, new

    def check_versions(self, o):
        for need in o.record.needs:
            found = o.needed_finds.get(need.file, 0)
            if need.flags & WEAK or found == 0:
                continue
            names = [d.name for d in found.record.definitions if not d.flags & 1]
            if found.record.definitions and need.name not in names:
                words = (o.path, need.file, need.name)
                raise Refusal("missing-version " + " ".join(map(oracle.written, words)))

    def check_relocations(self, o, is_now):
        record = o.record
        slots = list(enumerate(record.slots)) if is_now or o.binds_now else []
        for slot, reloc in [(None, r) for r in record.relocs] + slots:
            if reloc.kind in (R_NONE, R_RELATIVE):
                continue
            choice = self.choice(o, reloc)
            symbol = record.symbols[reloc.symbol]
            if choice == "missing":
                words = (o.path, symbol.name, self.wanted(o, reloc.symbol))
                raise Refusal("missing-symbol " + " ".join(map(oracle.written, words)))
            if slot is not None:
                if not self.slot_leads_to_code(o, slot, choice):
                    raise Refusal(f"not-code {oracle.written(o.path)} {oracle.written(symbol.name)}")
                o.bound_at_load[slot] = self.value(choice)
            if choice != "weak":
                target = self.object(choice[0])
                if reloc.kind == R_STATIC and (target is None or target.offset is None):
                    raise Refusal(f"needs-static-tls {oracle.written(o.path)}")
                o.edges |= {choice[0]} - {0}

    def judge_open(self, asked, name, flags):
        """The namespace in which a name is opened, None for a new one."""
        if name is not None and len(name) == 256:
            raise Refusal("name-too-long")
        known = LAZY | NOW | NOLOAD | DEEPBIND | GLOBAL | NODELETE
        if flags & ~known or flags & 3 not in (1, 2):
            raise Refusal(f"bad-flags 0x{flags:x}")
        if name is None and asked != 0:
            raise Refusal(f"bad-namespace 0x{ALL_ONES if asked is None else asked:x}")
        if asked is None:
            if len(self.spaces) == 16:
                raise Refusal("namespaces-full")
        elif asked not in self.spaces:
            raise Refusal(f"bad-namespace 0x{asked:x}")
        return asked

    def open(self, hart, asked, name, flags):
        """Opens, and gives the end of the line; or leaves all as it was."""
        is_startup = not self.spaces
        if is_startup:
            ns = 0
        else:
            ns = self.judge_open(asked, name, flags)
        if ns is None:
            ns = next(n for n in range(16) if n not in self.spaces)
        if name is None:
            self.count(self.spaces[0], 1, flags)
            return "ok in=0 root=1 new=-"
        space = self.spaces.get(ns) or Namespace()
        try:
            root, new = self.walk(space, hart, name, not flags & NOLOAD, is_startup)
        except Refusal:
            if flags & NOLOAD and not is_startup:
                self.demand_absent(space, hart, name)
                return "absent"
            raise
        demand(root != 0, "the linker's own object isn't opened")
        for o in new:
            self.check_versions(o)
        before = (set(self.used), dict(self.modules), self.next, dict(self.tp))
        try:
            return self.bring(hart, ns, space, root, new, flags, is_startup)
        except Refusal:
            self.used, self.modules, self.next, self.tp = before
            for o in new:
                if o in space.objects:
                    space.objects.remove(o)
            space.everyone[:] = [s for s in space.everyone if s < self.next]
            space.opens[:] = space.old_opens
            if not space.objects:
                self.spaces.pop(ns, None)
            raise

    def demand_absent(self, space, hart, name):
        """Under RTLD_NOLOAD a name whose object is there isn't absent."""
        try:
            self.find(space, [], name, hart, {}, False, False, True)
        except Refusal as refusal:
            if not str(refusal).startswith("missing-library"):
                raise

    def bring(self, hart, ns, space, root, new, flags, is_startup):
        space.old_opens = list(space.opens)
        for o in new:
            o.serial, o.ns, o.hart, o.is_deep = self.next, ns, hart, bool(flags & DEEPBIND)
            self.next += 1
        for o in new:
            o.found = [f if f == 0 else f.serial for f in o.finds]
            self.place(o)
        self.give_modules(new, is_startup)
        self.spaces[ns] = space
        space.objects += new
        for o in new:
            o.edges = {f for f in o.found if f}
        old = list(space.everyone)
        self.count(space, root.serial, flags)
        if is_startup:
            self.reserve_harts(new)
        try:
            for o in new:
                self.check_relocations(o, self.setup.now or flags & NOW)
        except Refusal:
            space.everyone[:] = old
            raise
        if flags & NODELETE:
            root.stays = True
        for o in new:
            o.loaded_with = new
        if new:
            self.loading[hart].append(new)
        return f"ok in={ns} root={root.serial} new={','.join(map(self.entry, new)) or '-'}"

    def count(self, space, root, flags):
        places = [n for n, (r, _) in enumerate(space.opens) if r == root]
        if places:
            space.opens[places[0]] = (root, space.opens[places[0]][1] + 1)
        else:
            space.opens.append((root, 1))
        if flags & GLOBAL:
            space.everyone += [s for s in self.breadth(root) if s not in space.everyone]

    def give_modules(self, new, is_startup):
        end, program = 0, new[0] if new else None
        with_storage = [o for o in new if o.storage]
        residue = program.storage.vaddr % max(program.storage.align, 1) if is_startup and program.storage else 0
        for o in with_storage:
            o.module = next(n for n in range(1, 10000) if n not in self.modules)
            self.modules[o.module] = o
            if is_startup:
                align = max(o.storage.align, 1)
                o.offset = end + (o.storage.vaddr - residue - end) % align
                end = o.offset + o.storage.memsz
        self.area = (residue, end, max([PAGE] + [o.storage.align for o in with_storage])) if is_startup and with_storage else None

    def reserve_harts(self, new):
        for _ in range(self.harts):
            self.reserve(16)
        for hart in range(self.harts):
            self.tp[hart] = 0
            if self.area:
                residue, end, align = self.area
                self.tp[hart] = self.reserve(max(1, up(residue + end, PAGE) // PAGE), align) + residue

    @staticmethod
    def entry(o):
        text = f"{o.serial}:{oracle.written(o.path)}@0x{o.base:x}"
        if o.module:
            text += f"/{o.module}" + (f"+0x{o.offset:x}" if o.offset is not None else "")
        return text

    # ---- closing

    def close(self, hart, handle):
        for space in self.spaces.values():
            for n, (root, count) in enumerate(space.opens):
                # Startup's own opening of the program doesn't count.
                if root == handle and count > (handle == 1):
                    return self.lower(hart, space, n)
        raise Refusal(f"bad-handle 0x{handle:x}")

    def lower(self, hart, space, n):
        root, count = space.opens[n]
        if count == 1:
            del space.opens[n]
        else:
            space.opens[n] = (root, count - 1)
        needed = self.needed(space)
        dying = [o for o in space.objects if o.serial not in needed]
        for o in dying:
            o.state, o.hart = "dying", hart
        names = {o.serial for o in dying}
        space.everyone[:] = [s for s in space.everyone if s not in names]
        if dying:
            self.closings.append(Closing(hart, [o.serial for o in dying], self.next))
        return "ok dying=" + (",".join(str(o.serial) for o in dying) or "-")

    def needed(self, space):
        roots = set(self.at_startup)
        for root, _ in space.opens:
            roots |= set(self.breadth(root))
        for o in self.mapped():
            if o.stays or o.state in ("initialising", "dying"):
                roots.add(o.serial)
        edges = defaultdict(set)
        for o in self.mapped():
            edges[o.serial] |= o.edges
        for grant in self.grants:
            if grant.state == "open":
                roots |= {grant.owner, grant.target} - {None}
            if grant.state == "bound" and grant.target:
                edges[grant.owner].add(grant.target)
        reached, queue = set(roots), list(roots)
        for serial in queue:
            more = edges[serial] - reached
            reached |= more
            queue += more
        return reached

    # ---- what comes next

    def beyond(self, start):
        """The objects to which a chain of needed names leads."""
        seen, queue = set(), [start]
        for serial in queue:
            o = self.object(serial)
            more = {f for f in (o.found if o else []) if f} - seen
            seen |= more
            queue += more
        return seen

    def next_init(self, new):
        """The first new object whose strict dependencies among them are initialised; the program is last."""
        left = [o for o in new if o.serial not in self.inits]
        for o in sorted(left, key=lambda x: x.serial == 1):
            strict = [d for d in left if d is not o and d.serial in self.beyond(o.serial) and o.serial not in self.beyond(d.serial)]
            if o.serial == 1 and len(left) > 1:
                continue
            if not [d for d in strict if d.serial != 1]:
                return o.serial
        return None

    def unfinished(self, serials):
        left = [s for s in self.inits if s not in self.finis and s in serials]
        return left[::-1]

    def have_exited(self):
        return len(self.endings) >= self.harts and all(end.startswith("exit ") for _, end in self.endings)

    def note_heads(self):
        if self.have_exited():
            self.heads |= set(self.unfinished([o.serial for o in self.mapped()])[:1])


# ---- lines

N, X, NAME = r"(0|[1-9]\d*)", r"0x(0|[1-9a-f][0-9a-f]*)", r"(\S+)"
FORMS = {
    "open": rf"open h={N} ns=({N[1:-1]}|new) name={NAME} flags={X} (.+)",
    "close": rf"close h={N} handle={X} (.+)",
    "unmapped": rf"unmapped h={N} set=(\S+)",
    "grant": rf"grant g={N} h={N} o={N} slot={N} -> (\d+\.\d+|weak) {X}",
    "bound": rf"bound g={N}",
    "lost": rf"lost g={N} saw={X}",
    "unresolved": rf"unresolved h={N} o={N} slot={N} (missing|not-code \d+\.\d+)",
    "sym": rf"sym h={N} ns={N} handle={X} name={NAME} ver={NAME} (.+)",
    "tls": rf"tls h={N} o={N} {X}",
    "init": rf"init h={N} o={N}",
    "fini": rf"fini h={N} o={N}",
    "wrote": rf"wrote h={N} n={N} ([0-9a-f]*)",
    "told": rf"told h={N} (.+)",
    "ended": rf"ended h={N} (.+)",
}
END = re.compile(
    rf"exit {N}|fuel|memory|(not-mapped|slot-store|bad-instruction|misaligned) {X} {X}|break {X}|bad-module {N}|unloaded {X}"
    rf"|no-slot {N} {X}|(unresolved|not-code) {N} {N}|address-space-full {N}"
)


def name_of(word):
    if word == "-":
        return None
    if word == "%":
        return b""
    name = re.sub(rb"%([0-9a-f]{2})", lambda m: bytes([int(m[1], 16)]), word.encode())
    demand(oracle.written(name) == word, f"{word} is no name as it is written")
    return name


class Judge(State):
    """Follows a journal, line by line."""

    def follow(self, line):
        kind = line.split(" ", 1)[0]
        demand(kind in FORMS, "no event")
        match = re.fullmatch(FORMS[kind], line)
        demand(match, "no line of that event")
        demand(self.unbound is None or line == self.unbound, f"what comes is: {self.unbound}")
        demand(kind in ("bound", "lost") or self.may_act(kind, match), "the hart has ended, or has an open grant")
        if kind not in ("bound", "lost"):
            self.settled = -1
            self.demand_due(kind, int(match[2] if kind == "grant" else match[1]), line)
        getattr(self, f"on_{kind}")(*match.groups())
        self.note_heads()

    def may_act(self, kind, match):
        hart = int(match[2] if kind == "grant" else match[1])
        demand(hart < self.harts, "no such hart")
        if any(g.hart == hart and g.state == "open" for g in self.grants):
            return False
        if not self.spaces:
            demand(kind == "open" and hart == 0, "a run begins with its opening")
        elif not self.has_started() and not (kind == "sym" and self.named_harts < len(self.setup.harts)):
            demand(hart == 0, "startup's constructors run on hart 0, before all else")
        ends = sum(h == hart for h, _ in self.endings)
        return ends == 0 or hart == 0 and ends == 1 and self.have_exited()

    def has_started(self):
        """Startup's constructors are over, or the hart that runs them has ended."""
        return 1 in self.inits or any(hart == 0 for hart, _ in self.endings)

    def demand_due(self, kind, hart, line):
        """What a hart has to do before anything else: the constructors or destructors of an object that has none are over at
        once, and what has been finalised is unmapped. Memory may be lacking for each of these."""
        named = self.named_harts == len(self.setup.harts) or 1 in self.inits
        due = self.due(hart) if self.spaces and named else None
        demand(due is None or line in (due, f"ended h={hart} memory"), f"first comes: {due}")

    def due(self, hart):
        loadings, closings = self.loading[hart], [c for c in self.closings if c.hart == hart]
        while loadings and self.next_init(loadings[-1]) is None:
            loadings.pop()
        if loadings and not (closings and closings[-1].since > loadings[-1][0].serial):
            o = self.object(self.next_init(loadings[-1]))
            is_first = not self.inits and self.object(1).has_preinits
            return None if o.has_constructors or is_first else f"init h={hart} o={o.serial}"
        if closings:
            left = self.unfinished(closings[-1].objects)
            if not left:
                return f"unmapped h={hart} set={','.join(map(str, closings[-1].objects))}"
            return None if self.object(left[0]).has_destructors else f"fini h={hart} o={left[0]}"
        if hart == 0 and self.have_exited():
            left = self.unfinished([o.serial for o in self.mapped()])
            return None if not left or self.object(left[0]).has_destructors else f"fini h=0 o={left[0]}"
        return None

    # The answers of calls.

    def answered(self, hart, given, call):
        """Compares an answer with that of a call, and keeps a refusal."""
        try:
            wanted = call()
        except Refusal as refusal:
            self.kept[hart] = str(refusal)
            wanted = f"no {refusal}"
        except Waits:
            raise Illegal("the call has to wait") from None
        demand(given == wanted, f"the answer is: {wanted}")

    def on_open(self, hart, ns, name, flags, given):
        hart, ns, flags, name = int(hart), None if ns == "new" else int(ns), int(flags, 16), name_of(name)
        is_startup = not self.spaces
        if is_startup:
            wanted = (0, self.setup.program, GLOBAL | (NOW if self.setup.now else LAZY))
            demand((ns, name, flags) == wanted, "startup's opening is another")
        self.answered(hart, given, lambda: self.open(hart, ns, name, flags))
        if is_startup:
            self.start_refused = given[3:] if given.startswith("no ") else None
            self.at_startup = [o.serial for o in self.mapped()]

    def on_close(self, hart, handle, given):
        self.answered(int(hart), given, lambda: self.close(int(hart), int(handle, 16)))

    def on_sym(self, hart, ns, handle, name, version, given):
        hart, ns, handle, name, version = int(hart), int(ns), int(handle, 16), name_of(name), name_of(version)
        if self.named_harts < len(self.setup.harts) and 1 not in self.inits:
            number = self.named_harts
            self.named_harts += 1
            wanted = (number + 1, 0, 0, self.setup.harts[number], None)
            demand((hart, ns, handle, name, version) == wanted, "not the next hart's name")
        demand(name is not None and ns in self.spaces, "no such namespace, or no name")
        self.answered(hart, given, lambda: self.sym(hart, ns, handle, name, version))
        if given.startswith("no ") and 1 not in self.inits:
            self.start_refused = given[3:]

    def sym(self, hart, ns, handle, name, version):
        if len(name) == 256 or version is not None and len(version) == 256:
            raise Refusal("name-too-long")
        if handle == 0:
            serials, root = self.spaces[ns].everyone + [0], None
        else:
            if not any(r == handle for space in self.spaces.values() for r, _ in space.opens):
                raise Refusal(f"bad-handle 0x{handle:x}")
            serials, root = self.breadth(handle), self.object(handle).path
        found = self.searched(serials, name, "dlsym" if version is None else "dlvsym", version)
        if found is None:
            raise Refusal("missing-symbol " + " ".join(map(oracle.written, (root, name, version))))
        serial, index = found
        return f"ok {serial}.{index} 0x{self.looked_up(hart, serial, index):x}"

    def looked_up(self, hart, serial, index):
        o = self.object(serial)
        if o is None or o.record.symbols[index].info & 15 != TLS_TYPE:
            return self.value((serial, index))
        block = self.block(hart, o)
        if block is None:
            before = set(self.used)
            self.new_block(o)
            self.used = before
            raise Illegal("the hart has no block of it")
        return (block + o.record.symbols[index].value) % 2**64

    def on_tls(self, hart, serial, address):
        hart, o = int(hart), self.object(int(serial))
        demand(o is not None and o.module and o.offset is None, "no mapped object with late storage")
        demand((hart, o.serial) not in self.blocks, "the hart has its block")
        try:
            block, pages = self.new_block(o)
        except Refusal:
            raise Illegal("there is no room") from None
        demand(block == int(address, 16), f"the block is at 0x{block:x}")
        self.blocks[hart, o.serial] = (block, pages)

    # Slots.

    def on_grant(self, number, hart, owner, slot, target, value):
        demand(int(number) == len(self.grants) + 1, "not the next number")
        owner, slot, value = self.object(int(owner)), int(slot), int(value, 16)
        demand(owner is not None and slot < len(owner.record.slots), "no such slot")
        choice = self.choice(owner, owner.record.slots[slot])
        text = choice if isinstance(choice, str) else f"{choice[0]}.{choice[1]}"
        demand(text == target, f"the slot chooses {text}")
        demand(value == self.value(choice), f"the value is 0x{self.value(choice):x}")
        demand(self.slot_leads_to_code(owner, slot, choice), "it leads to no code")
        serial = None if choice == "weak" or choice[0] == 0 else choice[0]
        self.grants.append(Grant(int(number), int(hart), owner.serial, slot, serial, value))

    def on_unresolved(self, hart, owner, slot, why):
        owner, slot = self.object(int(owner)), int(slot)
        demand(owner is not None and slot < len(owner.record.slots), "no such slot")
        choice = self.choice(owner, owner.record.slots[slot])
        if choice == "missing":
            wanted = "missing"
        else:
            demand(not self.slot_leads_to_code(owner, slot, choice), "the slot can be bound")
            wanted = f"not-code {choice[0]}.{choice[1]}"
        demand(why == wanted, f"why is: {wanted}")
        self.unbound = f"ended h={hart} {'unresolved' if why == 'missing' else 'not-code'} {owner.serial} {slot}"

    def open_grant(self, number):
        demand(1 <= int(number) <= len(self.grants), "no such grant")
        grant = self.grants[int(number) - 1]
        demand(grant.state == "open", "the grant is settled")
        # A hart that waits, or that asks for a block that is there, settles and adds no event of its own.
        is_silent = self.modules or any(o.state != "ready" for o in self.mapped())
        demand(grant.hart > self.settled or is_silent, "grants are settled in the order of harts")
        self.settled = grant.hart
        return grant

    def others(self, grant):
        return [g for g in self.grants if g is not grant and (g.owner, g.slot) == (grant.owner, grant.slot)]

    def on_bound(self, number):
        grant = self.open_grant(number)
        owner = self.object(grant.owner)
        demand(owner is None or grant.slot not in owner.bound_at_load, "the slot was bound at load")
        demand(not any(g.state == "bound" for g in self.others(grant)), "the slot is bound")
        grant.state = "bound"

    def on_lost(self, number, saw):
        grant = self.open_grant(number)
        owner = self.object(grant.owner)
        values = {g.value for g in self.others(grant) if g.state != "lost"}
        values |= {owner.bound_at_load[grant.slot]} if owner and grant.slot in owner.bound_at_load else set()
        demand(int(saw, 16) in values, "no such value could stand there")
        grant.state, grant.saw = "lost", int(saw, 16)

    # Constructors, destructors, unmappings.

    def on_init(self, hart, serial):
        o = self.object(int(serial))
        demand(o is not None and o.state == "initialising" and o.hart == int(hart), "the hart doesn't initialise it")
        wanted = self.next_init(o.loaded_with)
        demand(wanted == o.serial, f"object {wanted} is next")
        o.state = "ready"
        self.inits.append(o.serial)

    def on_fini(self, hart, serial):
        hart, serial = int(hart), int(serial)
        by_closing = any(c.hart == hart and self.unfinished(c.objects)[:1] == [serial] for c in self.closings)
        o = self.object(serial)
        is_left = o is not None and serial in self.inits and serial not in self.finis
        at_end = hart == 0 and self.have_exited() and is_left and serial in self.heads
        demand(by_closing or at_end, "its destructors aren't next")
        self.finis.append(serial)

    def on_unmapped(self, hart, given):
        fitting = [c for c in self.closings if c.hart == int(hart) and ",".join(map(str, c.objects)) == given]
        demand(fitting, "no closing of the hart has that set")
        closing = fitting[-1]
        demand(not self.unfinished(closing.objects), "destructors are left")
        held = any(g.state == "open" and {g.owner, g.target} & set(closing.objects) for g in self.grants)
        demand(not held, "an open grant holds it")
        self.closings.remove(closing)
        for serial in closing.objects:
            self.take_away(self.object(serial))

    def take_away(self, o):
        space = self.spaces[o.ns]
        space.objects.remove(o)
        self.used -= o.ranges
        if o.module:
            del self.modules[o.module]
        for key in [key for key in self.blocks if key[1] == o.serial]:
            self.used -= self.blocks.pop(key)[1]
        if not space.objects and o.ns:
            del self.spaces[o.ns]

    # What guests do.

    def on_wrote(self, hart, count, text):
        demand(1 <= int(count) <= 256 and len(text) == 2 * int(count), "not so many bytes")

    def on_told(self, hart, text):
        demand(text == self.kept.get(int(hart), "-"), f"what is kept is: {self.kept.get(int(hart), '-')}")
        self.kept.pop(int(hart), None)

    def on_ended(self, hart, end):
        demand(END.fullmatch(end), "no end of a hart")
        is_unbound = end.startswith(("unresolved", "not-code"))
        demand(not is_unbound or self.unbound, "no slot was found to lead nowhere")
        self.unbound = None
        self.endings.append((int(hart), end))

    # The whole journal.

    def finish(self, last):
        """Judges the last line, and what has to be so at the end."""
        if self.start_refused is None and self.harts > 1 and 1 not in self.inits and not self.endings:
            self.start_refused = self.not_code()
        if self.start_refused is not None:
            wanted = f"end {STATUS[self.start_refused.split()[0]]} {self.start_refused}"
            demand(last == wanted, f"the last line is: {wanted}")
            return
        demand(not any(g.state == "open" for g in self.grants), "a grant is open at the end")
        for grant in self.grants:
            self.demand_whole(grant)
        ends = dict(self.endings)
        demand(len(ends) == self.harts, "a hart hasn't ended")
        others = sorted(h for h, end in ends.items() if not end.startswith("exit "))
        if others:
            end = ends[others[0]]
            wanted = f"end {STATUS.get(end.split()[0], 125)} hart {others[0]} {end}"
        else:
            wanted = f"end {int(ends[0].split()[1]) % 256} exit"
            left = self.unfinished([o.serial for o in self.mapped()])
            demand(len(self.endings) > self.harts or not left, "destructors are left at the end")
        demand(last == wanted, f"the last line is: {wanted}")

    def not_code(self):
        demand(self.named_harts > 0, "nothing runs")
        return f"not-code {oracle.written(self.setup.program)} {oracle.written(self.setup.harts[self.named_harts - 1])}"

    def demand_whole(self, grant):
        owner = self.object(grant.owner)
        if grant.state != "lost" or owner is None:
            return
        values = [owner.bound_at_load[grant.slot]] if grant.slot in owner.bound_at_load else []
        values += [g.value for g in self.others(grant) if g.state == "bound"]
        demand(values == [grant.saw], "a lost grant didn't see the value of the slot")


class Folder:
    """The files of a folder by their names, none outside of it."""

    def __init__(self, top):
        self.top = top

    def get(self, name):
        path = os.fsdecode(name)
        place = os.path.join(self.top, path)
        return open(place, "rb").read() if examples.is_inside(path) and os.path.isfile(place) else None


def judge(words, files, fails, lines):
    """None where the lines are a legal journal of a run, or the number of a line and why not."""
    state = Judge(Setup(words), files, fails)
    for number, line in enumerate(lines[:-1], 1):
        try:
            state.follow(line)
        except Illegal as why:
            return number, str(why)
    try:
        demand(lines and state.spaces or getattr(state, "start_refused", None), "nothing was opened")
        state.finish(lines[-1])
    except Illegal as why:
        return len(lines), str(why)
    return None


def given(example):
    return example.words, {path.encode(): data for path, data in example.files.items()}, example.fails


def printed(folder, words):
    """The lines that the program prints in a folder."""
    ldso = str(examples.program().resolve())
    return subprocess.run([ldso, *words], cwd=folder, stdout=subprocess.PIPE, text=True, check=False).stdout.splitlines()


def traced(example):
    """The example with its journal, of a run on threads that doesn't show it; None where its files can't be laid out."""
    words = examples.traced(example.words)
    if words == example.words:
        return example
    with tempfile.TemporaryDirectory() as root:
        folder = examples.lay_out(root, example.files)
        if folder is None or example.fails:
            return None
        return dataclasses.replace(example, words=words, lines=printed(folder, shlex.split(words)))


def journals():
    """Each example with a journal, but for those with a file of more than a MiB, for which the second reader takes long."""
    for example in examples.examples(str(examples.program().resolve())):
        example = traced(example) if all(len(data) <= 1 << 20 for data in example.files.values()) else None
        if example and example.words.startswith(("turns ", "run ")) and example.lines and example.lines[0].startswith("open "):
            yield example


def run(folder, words):
    """Runs the program in a folder, and judges what it prints."""
    lines = printed(folder, words)
    why = judge(shlex.join(words), Folder(folder), [], lines)
    print(f"line {why[0]}, {lines[why[0] - 1]}: {why[1]}" if why else f"{len(lines)} lines: a legal journal")
    return why is not None


# ---- changed copies


def changed(lines, chance):
    """A kind of change, and the lines so changed."""
    n = chance.randrange(len(lines) - 1)
    kind = chance.choice(["dropped", "doubled", "exchanged", "another number"])
    copy = list(lines)
    if kind == "dropped":
        del copy[n]
    elif kind == "doubled":
        copy.insert(n, copy[n])
    elif kind == "exchanged":
        copy[n], copy[n + 1] = copy[n + 1], copy[n]
    else:
        copy[n] = another_number(copy[n], chance)
    return kind, n, copy


def another_number(line, chance):
    found = list(re.finditer(r"(?<=[=.@ :,])(0x[0-9a-f]+|0|[1-9]\d*)(?![0-9a-z%.])", line))
    if not found:
        return line
    match = chance.choice(found)
    number = int(match[0], 0) + chance.choice([1, -1, 8, 0x1000])
    text = f"0x{abs(number):x}" if match[0].startswith("0x") else str(abs(number))
    return line[: match.start()] + text + line[match.end() :]


def hart_of(line):
    match = re.search(r" h=(\d+)", line)
    return match[1] if match else None


def is_asked(line):
    """Whether a line is of what a guest asks for without effect, or of what it writes and how it ends."""
    word = line.split()[0]
    return word in ("wrote", "ended") or word in ("open", "close", "sym", "told") and not re.search(r"(new|dying)=\d", line)


def is_guests_own(lines, kind, n, line):
    """Whether a change of a line may be another run's: in what guests ask for, when, and by which hart."""
    if kind == "exchanged":
        return hart_of(lines[n]) != hart_of(lines[n + 1]) or is_asked(lines[n]) or is_asked(lines[n + 1])
    if kind == "another number":
        was, now = hart_of(lines[n]), hart_of(line)
        return is_asked(line) or " flags=" in line or was != now
    return is_asked(line) or kind == "dropped" and line.startswith("tls ")


def mutated(example, count, chance):
    """How many changed copies there are by kind, and which are taken for journals."""
    seen, taken = Counter(), []
    for _ in range(count):
        kind, n, copy = changed(example.lines, chance)
        if copy == example.lines:
            continue
        seen[kind] += 1
        if judge(*given(example), copy) is None:
            taken.append((kind, n, copy[n] if kind == "another number" else example.lines[n]))
    return seen, taken


def main(words):
    if words[:1] == ["--run"]:
        return run(words[1], words[2:])
    count = int(words[1]) if len(words) > 1 else 200 if words[:1] == ["--mutated"] else 0
    chance, number, events, wrong = random.Random(1), 0, 0, 0
    seen, passed, own = Counter(), Counter(), Counter()
    for example in journals():
        number, events = number + 1, events + len(example.lines) - 1
        why = judge(*given(example), example.lines)
        if why:
            wrong += 1
            print(f"{example.source}:{example.line} {example.title}: line {why[0]}, {example.lines[why[0] - 1]}: {why[1]}")
            continue
        tried, taken = mutated(example, count, chance)
        seen += tried
        for kind, n, line in taken:
            (own if is_guests_own(example.lines, kind, n, line) else passed)[kind] += 1
        for kind, n, line in sorted(set(taken)):
            if not is_guests_own(example.lines, kind, n, line):
                print(f"{example.source}:{example.line} {example.title}: line {n + 1} {kind}: {line}")
    print(f"{number} journals, {events} events: {wrong} refused")
    for kind, copies in sorted(seen.items()):
        print(f"{copies} copies with a line {kind}: {own[kind]} may be another run's, {passed[kind]} others taken")
    return wrong > 0 or bool(passed)


if __name__ == "__main__":
    sys.exit(main(sys.argv[1:]))
