"""Compares `ldso bind` and `ldso dump` with bench/linker.py and bench/oracle.py on small random programs and
libraries, with few names, so that they meet:

    python3 bench/link_fuzz.py COUNT SEED

Prints how often each end was told, and leaves each folder on which they differ in the folder `differs`."""

import pathlib
import random
import shutil
import struct
import subprocess
import sys
import tempfile
from collections import Counter

import linker
import oracle

PROGRAM = pathlib.Path(__file__).resolve().parent.parent / "crates/ldso/out/ldso"
FUNCTIONS = [b"f", b"g", b"h", b"dlsym"]
VERSIONS = [b"V1", b"V2", b"V3"]
# Names without and with a slash, own names, the linker's, and a file by two names or more: d is a link to a, and a path has
# many spellings.
PLAIN = [b"a", b"b", b"c", b"s", b"ldso.so.1", b"lib/c"]
OTHERS = [b"d", b"lib/a", b"./lib/a", b"x/a", b"x/../lib/b", b"lib/d", b"prog", b"./prog"]
SONAMES = [None, None, None, b"s", b"a", b"b", b"d", b"lib/a", b"prog", b"ldso.so.1"]
FOLDERS = [[], [b"lib"], [b"lib", b"x"], [b"x", b"lib"], [b"none", b"lib", b"x"], [b"./lib", b"lib"], [b"x", b"."], [b"lib/", b"lib"]]
CODE, DATA = 0x10000, 0x20000
PAGE = 0x1000


def some_names(chance, count):
    """Names of libraries, mostly plain ones."""
    return chance.sample(PLAIN + chance.sample(OTHERS, chance.choice((0, 0, 0, 1))), count)


class Small:
    """A small object: what it is, and its bytes."""

    def __init__(self, chance, is_program):
        self.chance = chance
        may_be_fixed = is_program or chance.random() < 0.03
        self.kind = chance.choice((2, 3)) if may_be_fixed else 3
        self.soname = chance.choice(SONAMES)
        self.needed = some_names(chance, chance.choice((0, 1, 1, 2, 3)))
        self.has_indexes = chance.random() < 0.6
        self.definitions, self.needs = self.versions()
        self.symbols = [(b"", 0, 0, 0, 0, 0)] + [self.symbol() for _ in range(chance.randint(1, 6))]
        self.first = chance.choice((None, 1, chance.randint(1, len(self.symbols))))
        self.hides_sysv = self.first is not None and self.first < len(self.symbols) and chance.random() < 0.5
        self.relocs = [self.reloc(is_program) for _ in range(chance.choice((0, 0, 1, 2)))]
        self.slots = [chance.randrange(1, len(self.symbols)) for _ in range(chance.choice((0, 1, 2, 3)))]
        self.symbolic = chance.choice((0, 0, 0, 1, 2))

    def versions(self):
        """Versions that are defined, with index and flags, and those that are needed of each file."""
        chance, index = self.chance, 2
        definitions = [(1, 1, b"base")] * (chance.random() < 0.5)
        for name in chance.sample(VERSIONS, chance.choice((0, 0, 1, 2, 3))):
            definitions.append((index, 0, name))
            index += 1
        needs = []
        for file in some_names(chance, chance.choice((0, 0, 1, 2))):
            names = chance.sample(VERSIONS, chance.randint(1, 2))
            needs.append((file, [(index + at, chance.choice((0, 0, 2)), name) for at, name in enumerate(names)]))
            index += len(names)
        self.last_index = index - 1
        return definitions, needs

    def symbol(self):
        """Name, info, other, section, value and version index."""
        chance = self.chance
        info = chance.choice((0x10, 0x12, 0x12, 0x12, 0x20, 0x22, 0x16, 0x02))
        section = chance.choice((0, 1, 1, 1, 0xFFF1))
        index = chance.randint(0, self.last_index) | chance.choice((0, 0, 0, 0x8000))
        there = {0, 1} | {d[0] for d in self.definitions} | {n[0] for _, names in self.needs for n in names}
        index = index if index & 0x7FFF in there else 1
        other = chance.choice((0, 0, 0, 0, 1, 2, 3))
        return chance.choice(FUNCTIONS), info, other, section, chance.choice((0, 8, 8, 8)), index

    def reloc(self, is_program):
        chance = self.chance
        kind = chance.choice((0, 2, 2, 3, 7, 11, 4 if is_program else 2))
        symbol = chance.randrange(len(self.symbols))
        return kind, max(symbol, 1) if kind == 4 else symbol, chance.choice((0, -8, 5))

    def bytes(self):
        tables = Tables(len(self.symbols))
        needed = [(1, tables.string(name)) for name in self.needed]
        soname = [(14, tables.string(self.soname))] if self.soname is not None else []
        symbols = b"".join(
            struct.pack("<IBBHQQ", tables.string(name), info, other, section, value, 4)
            for name, info, other, section, value, _ in self.symbols
        )
        tags = needed + soname + tables.put(6, symbols) + [(11, 24)] + self.hash_tags(tables)
        tags += self.reloc_tags(tables) + self.version_tags(tables)
        tags += [(16, 0)] * (self.symbolic == 1) + [(30, 2)] * (self.symbolic == 2)
        return tables.file(self.kind, tags, len(self.slots))

    def hash_tags(self, tables):
        count = len(self.symbols)
        chain = [0] + [(index + 1) % count for index in range(1, count)]
        sysv = struct.pack(f"<{3 + count}I", 1, count, 1, *chain)
        tags = [] if self.hides_sysv else tables.put(4, sysv)
        if self.first is not None:
            words = [oracle.gnu_hash(s[0]) & ~1 | (at == count - 1) for at, s in enumerate(self.symbols)][self.first :]
            start = self.first if words else 0
            gnu = struct.pack("<IIIIQI", 1, self.first, 1, 6, (1 << 64) - 1, start)
            tags += tables.put(0x6FFFFEF5, gnu + struct.pack(f"<{len(words)}I", *words))
        return tags

    def reloc_tags(self, tables):
        places = range(DATA + 0x800, DATA + PAGE, 64)
        relocs = b"".join(
            struct.pack("<QQq", place, symbol << 32 | kind, addend)
            for place, (kind, symbol, addend) in zip(places, self.relocs)
        )
        slots = b"".join(
            struct.pack("<QQq", DATA + 16 + 8 * at, symbol << 32 | 5, 0) for at, symbol in enumerate(self.slots)
        )
        tags = tables.put(7, relocs) + [(8, len(relocs)), (9, 24)] if relocs else []
        return tags + (tables.put(23, slots) + [(2, len(slots)), (20, 7), (3, DATA)] if slots else [])

    def version_tags(self, tables):
        tags = []
        if self.has_indexes:
            tags += tables.put(0x6FFFFFF0, struct.pack(f"<{len(self.symbols)}H", *(s[5] for s in self.symbols)))
        if self.definitions:
            records = b"".join(
                struct.pack("<HHHHIIIII", 1, flags, index, 1, 0, 20, 28, tables.string(name), 0)
                for index, flags, name in self.definitions
            )
            tags += tables.put(0x6FFFFFFC, records) + [(0x6FFFFFFD, len(self.definitions))]
        if self.needs:
            records = b"".join(self.need(tables, file, names) for file, names in self.needs)
            tags += tables.put(0x6FFFFFFE, records) + [(0x6FFFFFFF, len(self.needs))]
        return tags

    def need(self, tables, file, names):
        head = struct.pack("<HHIII", 1, len(names), tables.string(file), 16, 16 + 16 * len(names))
        return head + b"".join(
            struct.pack("<IHHII", 0, flags, index, tables.string(name), 16) for index, flags, name in names
        )


class Tables:
    """The tables of an object, at the start of its first page."""

    def __init__(self, symbols):
        self.data, self.strings, self.symbols = bytearray(0x200), bytearray(1), symbols

    def string(self, name):
        at = len(self.strings)
        self.strings += name + b"\0"
        return at if name else 0

    def put(self, tag, table):
        self.data += bytes(-len(self.data) % 8)
        at = len(self.data)
        self.data += table
        return [(tag, at)]

    def file(self, kind, tags, slots):
        tags = tags + self.put(5, self.strings) + [(10, len(self.strings)), (0, 0)]
        table = b"".join(struct.pack("<QQ", *tag) for tag in tags)
        ((_, dynamic),) = self.put(2, table)
        size = len(self.data)
        self.data += bytes(-size % PAGE)
        code = len(self.data)
        self.data += b"\x13\0\0\0" * 4 + bytes(PAGE - 16)
        data = len(self.data)
        self.data += bytes(16) + struct.pack("<Q", CODE) * slots + bytes(PAGE - 16 - 8 * slots)
        headers = [
            (1, 4, 0, 0, size, size, PAGE),
            (1, 5, code, CODE, 16, 16, PAGE),
            (1, 6, data, DATA, PAGE, PAGE, PAGE),
            (2, 6, dynamic, dynamic, len(table), len(table), 8),
            (7, 4, data, DATA, 0, 16, 8),
        ]
        head = b"\x7fELF\2\1\1" + bytes(9) + struct.pack("<HHIQQQIHHHHHH", kind, 243, 1, CODE, 64, 0, 0, 64, 56, 5, 64, 0, 0)
        head += b"".join(struct.pack("<IIQQQQQQ", k, f, o, v, v, fs, ms, al) for k, f, o, v, fs, ms, al in headers)
        self.data[: len(head)] = head
        return bytes(self.data)


def make_files(folder, chance):
    """A program and some libraries; the first in the list is the program."""
    paths = ["prog"] + [f"{place}/{name}" for place in ("lib", "x") for name in "abc" if chance.random() < 0.8]
    for path in paths:
        (folder / path).parent.mkdir(exist_ok=True)
        (folder / path).write_bytes(Small(chance, path == "prog").bytes())
    for place in ("lib", "x"):
        if (folder / place / "a").exists() and chance.random() < 0.5:
            (folder / place / "d").symlink_to("a")
    if chance.random() < 0.05:
        (folder / "x" / "b").unlink(missing_ok=True)
        (folder / "x" / "b").mkdir(parents=True)
    return paths


def run(folder, words):
    done = subprocess.run([PROGRAM, *words], cwd=folder, capture_output=True, check=False)
    return done.stdout.decode(), done.returncode, done.stderr


def compare_bind(folder, chance):
    """Whether the two bind the program alike, and the text."""
    folders = chance.choice(FOLDERS)
    preload = some_names(chance, chance.choice((0, 0, 1, 2)))
    now = chance.random() < 0.3
    words = ["bind"] + ["--lib", b":".join(folders)] * bool(folders)
    words += ["--preload", b":".join(preload)] * bool(preload) + ["--now"] * now + ["prog"]
    want = linker.bind(folder, b"prog", folders, preload, now)
    told = run(folder, words)
    return told == (want, int(want.split("\n")[-2].split()[1]), b""), want


def main(count, seed):
    chance, ends, differ = random.Random(seed), Counter(), 0
    for number in range(count):
        with tempfile.TemporaryDirectory() as name:
            folder = pathlib.Path(name)
            path = chance.choice(make_files(folder, chance))
            same, text = compare_bind(folder, chance)
            if (folder / path).is_file():
                same &= run(folder, ["dump", path])[0] == oracle.dump((folder / path).read_bytes(), path)
            ends[" ".join(text.split("\n")[-2].split()[1:3])] += 1
            if not same:
                differ += 1
                shutil.copytree(folder, f"differs/{seed}-{number}")
    for end, times in sorted(ends.items()):
        print(end, times)
    print(f"{count} programs, {differ} differ")


if __name__ == "__main__":
    main(int(sys.argv[1]), int(sys.argv[2]))
