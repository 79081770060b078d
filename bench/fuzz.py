"""Compares `ldso dump` with bench/oracle.py on objects with one to three changed fields:

    python3 bench/fuzz.py COUNT SEED OBJECT..

Prints how often each rule was told, and leaves each file on which the two differ in the folder `differs`."""

import pathlib
import random
import subprocess
import sys
import tempfile
from collections import Counter

import oracle

PROGRAM = pathlib.Path(__file__).resolve().parent.parent / "crates/ldso/out/ldso"
NUMBERS = (0, 1, 2, 3, 4, 5, 7, 8, 12, 16, 24, 0x7FFF, 0x8000, 0xFFFF, 0xFFFFFFFF, 1 << 32, (1 << 64) - 1)


def places_of(data):
    """Where a change is likely to matter: the headers, the dynamic table, and the tables that it names."""
    headers = oracle.headers_of(data)
    memory = oracle.Memory(data, headers)
    ranges = [range(64 + 56 * len(headers))]
    for start, size in table_starts(memory, headers):
        for h in memory.segments:
            if h.vaddr <= start < h.vaddr + h.filesz:
                at = h.offset + start - h.vaddr
                ranges.append(range(at, min(at + size, len(data))))
    return ranges


def table_starts(memory, headers):
    for h in headers:
        if h.kind == oracle.DYNAMIC:
            yield h.vaddr, h.filesz
    for tag, value in oracle.tags_of(memory, headers):
        if tag > 2 and value > 64:
            yield value, 192


def changed(data, ranges, chance):
    data = bytearray(data)
    for _ in range(chance.randint(1, 3)):
        at = chance.choice(chance.choice(ranges))
        width = chance.choice((1, 2, 4, 8))
        at -= at % width
        old = int.from_bytes(data[at : at + width], "little")
        new = chance.choice((chance.choice(NUMBERS), old + chance.choice((-8, -1, 1, 8, 24)), old ^ 1 << chance.randrange(8 * width)))
        data[at : at + width] = (new % (1 << 8 * width)).to_bytes(width, "little")[: len(data) - at]
    return bytes(data)


def told(folder, data):
    (folder / "o").write_bytes(data)
    return subprocess.run([PROGRAM, "dump", "o"], cwd=folder, capture_output=True, check=False).stdout.decode()


def main(count, seed, paths):
    chance = random.Random(seed)
    objects = [pathlib.Path(path).read_bytes() for path in paths]
    ranges = [places_of(data) for data in objects]
    ends, differ = Counter(), 0
    with tempfile.TemporaryDirectory() as folder:
        for number in range(count):
            which = chance.randrange(len(objects))
            data = changed(objects[which], ranges[which], chance)
            text = told(pathlib.Path(folder), data)
            ends[" ".join(text.split("\n")[-2].split()[1:5:3])] += 1
            if text != oracle.dump(data, "o"):
                differ += 1
                pathlib.Path("differs").mkdir(exist_ok=True)
                pathlib.Path(f"differs/{seed}-{number}").write_bytes(data)
    for end, times in sorted(ends.items()):
        print(end, times)
    print(f"{count} files, {differ} differ")


if __name__ == "__main__":
    main(int(sys.argv[1]), int(sys.argv[2]), sys.argv[3:])
