#!/usr/bin/env python3
"""Writes a library of 8 MiB with 200,000 symbols of one name and a program with 1,000 slots against it, field by field,
and times `ldso bind` of the two: it is to end within 2 seconds. The slots name one symbol of the program, or 1,000
symbols of that name: in their order, from the last to the first, with a symbol of another name between each two, global and
weak in turns, or of two versions in turns, which the library's last two symbols have. The library has a GNU hash table,
whose one chain has every symbol, or a System V table.

usage: one_name.py LDSO
"""
import os
import struct
import subprocess
import sys
import tempfile
import time

from objects import PAGE, align, gnu_hash

SYMBOLS = 200000
SLOTS = 1000
SIZE = 8 << 20


def sysv_hash(name):
    h = 0
    for c in name:
        h = (h << 4) + c
        h = (h ^ (h & 0xF0000000) >> 24) & 0x0FFFFFFF
    return h


def gnu_table(first, count):
    """Every symbol in the chain of the one bucket; the filter has both bits of the hash."""
    h = gnu_hash(b"f")
    chain = [h & ~1] * (count - 1) + [h | 1]
    bloom = 1 << h % 64 | 1 << (h >> 6) % 64
    return struct.pack("<4IQI", 1, first, 1, 6, bloom, first) + struct.pack("<%dI" % count, *chain)


def sysv_table(count):
    """Every symbol in the chain of the one bucket, the last one first, so that the least comes last."""
    chain = [0] + [0] + list(range(1, count))
    return struct.pack("<3I", 1, count + 1, count) + struct.pack("<%dI" % (count + 1), *chain)


def defined_versions():
    """The library's own name at index 1, V1 at 2, V2 at 3 and V3 at 4."""
    content = b""
    for index, name, at in [(1, b"liba.so", 3), (2, b"V1", 11), (3, b"V2", 14), (4, b"V3", 17)]:
        content += struct.pack("<4H3I", 1, index == 1, index, 1, sysv_hash(name), 20, 28 if index < 4 else 0) + struct.pack("<2I", at, 0)
    return [(0x6FFFFFFC, content)], [(0x6FFFFFFD, 4)]


def needed_versions():
    """V1 at index 2 and V2 at 3, of liba.so."""
    content = struct.pack("<2H3I", 1, 2, 3, 16, 0)
    content += struct.pack("<I2H2I", sysv_hash(b"V1"), 0, 2, 11, 16) + struct.pack("<I2H2I", sysv_hash(b"V2"), 0, 3, 14, 0)
    return [(0x6FFFFFFE, content)], [(0x6FFFFFFF, 1)]


STRINGS = b"\0f\0liba.so\0V1\0V2\0V3\0"


def build(kind, hashes, symbols, needed, slots, size, indexes=None, versions=([], []), strings=STRINGS):
    """The indexes are those of the symbols' versions, from the first symbol behind the null symbol on. What is needed is
    named at 3 in the strings."""
    data = bytearray(64 + 56 * 4)
    tags = [(1, 3)] * needed
    table = b"".join([bytes(24)] + symbols)

    def place(tag, content, to=8):
        at = align(data, to)
        data.extend(content)
        tags.append((tag, at))
        return at

    place(*hashes)
    place(5, strings)
    tags.append((10, len(strings)))
    place(6, table)
    tags.append((11, 24))
    if indexes:
        place(0x6FFFFFF0, struct.pack("<%dH" % (len(indexes) + 1), 0, *indexes))
    for tag, content in versions[0]:
        place(tag, content)
    tags += versions[1]
    relocs_at = align(data, 8)
    if slots:
        tags += [(23, relocs_at), (2, 24 * len(slots)), (20, 7), (3, 0)]
    if len(data) + 24 * len(slots) + 2 * PAGE < size:
        data.extend(bytes(size - len(data) - 24 * len(slots) - 2 * PAGE))
        relocs_at = align(data, 8)
    base = (relocs_at + 24 * len(slots) + PAGE - 1) // PAGE * PAGE
    start = base + 16 * (len(tags) + 1)
    tags = [(tag, start if tag == 3 else relocs_at if tag == 23 else value) for tag, value in tags]
    for k, symbol in enumerate(slots):
        data += struct.pack("<QQq", start + 16 + 8 * k, symbol << 32 | 5, 0)
    align(data, PAGE)
    dynamic = b"".join(struct.pack("<QQ", tag, value) for tag, value in tags) + bytes(16)
    data.extend(dynamic)
    written = len(dynamic) + 16 + 8 * len(slots)
    data.extend(bytes(written - len(dynamic)))
    data[0:64] = struct.pack("<16sHHIQQQIHHHHHH", b"\x7fELF\x02\x01\x01" + bytes(9), kind, 243, 1, 0, 64, 0, 0, 64, 56, 3, 0, 0, 0)
    data[64:120] = struct.pack("<IIQQQQQQ", 1, 5, 0, 0, 0, base, base, PAGE)
    data[120:176] = struct.pack("<IIQQQQQQ", 1, 6, base, base, 0, written, written, PAGE)
    data[176:232] = struct.pack("<IIQQQQQQ", 2, 6, base, base, 0, len(dynamic), len(dynamic), 8)
    return bytes(data)


def main(ldso):
    defined = struct.pack("<IBBHQQ", 1, 0x12, 0, 1, 0x1000, 4)
    undefined = struct.pack("<IBBHQQ", 1, 0x12, 0, 0, 0, 0)
    libraries = {"GNU": (0x6FFFFEF5, gnu_table(1, SYMBOLS)), "System V": (4, sysv_table(SYMBOLS))}
    other = struct.pack("<IBBHQQ", 3, 0x22, 0, 0, 0, 0)
    each = list(range(1, SLOTS + 1))
    weak = struct.pack("<IBBHQQ", 1, 0x22, 0, 0, 0, 0)
    last_two = [4] * (SYMBOLS - 2) + [2, 3]
    programs = {
        "one symbol": ([undefined], [1] * SLOTS, None),
        "as many symbols": ([undefined] * SLOTS, each, None),
        "as many symbols, the last first": ([undefined] * SLOTS, each[::-1], None),
        "as many symbols with others between": ([undefined, other] * SLOTS, [2 * k - 1 for k in each], None),
        "as many symbols, global and weak in turns": ([undefined, weak] * (SLOTS // 2), each, None),
        "as many symbols, of two versions in turns": ([undefined] * SLOTS, each, [2, 3] * (SLOTS // 2)),
    }
    with tempfile.TemporaryDirectory() as folder:
        os.chdir(folder)
        os.mkdir("lib")
        for table, hashes in libraries.items():
            for label, (symbols, slots, indexes) in programs.items():
                with open("lib/liba.so", "wb") as f:
                    of_library = (last_two, defined_versions()) if indexes else ()
                    f.write(build(3, hashes, [defined] * SYMBOLS, 0, [], SIZE, *of_library))
                count = len(symbols)
                empty = (4, struct.pack("<3I", 1, count + 1, 0) + bytes(4 * (count + 1)))
                with open("prog", "wb") as f:
                    of_program = (indexes, needed_versions()) if indexes else ()
                    f.write(build(3, empty, symbols, 1, slots, 0, *of_program))
                begin = time.time()
                done = subprocess.run([ldso, "bind", "--lib", "lib", "prog"], capture_output=True)
                took = time.time() - begin
                lines = done.stdout.split(b"\n")
                print(f"{table} table, {SLOTS} slots of {label}: {took:.2f} s, {lines[-2].decode()}, {sum(b'-> 2.' in l for l in lines)} to the library")


if __name__ == "__main__":
    main(os.path.abspath(sys.argv[1]))
