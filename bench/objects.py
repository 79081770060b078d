#!/usr/bin/env python3
"""Writes large objects for bench/reader.sh, field by field: good ones of about so many MiB, and hostile ones.

usage: objects.py FOLDER
"""
import functools
import struct
import sys

PAGE = 4096
LONG = 4095


@functools.lru_cache(maxsize=None)
def gnu_hash(name):
    h = 5381
    for c in name:
        h = (h * 33 + c) & 0xFFFFFFFF
    return h


def align(data, to):
    data.extend(b"\0" * (-len(data) % to))
    return len(data)


def hash_table(names, first, one_chain):
    """A GNU hash table of the symbols from `first` on, which stand in the order of their buckets."""
    buckets = max(1, len(names) // 4)
    bloom_size = 1
    while bloom_size * 32 < len(names):
        bloom_size *= 2
    bloom = [0] * bloom_size
    heads = [0] * buckets
    chain = []
    for i, name in enumerate(names):
        h = gnu_hash(name)
        bloom[h // 64 % bloom_size] |= 1 << h % 64 | 1 << (h >> 6) % 64
        b = h % buckets
        last = i + 1 == len(names) or gnu_hash(names[i + 1]) % buckets != b
        if one_chain:
            last = i + 1 == len(names)
        chain.append(h & ~1 | last)
        if heads[b] == 0:
            heads[b] = first if one_chain else first + i
    if one_chain:
        heads = [first] * buckets
    out = bytearray(struct.pack("<4I", buckets, first, bloom_size, 6))
    for word in bloom:
        out += struct.pack("<Q", word)
    for word in heads + chain:
        out += struct.pack("<I", word)
    return out


def build(count, places, one_chain=False, versions=0, own_versions=False, packed=0, padding=0, tails=0, long_versions=0):
    """An object with `count` exported functions and a relocation at each of `places` of its data, and
    with so many version records, each of which shares the tail of one chain of versions; or with
    another version for each function; or with so many packed words, which name every place. With `tails`
    the functions have that many names, the tails of one of 4,095 bytes; with `long_versions` the object
    needs so many versions of such a name, of a file of such a name."""
    long_name = b"a" * LONG
    tail_names = [long_name[i:] for i in range(tails)]
    names = [tail_names[i % tails] if tails else b"function_%06d_%s" % (i, b"x" * padding) for i in range(count)]
    buckets = max(1, count // 4)
    names.sort(key=lambda name: gnu_hash(name) % buckets)
    strings = bytearray(b"\0" + (long_name + b"\0" if tails or long_versions else b""))
    symbols = bytearray(24)
    code = 0x2000
    for name in names:
        symbols += struct.pack("<IBBHQQ", 1 + LONG - len(name) if tails else len(strings), 0x12, 0, 1, code, 4)
        if not tails:
            strings += name + b"\0"
    file_name = len(strings)
    strings += b"liba.so\0V1\0"
    data = bytearray(64 + 56 * 4)
    tags = []

    def table(address_tag, content, to=8):
        at = align(data, to)
        data.extend(content)
        tags.append((address_tag, at))
        return at

    table(0x6FFFFEF5, hash_table(names, 1, one_chain))
    table(5, strings)
    tags.append((10, len(strings)))
    table(6, symbols)
    tags.append((11, 24))
    if versions:
        needs = bytearray()
        for i in range(versions):
            last = i + 1 == versions
            needs += struct.pack("<HHIII", 1, versions - i, file_name, 16 * (versions - i), 0 if last else 16)
        for i in range(versions):
            last = i + 1 == versions
            needs += struct.pack("<IHHII", 0, 0, 2 + i % 30000, file_name + 8, 0 if last else 16)
        table(0x6FFFFFFE, needs)
        tags.append((0x6FFFFFFF, versions))
    if own_versions:
        needs = bytearray(struct.pack("<HHIII", 1, count, file_name, 16, 0))
        for i in range(count):
            needs += struct.pack("<IHHII", 0, 0, 2 + i, file_name + 8, 0 if i + 1 == count else 16)
        table(0x6FFFFFFE, needs)
        tags.append((0x6FFFFFFF, 1))
        table(0x6FFFFFF0, b"".join(struct.pack("<H", index) for index in [0, *range(2, 2 + count)]))
    if long_versions:
        needs = bytearray(struct.pack("<HHIII", 1, long_versions, 1, 16, 0))
        for i in range(long_versions):
            needs += struct.pack("<IHHII", 0, 0, 2 + i % 30000, 1, 0 if i + 1 == long_versions else 16)
        table(0x6FFFFFFE, needs)
        tags.append((0x6FFFFFFF, 1))
    if packed:
        packed_at = table(36, b"\xff" * 8 * packed)
        tags += [(35, 8 * packed), (37, 8)]
    relocs_at = align(data, 8)
    if places:
        tags += [(7, relocs_at), (8, 24 * len(places)), (9, 24)]
    base = (relocs_at + 24 * len(places) + PAGE - 1) // PAGE * PAGE
    # The data begins behind the dynamic table, and takes no bytes of the file.
    start = base + 16 * (len(tags) + 1)
    for k, place in enumerate(places):
        data += struct.pack("<QQq", start + place, (1 + k % count) << 32 | 2, 0)
    if packed:
        struct.pack_into("<Q", data, packed_at, start)
    align(data, PAGE)
    dynamic = bytearray()
    for tag, value in tags:
        dynamic += struct.pack("<QQ", tag, value)
    dynamic += struct.pack("<QQ", 0, 0)
    top = max(places, default=0) + 8 + 504 * packed
    data.extend(dynamic)
    header = struct.pack("<16sHHIQQQIHHHHHH", b"\x7fELF\x02\x01\x01" + b"\0" * 9, 3, 243, 1, 0, 64, 0, 0, 64, 56, 3, 0, 0, 0)
    data[0:64] = header
    data[64:120] = struct.pack("<IIQQQQQQ", 1, 5, 0, 0, 0, base, base, PAGE)
    data[120:176] = struct.pack("<IIQQQQQQ", 1, 6, base, base, 0, len(dynamic), len(dynamic) + top, PAGE)
    data[176:232] = struct.pack("<IIQQQQQQ", 2, 6, base, base, 0, len(dynamic), len(dynamic), 8)
    return bytes(data)


def main(folder):
    def write(name, content):
        with open(f"{folder}/{name}.so", "wb") as f:
            f.write(content)

    for mib in (1, 2, 4, 8):
        count = 4000 * mib
        size = 180 if mib < 8 else 170
        write(f"good-{mib}", build(count, [8 * k for k in range(count)], padding=size))
    count = 60000
    write("one-chain", build(count, [8 * k for k in range(count)], one_chain=True))
    write("one-place", build(1, [0] * 330000))
    write("scattered", build(1, [8 * (k * 7919 % 330000) for k in range(330000)]))
    write("late-clash", build(1, [8 * (k * 7919 % 330000) for k in range(329999)] + [0]))
    write("shared-tails", build(10, [], versions=250))
    write("own-versions", build(32000, [], own_versions=True))
    write("packed", build(1, [], packed=16000))
    write("packed-all", build(1, [], packed=1000000))
    write("one-long-name", build(280000, [], tails=1))
    write("two-long-names", build(280000, [], tails=2))
    write("many-long-names", build(280000, [], tails=4000))
    write("long-versions", build(1, [], long_versions=32768))


if __name__ == "__main__":
    main(sys.argv[1])
