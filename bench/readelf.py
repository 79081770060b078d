#!/usr/bin/env python3
"""Compares `ldso dump` with `riscv64-linux-gnu-readelf`: needed names, the soname, symbols with their
versions, and relocations. bench/readelf.sh calls it.

usage: readelf.py DUMP OBJECT, where DUMP is the file that `ldso dump OBJECT` wrote
"""
import re
import subprocess
import sys


def readelf(*words):
    return subprocess.run(["riscv64-linux-gnu-readelf", "-W", *words], capture_output=True, text=True).stdout


def from_readelf(path):
    dynamic = readelf("-d", path)
    lines = [f"needed {name}" for name in re.findall(r"\(NEEDED\).*\[(.*)\]", dynamic)]
    soname = re.findall(r"\(SONAME\).*\[(.*)\]", dynamic)
    lines.append("soname " + (soname[0] if soname else "-"))
    for row in readelf("--dyn-syms", path).splitlines():
        found = re.match(r"\s*(\d+): ([0-9a-f]+)\s+\S+ (\S+)\s+\S+\s+\S+\s+(?:\[.*\]\s+)?(\S+)\s*(\S*)", row)
        if not found or found[1] == "0":
            continue
        name, _, version = found[5].partition("@")
        version = version.lstrip("@") or "-"
        if found[3] == "SECTION":
            # readelf shows the section's name, and the symbol has none.
            name = ""
        elif found[4] == "ABS" and found[3] == "OBJECT" and version == "-":
            # GNU ld defines a symbol for each version, and readelf leaves its version out.
            version = name
        defined = "undef" if found[4] == "UND" else "def"
        lines.append(f"symbol {found[1]} {name or '%'} {version} {int(found[2], 16):#x} {defined}")
    for row in readelf("-r", "--use-dynamic", path).splitlines():
        found = re.match(r"([0-9a-f]{16})\s+([0-9a-f]{16})\s+R_\S+(.*)", row)
        if not found:
            continue
        info = int(found[2], 16)
        tail = re.search(r"([+-]) ([0-9a-f]+)$", found[3])
        if tail:
            addend = int(tail[2], 16) * (-1 if tail[1] == "-" else 1)
        else:
            addend = int(found[3].split()[-1], 16) if found[3].split() else 0
        lines.append(f"reloc {info & 0xffffffff} {int(found[1], 16):#x} {info >> 32} {addend}")
    return lines


def from_dump(path):
    lines = []
    for row in open(path, errors="surrogateescape").read().splitlines():
        words = row.split(" ")
        if words[0] == "object":
            lines.append("soname " + words[2].removeprefix("soname="))
        elif words[0] in ("needed", "symbol"):
            lines.append(row)
        elif words[0] == "reloc":
            lines.append("reloc " + " ".join(words[2:]))
        elif words[0] == "slot":
            lines.append(f"reloc 5 {words[2]} {words[3]} 0")
    return lines


def main(dump, path):
    ours, theirs = sorted(from_dump(dump)), sorted(set(from_readelf(path)))
    for line in sorted(set(ours) ^ set(theirs)):
        print("only in " + ("dump:    " if line in ours else "readelf: ") + line)
    print(f"{path}: {len(ours)} lines, {'agree' if set(ours) == set(theirs) else 'DIFFER'}")


main(*sys.argv[1:])
