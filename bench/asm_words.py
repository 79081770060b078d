#!/usr/bin/env python3
"""Writes what GNU as makes of each instruction of RV64IMA, as lines for the program test_values.

    bench/asm_words.py > crates/test_values/data/words.txt

It needs riscv64-linux-gnu-as and riscv64-linux-gnu-objcopy (Debian: binutils-riscv64-linux-gnu). Of a
branch and a jump the line names a label and how far it is away; GNU as is given the distance itself.
"""

import struct
import subprocess
import tempfile
from pathlib import Path

LOADS = "lb lh lw ld lbu lhu lwu".split()
STORES = "sb sh sw sd".split()
BRANCHES = "beq bne blt bge bltu bgeu".split()
NUMBERS = "addi slti sltiu xori ori andi addiw".split()
SHIFTS = {"slli": 63, "srli": 63, "srai": 63, "slliw": 31, "srliw": 31, "sraiw": 31}
REGISTERS = (
    "add sll slt sltu xor srl or and sub sra mul mulh mulhsu mulhu div divu rem remu "
    "addw sllw srlw subw sraw mulw divw divuw remw remuw"
).split()
ATOMICS = "amoadd amoswap amoxor amoor amoand amomin amomax amominu amomaxu".split()
ORDERS = ["", ".aq", ".rl", ".aqrl"]


def rows():
    """The distance, the line, and what GNU as is given where that differs."""
    plain = ["ecall", "ebreak", "nop", "ret", "mv s3, t6", "jr t2", "fence", "fence rw, w", "fence iorw, r"]
    plain += ["lui t0, 0x80000", "lui a0, 1", "auipc t6, 0xfffff", "auipc gp, 0"]
    plain += ["li a0, -2048", "li a1, 2047", "li s11, 0"]
    plain += ["li a0, 2048", "li a1, 0x7fffffff", "li a3, 0x12345678", "li a4, -2049"]
    plain += [f"{op} a0, {n}(s1)" for op in LOADS for n in (-2048, 2047)]
    plain += [f"{op} t3, {n}(sp)" for op in STORES for n in (-2048, 2047, 33)]
    plain += [f"{op} x31, x1, {n}" for op in NUMBERS for n in (-2048, 2047)]
    plain += [f"{op} a3, a4, {n}" for op, greatest in SHIFTS.items() for n in (0, greatest)]
    plain += [f"{op} a0, s11, t6" for op in REGISTERS]
    plain += [f"{op}.{w}{o} a0, a1, (a2)" for op in ATOMICS + ["sc"] for w in "wd" for o in ORDERS]
    plain += [f"lr.{w}{o} a0, (a2)" for w in "wd" for o in ORDERS]
    plain += ["jalr ra, t1, -2048", "jalr zero, 2047(t1)", "jalr a0, a1"]
    for line in plain:
        yield 0, line, line
    for op in BRANCHES:
        for far in (-4096, 4094, 16):
            yield far, f"{op} a0, t6, there", f"{op} a0, t6, .{far:+}"
    for op in ("beqz", "bnez"):
        yield -8, f"{op} s0, there", f"{op} s0, .-8"
    for far in (-1048576, 1048574, 8):
        yield far, "j there", f"j .{far:+}"
        yield far, "jal t0, there", f"jal t0, .{far:+}"


def words_of(lines):
    """The words of each line, by the addresses of labels between them."""
    with tempfile.TemporaryDirectory() as folder:
        source, made, code = (Path(folder) / name for name in ("a.s", "a.o", "a.bin"))
        marked = "".join(f"{line}\nebreak\nebreak\nebreak\n" for line in lines)
        source.write_text(".option norelax\n" + marked)
        subprocess.run(["riscv64-linux-gnu-as", "-march=rv64ima", "-o", made, source], check=True)
        subprocess.run(["riscv64-linux-gnu-objcopy", "-O", "binary", "-j", ".text", made, code], check=True)
        text = code.read_bytes()
    found, at = [], 0
    all_words = [word for (word,) in struct.iter_unpack("<I", text)]
    for _ in lines:
        end = at + 1
        while all_words[end:end + 3] != [0x00100073] * 3:
            end += 1
        found.append(all_words[at:end])
        at = end + 3
    return found


def main():
    version = subprocess.run(["riscv64-linux-gnu-as", "--version"], capture_output=True, text=True, check=True)
    print("# The words of each instruction of RV64IMA, as GNU as makes them for -march=rv64ima (bench/asm_words.py).")
    print(f"# {version.stdout.splitlines()[0]}")
    print()
    table = list(rows())
    for (far, line, _), words in zip(table, words_of([given for _, _, given in table])):
        print(f"words {far} {line} = {' '.join(f'{word:#010x}' for word in words)}")


if __name__ == "__main__":
    main()
