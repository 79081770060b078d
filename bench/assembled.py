#!/usr/bin/env python3
"""Assembles the objects of six programs, asks readelf of each whether it has something to complain of, times sources
of 1 MiB, and looks where the indexes of versions end.

    bench/assembled.py [LDSO]

LDSO is the built command, crates/ldso/out/ldso unless it is named. It needs riscv64-linux-gnu-readelf (Debian:
binutils-riscv64-linux-gnu).
"""

import subprocess
import sys
import tempfile
import time
from pathlib import Path

TOP = Path(__file__).resolve().parent.parent
EXIT = "li a7, 93\necall\n"

CHOICE = {
    "prog": ".kind prog\n.needed liba.so\n.needed libb.so\n_start: call f\n" + EXIT,
    "liba.so": ".soname liba.so\n.global f\nf: li a0, 1\nret\n",
    "libb.so": ".hash both\n.global f\nf: li a0, 2\nret\n",
}
VERSIONS = {
    "prog": ".kind prog\n.needed libv.so\n.need f@V1 libv.so\n_start: call f\n" + EXIT,
    "libv.so": ".soname libv.so\n.version V1\n.version V2\n.symver f1, f@V1\n.symver f2, f@@V2\nf1: li a0, 1\nret\nf2: li a0, 2\nret\n",
}
OPENING = {
    "prog": """.kind prog
.global h1
.init ctor
_start: la t0, p
        ld t0, 0(t0)
        jalr ra, 0(t0)
        li a7, 93
        ecall
h1:     la a0, n_libg
        li a1, 0x101
        call dlopen
        la t0, p
        ld t0, 0(t0)
        jalr ra, 0(t0)
        li a7, 93
        ecall
ctor:   addi sp, sp, -16
        sd ra, 0(sp)
        la a0, n_libo
        li a1, 1
        call dlopen
        la a1, n_go
        call dlsym
        la t0, p
        sd a0, 0(t0)
        ld ra, 0(sp)
        addi sp, sp, 16
        ret
.data
.align 8
p: .dword 0
n_libg: .asciz "libg.so"
n_libo: .asciz "libo.so"
n_go: .asciz "go"
""",
    "libo.so": ".needed libf.so\n.global go\ngo: tail f\n",
    "libf.so": ".global f\nf: li a0, 5\nret\n",
}
MEETING = {
    "prog": """.kind prog
.global h1
_start: la t0, a
        li t1, 1
        sd t1, 0(t0)
w:      ld t2, 8(t0)
        beqz t2, w
        li a0, 0
        li a7, 93
        ecall
h1:     la t0, a
        li t1, 1
        sd t1, 8(t0)
v:      ld t2, 0(t0)
        beqz t2, v
        li a0, 0
        li a7, 93
        ecall
.data
a: .dword 0
   .dword 0
""",
}
STORAGE = {
    "prog": """.kind exec
.needed libt.so
.weak missing
_start: la.tls.gd a0, v
        call __tls_get_addr
        lga a1, missing
        lga a2, d
        li a0, 0
        li a7, 93
        ecall
.rodata
text: .asciz "text"
.relro
.align 8
r: .dword text
.data
d: .dword r+8
.bss
.copy c, 16
.tbss
.align 16
own: .zero 32
""",
    "libt.so": ".relr\n.global v\n.global c\n.tdata\n.dword 1\n.dword 2\nv: .dword 9\n.data\nc: .dword c\n.dword c\n",
}


def realistic():
    """A program that calls the forty functions of four libraries."""
    names = {k: [f"f{k}_{i}" for i in range(10)] for k in range(1, 5)}
    calls = "".join(f"call {name}\nadd s0, s0, a0\n" for k in names for name in names[k])
    needed = "".join(f".needed libm{k}.so\n" for k in names)
    files = {"real": f".kind prog\n{needed}_start: li s0, 0\n{calls}mv a0, s0\n{EXIT}"}
    for k, functions in names.items():
        head = f".soname libm{k}.so\n" + (".needed libm4.so\n" if k == 3 else "") + (".version V1\n" if k == 1 else "")
        export = "".join(f".symver {n}, {n}@@V1\n" if k == 1 else f".global {n}\n" for n in functions)
        first = "la.tls.ie t0, count\nadd t0, t0, tp\nld t1, 0(t0)\naddi t1, t1, 1\nsd t1, 0(t0)\n" if k == 2 else ""
        code = "".join(f"{n}: {first if i == 0 else ''}li a0, 1\nret\n" for i, n in enumerate(functions))
        data = ".tdata\n.align 8\ncount: .dword 0\n.text\n" if k == 2 else ""
        start = f".init ctor\n.rodata\nc: .asciz \"{k}\"\n.text\nctor: li a0, 1\nla a1, c\nli a2, 1\nli a7, 64\necall\nret\n" if k > 2 else ""
        files[f"libm{k}.so"] = head + export + data + start + code
    return files


def largest():
    """A source of almost 1 MiB: labels, exports, calls by slots, addresses and data."""
    lines, size, k = [], 0, 0
    while True:
        more = [
            f".global f{k}",
            f"f{k}: call g{k % 4096}",
            f"lga a0, h{k % 2048}",
            f"la a1, f{k}",
            "addi a0, a0, 1",
            f"beqz a0, f{k}",
            ".data",
            f".dword f{k}+8",
            ".text",
        ]
        size += sum(len(line) + 1 for line in more)
        if size > 1 << 20:
            return "\n".join(lines) + "\n"
        lines += more
        k += 1


def one_copy():
    """A source of almost 1 MiB: a copy with a version of 480,000 letters, again and again."""
    head = f".kind prog\n.need c@{'v' * 480_000} f\n.bss\n"
    line = ".copy c,8\n"
    return head + line * (((1 << 20) - len(head)) // len(line))


def run_asm(ldso, folder, source):
    """How the command ended, and the seconds that it took."""
    (folder / "source").write_text(source)
    begin = time.perf_counter()
    run = subprocess.run([ldso, "asm", "source"], cwd=folder, stdout=subprocess.PIPE)
    return run, time.perf_counter() - begin


def assemble(ldso, folder, name, source):
    """The object's path, and the seconds that it took."""
    run, seconds = run_asm(ldso, folder, source)
    if run.returncode != 0:
        sys.exit(f"{name}: {run.stdout.decode(errors='replace')}")
    (folder / name).write_bytes(run.stdout)
    return folder / name, seconds


def complaints(path):
    """What readelf says of an object beside its tables."""
    run = subprocess.run(["riscv64-linux-gnu-readelf", "-aW", path], capture_output=True, text=True)
    lines = (run.stdout + run.stderr).splitlines()
    return [line for line in lines if "arning" in line or "rror:" in line or run.returncode != 0]


def misplaced(ldso, folder, line):
    """What is wrong where lines name versions, each its own: indexes go from 2 to 32,767, so the line with that number is refused."""
    most = 32766
    fits, _ = run_asm(ldso, folder, "".join(line.format(k) for k in range(most)))
    past, _ = run_asm(ldso, folder, "".join(line.format(k) for k in range(most + 1)))
    wanted = f"end 119 asm {most + 1} out-of-range\n".encode()
    return [] if fits.returncode == 0 and (past.returncode, past.stdout) == (119, wanted) else [f"{line!r} ends elsewhere"]


def main():
    ldso = Path(sys.argv[1] if len(sys.argv) > 1 else TOP / "crates/ldso/out/ldso").resolve()
    sets = {"choice": CHOICE, "versions": VERSIONS, "opening": OPENING, "meeting": MEETING, "storage": STORAGE, "realistic": realistic()}
    bad = 0
    with tempfile.TemporaryDirectory() as name:
        folder = Path(name)
        for title, files in sets.items():
            for file, source in files.items():
                path, _ = assemble(ldso, folder, file, source)
                said = complaints(path)
                bad += bool(said)
                print(f"{title}/{file}: {path.stat().st_size} bytes, " + ("; ".join(said) or "no complaint"))
        source = largest()
        path, seconds = assemble(ldso, folder, "largest", source)
        print(f"a source of {len(source)} bytes: {seconds:.2f} s, {path.stat().st_size} bytes")
        run, again = run_asm(ldso, folder, one_copy())
        bad += run.stdout != b"end 119 asm 5 double-label\n"
        print(f"a copy with a long version, again and again: {again:.2f} s, {run.stdout.decode().strip()}")
        for line in (".version v{}\n", ".need f{0}@v{0} a\n"):
            said = misplaced(ldso, folder, line)
            bad += bool(said)
            print("indexes of versions: " + ("; ".join(said) or f"{line.split()[0]} ends at 32,767"))
    sys.exit(1 if bad or max(seconds, again) > 2 else 0)


if __name__ == "__main__":
    main()
