#!/usr/bin/env python3
"""Times `ldso bind` where versions are many: a program with 32,000 slots, each of a version of its own, against a library
that defines as many; 58,000 slots of the last of 32,000 versions; and 300 libraries that need a hub, with 1 name or with
200,000 (of itself). Needs clang and lld for RISC-V.

usage: versions.py LDSO
"""
import os
import subprocess
import sys
import tempfile
import time

from one_name import build  # the hub: a library without symbols whose needed names are of itself

VERSIONS = 32000
SLOTS = 58000
LIBRARIES = 300
NAMES = 200000


def link(name, source, script, *libraries):
    with open(name + ".s", "w") as f:
        f.write(source)
    with open(name + ".map", "w") as f:
        f.write(script)
    subprocess.run(["clang", "--target=riscv64-linux-gnu", "-march=rv64ima", "-mabi=lp64", "-mno-relax", "-c", name + ".s", "-o", name + ".o"], check=True)
    script_args = ["--version-script", name + ".map"] if script else []
    subprocess.run(["ld.lld", "-shared", "--allow-shlib-undefined", "--unresolved-symbols=ignore-all", "-soname", os.path.basename(name), *script_args, "-o", name, name + ".o", *libraries], check=True)


def functions(names):
    return "".join(f".globl {n}\n.type {n}, @function\n{n}:\n" for n in names) + "ret\n"


def bind(ldso, label):
    begin = time.time()
    done = subprocess.run([ldso, "bind", "--lib", "lib", "prog"], capture_output=True)
    took = time.time() - begin
    print(f"{label}: {took:.2f} s, {done.stdout.splitlines()[-1].decode()}")


def main(ldso):
    with tempfile.TemporaryDirectory() as folder:
        os.chdir(folder)
        os.mkdir("lib")
        each = [f"f{k}" for k in range(VERSIONS)]
        link("lib/liba.so", functions(each), "".join(f"V{k} {{ f{k}; }};\n" for k in range(VERSIONS)))
        link("prog", "".join(f"tail {n}@plt\n" for n in each), "", "lib/liba.so")
        bind(ldso, f"{VERSIONS} slots of as many versions")
        many = [f"g{k}" for k in range(SLOTS)]
        last = "".join(f"V{k} {{ f{k}; }};\n" for k in range(VERSIONS)) + "W { " + " ".join(f"{n};" for n in many) + " };\n"
        link("lib/liba.so", functions(each + many), last)
        link("prog", "".join(f"tail {n}@plt\n" for n in many), "", "lib/liba.so")
        bind(ldso, f"{SLOTS} slots of one version of {VERSIONS + 1}")
        os.remove("lib/liba.so")
        for names in (1, NAMES):
            empty = (4, (1).to_bytes(4, "little") + (1).to_bytes(4, "little") + bytes(8))
            with open("lib/liba.so", "wb") as f:
                f.write(build(3, empty, [], names, [], 0))
            libraries = []
            for k in range(LIBRARIES):
                libraries.append(f"lib/l{k}.so")
                link(libraries[-1], "ret\n", "", "lib/liba.so")
            link("prog", "ret\n", "", *libraries)
            bind(ldso, f"{LIBRARIES} libraries and a hub with {names} names")


if __name__ == "__main__":
    main(os.path.abspath(sys.argv[1]))
