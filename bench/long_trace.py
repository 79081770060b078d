"""How long `ldso check` judges a trace of 100,000 grants: a library of 2,000 slots is opened, called and closed fifty times, under
`turns` and under `run`, and each journal is judged. A row for each, with seconds of processor time of the run and of the judgement:

    python3 bench/long_trace.py [ROUNDS]

Rounds are 50 if not said; with more than some 60 the trace is longer than 8 MiB, and so refused. The program is that of LDSO, or
crates/ldso/out/ldso."""

import os
import resource
import subprocess
import sys
import tempfile
from pathlib import Path

SLOTS = 2000

PROGRAM = """.kind prog
_start: li s1, {rounds}
again: la a0, n_l
li a1, 1
call dlopen
mv s0, a0
la a1, n_go
call dlsym
jalr ra, 0(a0)
mv a0, s0
call dlclose
addi s1, s1, -1
bnez s1, again
li a0, 0
li a7, 93
ecall
.data
.align 8
n_l: .asciz "libl.so"
.align 8
n_go: .asciz "go"
"""


def defining():
    return "".join(f".global f{number}\nf{number}: ret\n" for number in range(SLOTS))


def calling():
    calls = "".join(f"call f{number}\n" for number in range(SLOTS))
    return f".needed libf.so\n.global go\ngo: addi sp, sp, -16\nsd ra, 0(sp)\n{calls}ld ra, 0(sp)\naddi sp, sp, 16\nret\n"


def timed(words, folder):
    """Returns what a command wrote, and its seconds of processor time."""
    before = resource.getrusage(resource.RUSAGE_CHILDREN)
    ran = subprocess.run(words, cwd=folder, stdout=subprocess.PIPE, check=False)
    after = resource.getrusage(resource.RUSAGE_CHILDREN)
    return ran.stdout, after.ru_utime + after.ru_stime - before.ru_utime - before.ru_stime


def main():
    rounds = int(sys.argv[1]) if len(sys.argv) > 1 else 50
    ldso = os.path.abspath(os.environ.get("LDSO", Path(__file__).parent.parent / "crates/ldso/out/ldso"))
    with tempfile.TemporaryDirectory() as folder:
        os.mkdir(f"{folder}/lib")
        sources = {"lib/libf.so": defining(), "lib/libl.so": calling(), "prog": PROGRAM.format(rounds=rounds)}
        for name, source in sources.items():
            Path(f"{folder}/source").write_text(source)
            Path(f"{folder}/{name}").write_bytes(timed([ldso, "asm", "source"], folder)[0])
        print("| journal of | grants | the run, s | judged | s |\n|---|---|---|---|---|")
        options = ["--lib", "lib", "--fuel", "100000000"]
        for verb, words in (("turns", ["turns", *options, "rr", "prog"]), ("run", ["run", "--trace", *options, "prog"])):
            text, seconds = timed([ldso, *words], folder)
            Path(f"{folder}/trace").write_bytes(text)
            said, judging = timed([ldso, "check", "--lib", "lib", "trace"], folder)
            print(f"| `{verb}` | {text.count(b'grant g=')} | {seconds:.2f} | {said.decode().strip()} | {judging:.2f} |")


main()
