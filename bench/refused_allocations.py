"""Runs five examples under `ldso turns` and under `ldso run` with one allocation refused, the Nth, for each N that they make:

    nice python3 bench/refused_allocations.py [COMMAND] [EXAMPLE..]

A run has to end with status 123 or with that of the example, and may not take longer than a minute. Under `turns` its
text has to be a front of the example's, up to the first hart that ends for want of memory. Under `run --trace`, whose
harts come in any order, its last line has to be the example's, that of a hart that wanted memory, or that of one that
waited for such a hart up to its fuel (status 124), and its journal has to be legal and whole for bench/history.py; or
nothing is written. What doesn't hold is told, with its N. A small library,
which cc compiles and LD_PRELOAD puts before the C library's, refuses the allocation. The program is that of LDSO, or
crates/ldso/out/ldso."""

import os
import subprocess
import sys
import tempfile
from collections import Counter
from pathlib import Path

import examples
import history

SECONDS = 60
CHOSEN = {
    "first-match": {
        "turns": ("turns.txt", "the first definition in load order is called"),
        "run": ("threads.txt", "the first definition in load order is called on a thread"),
    },
    "race": {
        "turns": ("turns.txt", "two harts race for a slot"),
        "run": ("threads.txt", "two harts on threads race for a slot"),
    },
    "late-tls": {
        "turns": ("turns.txt", "a block goes with its library"),
        "run": ("threads.txt", "each hart on a thread has its own block of a library"),
    },
    "realistic": {
        "turns": ("assembled.txt", "three harts bind the forty slots, a turn each"),
        "run": ("assembled.txt", "forty slots are bound on threads"),
    },
    "cycle": {
        "turns": ("closing.txt", "two libraries that are bound to each other are closed together"),
        "run": ("threads.txt", "two libraries that are bound to each other are closed together on a thread"),
    },
}
COMMANDS = ["turns", "run"]
REFUSER = r"""
#define _GNU_SOURCE
#include <errno.h>
#include <fcntl.h>
#include <stdatomic.h>
#include <stddef.h>
#include <stdlib.h>
#include <sys/mman.h>
#include <sys/syscall.h>
#include <unistd.h>

extern void *__libc_malloc(size_t), *__libc_calloc(size_t, size_t), *__libc_realloc(void *, size_t);
extern void *__libc_memalign(size_t, size_t);
static atomic_ulong own, *made = &own;
static unsigned long refused;

/* How many there were is counted in a file, as eight bytes: so it is there however the program ends. */
static void count_in(const char *path)
{
    int file = open(path, O_RDWR | O_CREAT | O_TRUNC, 0600);
    if (file < 0 || ftruncate(file, sizeof *made))
        return;
    long place = syscall(SYS_mmap, NULL, sizeof *made, PROT_READ | PROT_WRITE, MAP_SHARED, file, 0);
    if (place != -1)
        made = (atomic_ulong *)place;
    close(file);
}

__attribute__((constructor)) static void begin(void)
{
    const char *word = getenv("REFUSED"), *path = getenv("COUNTED");
    refused = word ? strtoul(word, NULL, 10) : 0;
    if (path)
        count_in(path);
    atomic_store(made, 0);
}

static int is_refused(void)
{
    if (atomic_fetch_add(made, 1) + 1 != refused)
        return 0;
    errno = ENOMEM;
    return 1;
}

void *malloc(size_t size) { return is_refused() ? NULL : __libc_malloc(size); }
void *calloc(size_t count, size_t size) { return is_refused() ? NULL : __libc_calloc(count, size); }
void *realloc(void *old, size_t size) { return is_refused() ? NULL : __libc_realloc(old, size); }
void *memalign(size_t align, size_t size) { return is_refused() ? NULL : __libc_memalign(align, size); }
void *aligned_alloc(size_t align, size_t size) { return memalign(align, size); }

int posix_memalign(void **place, size_t align, size_t size)
{
    if (is_refused())
        return ENOMEM;
    *place = __libc_memalign(align, size);
    return *place ? 0 : ENOMEM;
}

void *mmap(void *at, size_t size, int may, int flags, int file, off_t offset)
{
    if (is_refused())
        return MAP_FAILED;
    return (void *)syscall(SYS_mmap, at, size, may, flags, file, offset);
}
"""


class Runs:
    """One example's runs."""

    def __init__(self, ldso, refuser, example, root):
        self.ldso, self.refuser, self.example = ldso, refuser, example
        # (a hart that waits for one that has ended spends all its fuel)
        self.words = examples.traced(example.words).replace("--fuel 50000000", "--fuel 5000000")
        self.count = Path(root, "count")
        self.place = examples.lay_out(root, example.files)

    def run(self, number):
        """The status and the text with one allocation refused; the status is None after too long a time."""
        added = {"LD_PRELOAD": str(self.refuser), "REFUSED": str(number), "COUNTED": str(self.count)}
        words = [str(self.ldso), *self.words.split()]
        try:
            done = subprocess.run(words, cwd=self.place, env={**os.environ, **added}, stdout=subprocess.PIPE,
                                  stderr=subprocess.PIPE, timeout=SECONDS)
        except subprocess.TimeoutExpired:
            return None, ""
        return done.returncode, done.stdout.decode(errors="replace")

    def made(self):
        return int.from_bytes(self.count.read_bytes(), "little")

    def complaint(self, status, text):
        """What is wrong with an answer, or None."""
        if status is None:
            return "hangs"
        if status not in (123, self.example.ends_with()) and not self.waited_in_vain(status, text):
            return f"status {status}"
        if self.words.startswith("run "):
            return self.complaint_of_threads(status, text)
        wanted = self.example.text()
        if status != 123:
            return None if text == wanted else f"status {status} with another text"
        lines = text.splitlines()
        harts = [n for n, line in enumerate(lines) if line.startswith("ended ") and line.endswith(" memory")]
        front = lines[: harts[0]] if harts else [line for line in lines if not line.startswith("end 123 ")]
        if front != wanted.splitlines()[: len(front)]:
            return "another text than a front of the right one"
        return None

    def waited_in_vain(self, status, text):
        """Whether the first hart waited for one that had ended for want of memory, up to its fuel."""
        return self.words.startswith("run ") and status == 124 and any(l.endswith(" memory") for l in text.splitlines())

    def complaint_of_threads(self, status, text):
        """What is wrong with a journal of harts on threads, or None."""
        if not text and status == 123:
            return None
        lines = text.splitlines()
        last = f"end {status} hart " if status in (123, 124) else self.example.lines[-1]
        why = history.judge(self.words, history.given(self.example)[1], [], lines)
        if why or not lines[-1].startswith(last):
            return f"status {status}, {lines[-1]}: {why}"
        return None


def tries(runs):
    """Refuses each allocation in turn; gives how many there are, what statuses there were, and what is wrong."""
    status, text = runs.run(0)
    wrong = [] if status == runs.example.ends_with() and not runs.complaint(status, text) else [f"0: status {status} unrefused"]
    count, seen = runs.made(), Counter()
    for number in range(1, count + 1):
        status, text = runs.run(number)
        seen[status] += 1
        complaint = runs.complaint(status, text)
        if complaint:
            wrong.append(f"{number}: {complaint}")
    return count, seen, wrong


def main(words):
    ldso, failed = examples.program().resolve(), False
    commands = [word for word in words if word in COMMANDS] or COMMANDS
    names = [word for word in words if word not in COMMANDS] or list(CHOSEN)
    with tempfile.TemporaryDirectory() as root:
        source, refuser = Path(root, "refuser.c"), Path(root, "refuser.so")
        source.write_text(REFUSER)
        subprocess.run(["cc", "-O2", "-shared", "-fPIC", "-o", refuser, source], check=True)
        for command, name in [(command, name) for command in commands for name in names]:
            file, title = CHOSEN[name][command]
            example = next(e for e in examples.examples(ldso, [file]) if e.title == title)
            count, seen, wrong = tries(Runs(ldso, refuser, example, Path(root, command, name)))
            statuses = ", ".join(f"{n} with status {s}" for s, n in sorted(seen.items(), key=str))
            print(f"{command}, {name}: {count} allocations; {statuses}; {len(wrong)} wrong", flush=True)
            for line in wrong:
                print(f"    {line}", flush=True)
            failed = failed or bool(wrong) or count == 0
    return failed


if __name__ == "__main__":
    sys.exit(main(sys.argv[1:]))
