"""Runs each example of threads.txt many times while all processors have other work, and judges each journal twice:

    python3 bench/many_runs.py [COUNT] [WORD]

COUNT is 200 if not said; with WORD only the examples whose titles have it. Each time the example's own words have to give
its text and its status. Then the journal of a run of these words with `--trace` has to end as the example does, to be
legal and whole for `ldso check`, with as many events as it has lines, and to be so for bench/history.py. A row for each
example: runs, how many of their journals differ, the most seconds that one took, and how many of them were wrong. What is
wrong is told, and its journal kept in a temporary folder. The program is that of LDSO, or crates/ldso/out/ldso."""

import contextlib
import os
import shlex
import subprocess
import sys
import tempfile
import time
from pathlib import Path

import examples
import history

SECONDS = 120
BUSY = "while True: sum(range(10000))"


@contextlib.contextmanager
def other_work():
    """Keeps each processor busy meanwhile."""
    busy = [subprocess.Popen([sys.executable, "-c", BUSY]) for _ in range(os.cpu_count() or 1)]
    try:
        yield
    finally:
        for process in busy:
            process.kill()
            process.wait()


class Runs:
    """One example's runs, in a folder that has its files."""

    def __init__(self, ldso, example, root):
        self.ldso, self.example, self.root = str(ldso), example, root
        self.words = shlex.split(example.words)
        self.place = examples.lay_out(root, example.files)
        self.journals, self.most = set(), 0.0

    def run(self, words):
        """The status, None after too long a time, and the lines."""
        begun = time.monotonic()
        try:
            done = subprocess.run([self.ldso, *words], cwd=self.place, stdout=subprocess.PIPE, timeout=SECONDS, check=False)
        except subprocess.TimeoutExpired:
            return None, []
        self.most = max(self.most, time.monotonic() - begun)
        return done.returncode, done.stdout.decode(errors="replace").splitlines()

    def complaint(self):
        """What is wrong with a run and with the journal of another one, or None."""
        status, lines = self.run(self.words)
        if status != self.example.ends_with() or lines != self.example.lines:
            return f"status {status}: {lines[-3:]}"
        words = shlex.split(examples.traced(self.example.words))
        status, lines = self.run(words)
        if status != self.example.ends_with() or lines[-1:] != self.example.lines[-1:]:
            return f"traced, status {status}: {lines[-3:]}"
        self.journals.add("\n".join(lines))
        return self.judged(words, lines)

    def judged(self, words, lines):
        """What either judge says against a journal, or None."""
        trace = Path(self.place, "the-trace")
        trace.write_text("".join(line + "\n" for line in lines))
        folders = [word for at, word in enumerate(words) if "--lib" in words[max(at - 1, 0) : at + 1]]
        _, said = self.run(["check", *folders, trace.name])
        why = history.judge(shlex.join(words), history.given(self.example)[1], [], lines)
        if said == [f"end 0 legal {len(lines) - 1}"] and why is None:
            return None
        kept = Path(tempfile.mkdtemp(prefix="journal-"), "trace")
        kept.write_bytes(trace.read_bytes())
        return f"check: {said}; history: {why}; {kept}"


def main(words):
    ldso = examples.program().resolve()
    count = next((int(word) for word in words if word.isdigit()), 200)
    titles = [word for word in words if not word.isdigit()]
    failed = False
    print("| example | runs | journals | most seconds | wrong |\n|---|---|---|---|---|")
    with other_work(), tempfile.TemporaryDirectory() as root:
        for number, example in enumerate(examples.examples(str(ldso), ["threads.txt"])):
            if example.fails or not all(word in example.title for word in titles):
                continue
            runs = Runs(ldso, example, Path(root, str(number)))
            wrong = [why for why in (runs.complaint() for _ in range(count)) if why]
            failed = failed or bool(wrong)
            print(f"| {example.title} | {count} | {len(runs.journals)} | {runs.most:.2f} | {len(wrong)} |", flush=True)
            for why in wrong[:5]:
                print(f"    {why}", flush=True)
    return failed


if __name__ == "__main__":
    sys.exit(main(sys.argv[1:]))
