"""The examples of crates/test_commands/data, read for scripts that run them or judge their texts. docs/TESTING.md says
how a file of examples is written."""

import os
import subprocess
import tempfile
from dataclasses import dataclass, field
from pathlib import Path

TOP = Path(__file__).resolve().parent.parent
DATA = TOP / "crates/test_commands/data"
WIDTHS = {".byte": 1, ".half": 2, ".word": 4, ".dword": 8}
DIRECTIVES = [*WIDTHS, ".ascii", ".asciz", ".zero", ".fill", "copy", "at", "size"]
# How deep in a temporary folder an example's files lie, so that a name with `..` still names something of it.
DEPTH = "a/b/c/d/e/f"


class Unclear(Exception):
    """A line that isn't understood."""


def program():
    """The built command: the one that LDSO names, or that of this repository."""
    return Path(os.environ.get("LDSO", TOP / "crates/ldso/out/ldso"))


def whole(word, names):
    return names[word] if word in names else int(word, 0)


class Bytes:
    """Bytes that lines lay out, each behind the one before."""

    def __init__(self):
        self.data, self.at = bytearray(), 0

    def put(self, piece):
        end = self.at + len(piece)
        if end > len(self.data):
            self.data.extend(bytes(end - len(self.data)))
        self.data[self.at : end] = piece
        self.at = end

    def lay(self, line, stocks, names):
        """Does what a line says: a text, or words, each with the directive before it."""
        if line.startswith("text "):
            self.put(line[5:].replace(" | ", "\n").encode() + b"\n")
            return
        directive, count = None, 0
        for word in line.split():
            if word in DIRECTIVES:
                directive = word
            elif directive == "copy":
                self.put(stocks[word])
            elif directive in (".ascii", ".asciz"):
                self.put(word.encode() + b"\0" * (directive == ".asciz"))
            elif directive == ".fill":
                directive, count = "filling", whole(word, names)
            elif directive:
                self.follow(directive, whole(word, names), count)
                directive = ".fill" if directive == "filling" else directive
            else:
                raise Unclear(word)

    def follow(self, directive, number, count):
        """Does what a directive says with a number."""
        if directive == "at":
            self.at = number
        elif directive == "size":
            self.data = self.data[:number] + bytes(max(0, number - len(self.data)))
        elif directive == ".zero":
            self.put(bytes(number))
        elif directive == "filling":
            self.put((number % 2**64).to_bytes(8, "little") * count)
        else:
            self.put((number % 256 ** WIDTHS[directive]).to_bytes(WIDTHS[directive], "little"))


@dataclass
class Example:
    """An example: its files, its command, and what that has to write."""

    source: str
    line: int
    title: str
    files: dict = field(default_factory=dict)
    words: str = ""
    lines: list = field(default_factory=list)
    status: int = None
    fails: list = field(default_factory=list)
    is_rows: bool = False

    def text(self):
        return "".join(line + "\n" for line in self.lines)

    def ends_with(self):
        """The status that it has to end with."""
        last = self.lines[-1].split() if self.lines else []
        return int(last[1]) if len(last) > 1 and last[0] == "end" else self.status


class Reader:
    """Reads one file of examples."""

    def __init__(self, path, assemble):
        self.path, self.assemble = path, assemble
        self.stocks, self.names, self.found = {}, {}, []
        self.growing, self.source, self.keep = Bytes(), [], None

    def end_source(self):
        if self.source:
            self.growing.put(self.assemble("\n".join(self.source) + "\n"))
            self.source = []
        if self.keep:
            self.keep(bytes(self.growing.data))

    def begin(self, keep, line):
        self.growing, self.keep = Bytes(), keep
        self.growing.lay(line, self.stocks, self.names)

    def read(self):
        for number, line in enumerate(self.path.read_text().splitlines(), 1):
            self.line(number, line.strip())
        self.end_source()
        return self.found

    def line(self, number, line):
        word, _, rest = line.partition(" ")
        if word == ">":
            self.source.append(rest)
            return
        self.end_source()
        if word in ("example", "rows"):
            self.keep = None
            self.found.append(Example(self.path.name, number, rest, is_rows=word == "rows"))
        elif word == "$":
            self.found[-1].words = rest
        elif word == "|":
            self.found[-1].lines.append(rest)
        else:
            self.plain(word, rest.split("#")[0].strip())

    def plain(self, word, rest):
        example = self.found[-1] if self.found else None
        first, _, more = rest.partition(" ")
        if not word or word.startswith("#"):
            return
        if word == "number":
            self.names[first] = whole(more, self.names)
        elif word == "stock":
            self.begin(lambda data: self.stocks.__setitem__(first, data), more.strip())
        elif word == "file":
            self.begin(lambda data: example.files.__setitem__(first, data), more.strip())
        elif word == "load":
            self.growing.put((DATA / first).read_bytes())
        elif word == "status":
            example.status = int(first)
        elif word == "fails":
            example.fails.append((first, int(more)))
        elif word != "gives" and not (example and example.is_rows and "=>" in rest):
            self.growing.lay(f"{word} {rest}", self.stocks, self.names)


class Assembler:
    """Makes objects by `ldso asm`, each source once."""

    def __init__(self, ldso):
        self.ldso, self.made = ldso, {}

    def __call__(self, source):
        if source not in self.made:
            with tempfile.TemporaryDirectory() as folder:
                Path(folder, "s").write_text(source)
                done = subprocess.run([self.ldso, "asm", "s"], cwd=folder, stdout=subprocess.PIPE, timeout=60)
            if done.returncode != 0:
                raise Unclear(f"{done.stdout.decode()} of {source}")
            self.made[source] = done.stdout
        return self.made[source]


def examples(ldso, names=None):
    """The examples of the files that are named, or of all that `args` names; none of tables."""
    names = names or (DATA.parent / "args").read_text().split()
    assemble = Assembler(ldso)
    for name in names:
        if name == "wrong.txt":
            continue
        for example in Reader(DATA / name, assemble).read():
            if not example.is_rows:
                yield example


def traced(words):
    """The words of a command that writes its journal: those of a run on threads with `--trace`, any other ones as they are."""
    is_silent = words.startswith("run ") and "--trace" not in words.split()
    return words.replace("run ", "run --trace ", 1) if is_silent else words


def is_inside(path):
    """Whether a name stays in the folder that it is looked for in."""
    return not path.startswith("/") and not os.path.normpath(path).startswith("..") and "\0" not in path


def lay_out(root, files):
    """Writes files into a folder deep in a temporary one, and gives that folder; None where a name leads out of it."""
    place = Path(root, DEPTH)
    place.mkdir(parents=True)
    if not all(is_inside(path) for path in files):
        return None
    for path, data in files.items():
        Path(place, path).parent.mkdir(parents=True, exist_ok=True)
        Path(place, path).write_bytes(data)
    return place
