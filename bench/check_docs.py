"""Checks that what the documents name is there. Usage, at the top: python3 bench/check_docs.py

- Each path in backquotes (crates/.., NAME/src/.., NAME/specs/.., bench/.., docs/..) is a file or a folder. In one line
  a path without its crate is one of the crate named before it, and a bare file name stands beside the file named before it.
- Each definition of docs/definitions/*.md stands in the file of its row.
- Each call and law of docs/PROOFS.md that a bracket names stands in a crate of that bracket.

It prints what is missing, a line each, and how much it looked at; its status is 1 where something is missing."""
import glob, os, re, sys

TOP = os.path.dirname(os.path.dirname(os.path.abspath(__file__)))
os.chdir(TOP)
CRATES = {line.split(":")[0].split()[0] for line in open("crates.txt") if line.strip() and not line.startswith("#")}
missing, looked = [], {"paths": 0, "definitions": 0, "laws": 0}


def say(doc, number, text):
    missing.append(f"{doc}:{number}: {text}")


def exists(path):
    """A file of specs/ may be named without its ending."""
    return os.path.exists(path) or os.path.exists(f"{path}.antt") or bool(glob.glob(path))


def paths(doc):
    for number, line in enumerate(open(doc), 1):
        crate = folder = None
        for word in re.findall(r"`([^`]+)`|(?<![\w/.`])((?:bench|docs)/[\w./*-]+\w)", line):
            word = (word[0] or word[1]).removeprefix("crates/")
            if not re.fullmatch(r"[\w./*-]+", word):
                continue
            head, _, rest = word.partition("/")
            name = word.rsplit("/", 1)[-1]
            if head in CRATES and rest:
                crate, path = head, f"crates/{word}"
            elif head in ("bench", "docs") and rest:
                path = word
            elif head in ("src", "specs", "data", "must-fail", "proofs") and rest and crate:
                path = f"crates/{crate}/{word}"
            elif head.startswith("test_") and "*" in head and rest:
                path = f"crates/{word}"
            elif "/" not in word and re.search(r"\.(antt|rt|txt)$", word) and folder and crate:
                path = f"{folder}/{word}"
            else:
                continue
            looked["paths"] += 1
            if not exists(path):
                say(doc, number, f"no {path}")
            elif path.startswith("crates/"):
                folder = path.rsplit("/", 1)[0] if "." in name else path.rstrip("/")


def text_of(path):
    if os.path.isdir(path):
        return "\n".join(text_of(f) for f in sorted(glob.glob(f"{path}/**/*.antt", recursive=True)))
    return open(path).read() if os.path.exists(path) else ""


def stands(name, text):
    """A definition, a field of a record, a constructor, or a Rust type of this name."""
    word = re.escape(name)
    return re.search(rf"(?:\b(?:abbrev|unfoldable|record|data|def|struct|enum|fn|const)\s+(?:pub\s+)?|^\s*(?:pub\s+)?){word}(?![\w.])", text, re.M)


def definitions(doc):
    for number, line in enumerate(open(doc), 1):
        cells = [cell.strip() for cell in line.strip().strip("|").split(" | ")]
        if not line.startswith("| `") or len(cells) < 3:
            continue
        names = re.findall(r"`([^`]+)`", cells[0])
        files, last = [], None
        for word in re.findall(r"`([^`]+)`", cells[1]):
            if "/" in word:
                last = f"crates/{word.removeprefix('crates/')}"
            elif last:
                last = f"{last.rsplit('/', 1)[0]}/{word}"
            else:
                say(doc, number, f"no path for {word}")
                continue
            looked["paths"] += 1
            if not exists(last):
                say(doc, number, f"no {last}")
            files.append(last)
        text = "\n".join(text_of(path) for path in files)
        for name in names:
            looked["definitions"] += 1
            for part in name.split(" ")[:1]:
                if re.fullmatch(r"[\w.]+", part) and not stands(part, text):
                    say(doc, number, f"no {part} in {', '.join(files)}")


SOURCES = {}


def source(crate):
    if crate not in SOURCES:
        SOURCES[crate] = "\n".join(open(f).read() for f in glob.glob(f"crates/{crate}/src/**/*.rt", recursive=True))
    return SOURCES[crate]


def laws(doc):
    for number, line in enumerate(open(doc), 1):
        for bracket in re.findall(r"\[([^\[\]]+)\](?!\()", line):
            words = re.findall(r"`([^`]+)`", bracket)
            crates = [word for word in words if word in CRATES]
            if not crates:
                say(doc, number, f"no crate in [{bracket}]")
            text = "\n".join(source(crate) for crate in crates)
            for word in words:
                if word in CRATES:
                    continue
                looked["laws"] += 1
                name = word.split("::")[-1]
                if not re.search(rf"\b(?:fn|struct|enum|trait|mod|macro)\s+{re.escape(name)}\b", text):
                    say(doc, number, f"no {word} in {', '.join(crates)}")


for page in sorted(glob.glob("docs/*.md") + ["README.md"]):
    paths(page)
for page in sorted(glob.glob("docs/definitions/*.md")):
    definitions(page)
if os.path.exists("docs/PROOFS.md"):
    laws("docs/PROOFS.md")
print("\n".join(missing))
print(", ".join(f"{count} {what}" for what, count in looked.items()), f"looked at, {len(missing)} missing")
sys.exit(1 if missing else 0)
