"""Tries the edits that are kept beside those of the gate: crates/CRATE/must-fail/*.md.

    python3 bench/try_edits.py CRATE..            tries each .md of these crates: the prover has to refuse it
    python3 bench/try_edits.py --all CRATE..      tries their .edit files, too
    python3 bench/try_edits.py --check [CRATE..]  proves nothing: each .edit and .md of these crates, or of all, can be applied

Run it at the top of the repository, after a change of a crate's code or contract, and before a kept edit becomes one of
the gate. It makes a copy of the repository in a temporary folder, renames the crate's .md files to .edit there (without
--all it takes the .edit files out), and runs `rt must-fail CRATE` in the copy, which proves the crate first: a minute or
more a crate, and some 20 seconds an edit. The status is 0 where each was refused. The copy goes at the end.

An edit is lines `file: PATH`, `old: TEXT`, `new: TEXT`: the text has to stand in the file exactly once, after the pairs
before it. Other lines, as those that begin with `#`, are for readers: they say which clause refuses the edit, and why."""
import glob, os, shutil, subprocess, sys, tempfile

TOP = os.path.dirname(os.path.dirname(os.path.abspath(__file__)))


def fault(path):
    """Why an edit can't be applied, or None."""
    crate, file, old, pairs, texts = os.path.dirname(os.path.dirname(path)), None, None, 0, {}
    for line in open(path).read().split("\n"):
        if line.startswith("file: "):
            file = line.removeprefix("file: ").strip()
            if not os.path.isfile(f"{crate}/{file}"):
                return f"no file {file}"
            texts.setdefault(file, open(f"{crate}/{file}").read())
        elif line.startswith("old: "):
            old = line.removeprefix("old: ")
        elif line.startswith("new:"):
            if not file or not old:
                return "a new text without a file and an old one"
            count = texts[file].count(old)
            if count != 1:
                return f"its old text stands {count} times in {file}: {old.strip()}"
            new = line.removeprefix("new:").removeprefix(" ")
            if new == old:
                return "the new text is the old one"
            texts[file] = texts[file].replace(old, new)
            old, pairs = None, pairs + 1
    if old or not pairs:
        return "an old text without a new one, or none"
    return None


def check(crates):
    paths = sorted(path for crate in crates for path in glob.glob(f"{TOP}/crates/{crate}/must-fail/*"))
    bad = 0
    for path in paths:
        why = fault(path)
        if not why and not open(path).read().startswith("# "):
            why = "no line says what it shows"
        if why:
            bad += 1
            print(f"{os.path.relpath(path, TOP)}: {why}")
    print(f"{len(paths)} edits, {bad} that can't be applied or say nothing")
    return 1 if bad else 0


def tried(crate, every):
    with tempfile.TemporaryDirectory(prefix="edits-") as folder:
        copy = f"{folder}/copy"
        os.mkdir(copy)
        for name in ("crates.txt", "HANDLES"):
            shutil.copy2(f"{TOP}/{name}", copy)
        shutil.copytree(f"{TOP}/crates", f"{copy}/crates", ignore=shutil.ignore_patterns("out"))
        edits = f"{copy}/crates/{crate}/must-fail"
        if not every:
            for path in glob.glob(f"{edits}/*.edit"):
                os.remove(path)
        for path in glob.glob(f"{edits}/*.md"):
            os.rename(path, path.removesuffix(".md") + ".edit")
        if not glob.glob(f"{edits}/*.edit"):
            print(f"{crate}: no edit to try")
            return 0
        return subprocess.run(["rt", "must-fail", crate], cwd=copy).returncode


def main(words):
    every = "--all" in words
    crates = [word for word in words if not word.startswith("--")]
    unknown = [crate for crate in crates if not os.path.isdir(f"{TOP}/crates/{crate}")]
    if unknown or any(word not in ("--all", "--check") for word in words if word.startswith("--")):
        print(f"no crate: {', '.join(unknown)}" if unknown else __doc__)
        return 2
    if "--check" in words:
        return check(crates or ["*"])
    if not crates:
        print(__doc__)
        return 2
    return max([tried(crate, every) for crate in crates])


if __name__ == "__main__":
    sys.exit(main(sys.argv[1:]))
