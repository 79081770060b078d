#!/usr/bin/env python3
"""Compares what two commits promise: python3 bench/clauses.py OLD NEW [PLAN]

Of each function of the crates, public or not, the signature and its clauses, and of each definition in specs/ its text, less the
module that it stands in. PLAN has a line `NEW: OLD OLD=MODULE ..` for crates of OLD that are modules of crates of NEW. Whatever
stands in one commit alone is printed. Blanks, imports and comments don't count.
"""
import collections
import re
import subprocess
import sys


def files(commit, ends):
    """The files of the crates in a commit: path and text."""
    names = subprocess.run(["git", "ls-tree", "-r", "--name-only", commit, "crates"], capture_output=True, text=True, check=True).stdout.split("\n")
    names = [it for it in names if it.endswith(ends)]
    batch = subprocess.run(["git", "cat-file", "--batch"], input="".join(f"{commit}:{it}\n" for it in names).encode(), capture_output=True, check=True).stdout
    at = 0
    for name in names:
        line = batch.index(b"\n", at)
        size = int(batch[at:line].split()[-1])
        yield name, batch[line + 1 : line + 1 + size].decode()
        at = line + 1 + size + 1


def squeezed(text, crates):
    """The text with one blank for many, and without the crates and modules of paths in code."""
    text = re.sub(r"(?m)//[^\n]*$|--[^\n]*$", "", text)
    text = re.sub(r"\b(?:crate|super|self)::(?:\w+::)*", "", text)
    text = re.sub(rf"\b(?:{crates})::(?:[a-z_0-9]+::)*", "", text)
    text = re.sub(rf"\bRattle\.(?:{crates})\.(?:specs|proofs)\.[\w.]*\.", "", text)
    return re.sub(r"\s+", " ", text).strip()


def functions(text):
    """Signatures with clauses: from `fn NAME` to the brace that opens the body, or the semicolon that ends it."""
    for found in re.finditer(r"(?m)^[ \t]*(?:pub(?:\([a-z]+\))? )?(?:const )?(?:unsafe )?fn \w+", text):
        at, depth = found.end(), 0
        while at < len(text):
            rest = text[at:]
            clause = re.match(r"\s*(?:ensures|requires)\*?(?: [\w-]+)? \{", rest)
            if clause and depth == 0:
                at += clause.end()
                depth += 1
                while depth and at < len(text):
                    depth += {"{": 1, "}": -1}.get(text[at], 0)
                    at += 1
                continue
            if text[at] in "{;" and depth == 0:
                break
            at += 1
        yield text[found.start() : at]


def definitions(text):
    """The items of a file of definitions, less imports and modules."""
    text = re.sub(r"(?m)^(?:pub )?(?:use|mod) [^\n]*(?:\n[ \t}][^\n]*)*", "", text)
    text = re.sub(r"(?m)--[^\n]*$", "", text)
    for block in re.split(r"\n\s*\n", text):
        if block.strip():
            yield block


def promises(commit, new_of):
    found = collections.Counter()
    rows = list(files(commit, (".rt", ".antt")))
    names = {it.split("/")[1] for it, _ in rows}
    crates = "|".join(sorted(names | set(new_of) | set(new_of.values()), key=len, reverse=True))
    for path, text in rows:
        crate = path.split("/")[1]
        crate = new_of.get(crate, crate)
        part = path.split("/")[2]
        if path.endswith(".rt") and part == "src":
            for it in functions(text):
                found[crate, squeezed(it, crates)] += 1
        elif path.endswith(".antt") and part == "specs":
            for it in definitions(text):
                found[crate, squeezed(it, crates)] += 1
    return found


def main(words):
    new_of = {}
    if len(words) > 2:
        for line in open(words[2], encoding="utf-8"):
            line = line.partition("#")[0].strip()
            if line:
                new, _, olds = line.partition(":")
                new_of.update({it.partition("=")[0]: new.strip() for it in olds.split()})
    old, new = promises(words[0], new_of), promises(words[1], {})
    for sign, rows in (("-", old - new), ("+", new - old)):
        for (crate, text), count in sorted(rows.items()):
            print(sign, crate, text[:400])
    print(f"{sum((old & new).values())} promises stand in both, {sum((old - new).values())} in the first alone, {sum((new - old).values())} in the second alone")


main(sys.argv[1:])
