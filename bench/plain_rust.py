#!/usr/bin/env python3
"""Writes crates of this repository as plain Rust, for the benchmarks that compare them with what rustc makes of the
same sources: contracts and ghost items are taken out. plain_rust.py TOP OUT makes OUT/rv_isa and OUT/rv_hart.
"""
import pathlib
import re
import sys

BASE = """#![allow(dead_code, unused_imports)]
mod ld_base {
    #[derive(Clone, Copy, Debug, PartialEq, Eq)] pub enum Role { None, Ro, Rx, Rw, Slot }
    #[derive(Clone, Copy, Debug, PartialEq, Eq)] pub enum Shown { Locked(u64, u64), Initialising(u64), Closing(u64), OpenGrant(u64) }
}
mod rv_isa;
mod rv_hart;
"""


def strip(text):
    text = re.sub(r"^\s*ghost use [^;]*;\n", "", text, flags=re.M)
    text = re.sub(r"^\s*#!?\[tactic\([^\]]*\)\]\n", "", text, flags=re.M)
    text = re.sub(r"impl Model for \w+ \{\n(?:.*\n)*?\}\n", "", text)
    text = text.replace("use std::marker::Model;\n", "")
    out, i = "", 0
    clause = re.compile(r"(?:requires|ensures|ghost)\b\s*\w*\s*(?::\s*|=\s*)?\{")
    while i < len(text):
        found = clause.match(text, i)
        if found and text[i - 1] in " \n":
            depth, i = 1, found.end()
            while depth:
                depth += {"{": 1, "}": -1}.get(text[i], 0)
                i += 1
            if text[i] in ",;" and found.group().startswith("ghost"):
                i += 1
        else:
            out += text[i]
            i += 1
    out = re.sub(r"\)\s*;", ");", re.sub(r"\s+;", ";", out))
    return out.replace("#[derive(Debug, Drop)]", "#[derive(Debug)]").replace("#[derive(Drop)]\n", "")


def crates(top, out):
    for crate in ("rv_isa", "rv_hart"):
        (out / crate).mkdir(parents=True)
        for source in (top / "crates" / crate / "src").glob("*.rt"):
            if source.stem in ("tests", "laws"):
                continue
            text = strip(source.read_text())
            text = re.sub(r"^mod laws;\n|^pub use laws.*\n|^#\[cfg\(test\)\]\nmod tests;\n", "", text, flags=re.M)
            text = text.replace("crate::", f"crate::{crate}::")
            text = text.replace("use ld_base", "use crate::ld_base").replace("use rv_isa", "use crate::rv_isa")
            name = "mod.rs" if source.stem == "lib" else source.stem + ".rs"
            (out / crate / name).write_text(re.sub(r"^//!.*\n", "", text, flags=re.M))


if __name__ == "__main__":
    crates(pathlib.Path(sys.argv[1]), pathlib.Path(sys.argv[2]))
