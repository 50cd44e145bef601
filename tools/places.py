#!/usr/bin/env python3
"""Brings the line numbers of docs/GUIDE.md up to date: each `crates/NAME/src/lib.rt:NUMBER` gets the number of the line that PLACES gives for it.

usage: tools/places.py [--check]

At the top of the checkout. A text of PLACES stands on one line of its file, and the texts of a file come in the order in which the page names them. --check
writes nothing; the status is 1 where a number is another one, or a text is not there once."""

import re
import sys

PAGE = "docs/GUIDE.md"
PLACES = [
    ("sets", "pub fn has_site("),
    ("sets", "pub fn single("),
    ("flow", "pub fn reach("),
    ("brings", "if here { sites | sets::single(l) } else { sites }"),
    ("flow", "return net.sandbox(k, t) & net.sandbox_self(k);"),
    ("whole", "variable(target) | own.used | (rest ^ (rest & own.bound))"),
    ("flow", "pub fn empty() -> UseMap"),
    ("flow", "pub const SITES: usize = tables::SITES;"),
    ("flow", "pub fn use_map("),
    ("klaim", "pub struct Site(pub u8);"),
    ("klaim", "pub struct Var(pub u8);"),
    ("klaim", "pub enum Loc {"),
    ("threads", "pub type Bindings = [Option<Site>; VARIABLES];"),
    ("threads", "pub struct Thread {"),
    ("threads", "pub type Threads = Table<Thread, THREADS>;"),
    ("report", "let mut bytes = [0u8; REPORT];"),
    ("checker", "buffer[..REPORT].copy_from_slice("),
    ("ready", "fn first("),
    ("ready", "fn can_step("),
    ("ready", "first(state, state.threads.as_slice())"),
]


def line_of(name, text):
    path = f"crates/{name}/src/lib.rt"
    with open(path, encoding="utf-8") as f:
        lines = [n for n, line in enumerate(f, 1) if text in line]
    if len(lines) != 1:
        sys.exit(f"{path}: {text!r} stands on {len(lines)} lines")
    return f"{path}:{lines[0]}"


def main(argv):
    with open(PAGE, encoding="utf-8") as f:
        page = f.read()
    written = re.findall(r"crates/(\w+)/src/lib\.rt:\d+", page)
    if written != [name for name, _ in PLACES]:
        sys.exit(f"{PAGE} names {written}")
    places = iter([line_of(*it) for it in PLACES])
    new = re.sub(r"crates/\w+/src/lib\.rt:\d+", lambda m: next(places), page)
    if new == page:
        return 0
    if "--check" in argv:
        print(f"{PAGE}: line numbers have changed")
        return 1
    with open(PAGE, "w", encoding="utf-8") as f:
        f.write(new)
    return 0


if __name__ == "__main__":
    sys.exit(main(sys.argv[1:]))
