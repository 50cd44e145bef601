#!/usr/bin/env python3
"""Respells the definitions, constructors, fields and lemmas of crates/*/specs and crates/*/proofs: words in snake case; types, records and modules keep their capitals.

usage: tools/respell.py [--check] [--table FILE]

Run once, at the top, after port.py. The names that the .antt files of specs/ and proofs/ (folders of single functions aside) declare are read first; each name whose first letter is small
gets its words joined by `_`. Then every .antt file, the clauses of every .rt file, the must-fail edits and the code spans of README.md and docs/ get the new names.
A name that a library's `use` line has too, or whose new spelling is taken, stays; it is printed. --check writes nothing; --table FILE writes the pairs old, tab, new.
"""

import collections
import glob
import os
import re
import sys

WORD = re.compile(r'[^\s(){}.;,@"«»`]+')
HEAD = re.compile(r"^ *(?:(?:unfoldable|abbrev|pub|mutual|where|let) +)*([^\s(){}.;,@\"«»:]+)(?: \{[^{}\n]*\})* :(?= )")
NAMED = re.compile(r"^ *(?:(?:unfoldable|abbrev|pub) +)*(?:ruleset) +([^\s(){}.;,]+)")
DATA = re.compile(r"^ *(?:(?:unfoldable|abbrev|pub) +)*(?:data|record) +([^\s(){}.;,]+)")
LIBRARY = re.compile(r"^\s*(?:pub )?(?:ghost )?use ((?:mathlib|native|Prim|lib|borrow|sep|Rattle\.(?:std|core)|antt)[^;\n]*)", re.M)
CHOSEN = {"named-once": "each_named_once"}
# lemmas that have their function's name already: in .antt files alone, and behind no dot
LEMMAS = {name: name + "_lem" for name in ("fields_fit", "line_view", "number_is", "pair_place", "plain_row", "row_from", "rows_left")}
RESERVED = set("data record deriving module where use mod pub package open as unfoldable abbrev axiom unfold unfolding ruleset mutual infix infixl infixr elim let in do Type coe fcoe tcoe hcom com search omega grind rw simp cc ground assumption".split())


def snake(name):
    name = name.replace("getD", "get_or")
    name = re.sub(r"(?<=[a-z0-9])[A-Z]", lambda m: "_" + m[0].lower(), name)
    return re.sub(r"(?<=[^\s-])-(?=[^\s-])", "_", name)


def read(path):
    with open(path, encoding="utf-8") as f:
        return f.read()


def declared():
    """The small-letter names of specs/ and of the lemma files, each with the files that declare it; and the names that libraries lend."""
    names = collections.defaultdict(set)
    lent = set()
    types = set()
    fields = set()
    for path in sorted(glob.glob("crates/*/specs/**/*.antt", recursive=True) + glob.glob("crates/*/proofs/**/*.antt", recursive=True) + glob.glob("crates/*/src/*.rt")):
        text = read(path)
        for m in LIBRARY.finditer(text):
            lent.update(WORD.findall(m[1]))
        parts = path.split(os.sep)
        if path.endswith(".rt") or parts[2] == "proofs" and len(parts) > 4:
            continue
        depth = None
        for line in text.split("\n"):
            inner = len(line) - len(line.lstrip())
            if depth is not None and line.strip() and inner <= depth:
                depth = None
            if re.match(r" *(unfoldable |abbrev |pub )*record ", line):
                depth = inner
            m = HEAD.match(line)
            if m and depth is not None and parts[2] == "specs":
                fields.add(m[1])
            for form in (HEAD, NAMED):
                m = form.match(line)
                if m and not m[1].startswith("◌") and m[1][0] not in "({" and m[1] not in ("_",):
                    if m[1][0].islower() or not m[1][0].isascii():
                        names[m[1]].add(path)
            m = DATA.match(line)
            if m:
                types.add(m[1])
    return names, lent, types, fields


def main(argv):
    names, lent, types, fields = declared()
    files = {path: set(WORD.findall(read(path))) for path in glob.glob("crates/**/*.antt", recursive=True)}
    sources = {path: read(path) for path in glob.glob("crates/*/src/*.rt")}
    table = {}
    spelled = collections.defaultdict(set)
    for name in names:
        spelled[snake(name)].add(name)
    for name in sorted(names):
        new = snake(name)
        if new == name:
            continue
        # a lemma that would have its function's name
        if "-" in name and len(spelled[new]) > 1 and name not in fields:
            new += "_lem"
        new = CHOSEN.get(name, new)
        if name in lent:
            print(f"stays: {name}: a library has the name")
        elif new in RESERVED:
            print(f"stays: {name}: {new} is reserved")
        elif new in lent or new.endswith("_lem") and new in names:
            print(f"taken: {name}: {new} is declared already ({', '.join(sorted(names[name]))})")
        else:
            both = [path for path, words in files.items() if name in words and new in words]
            both += [path for path, text in sources.items() if name in WORD.findall(text) and re.search(rf"\b{re.escape(new)}: |\bconst {re.escape(new)}\b", text)]
            if both or new in names or new in table.values():
                print(f"beside: {name}: {new} ({', '.join(sorted(names[name]))}) stands in {', '.join(sorted(names[new]))} {', '.join(both)}")
            table[name] = new
    if "--table" in argv:
        with open(argv[argv.index("--table") + 1], "w", encoding="utf-8") as f:
            f.writelines(f"{a}\t{b}\n" for a, b in table.items())
    print(f"{len(table)} names")
    if "--check" in argv:
        return

    def turn(text):
        return WORD.sub(lambda m: table.get(m[0], m[0]), text)

    # first, so that a definition that takes the lemma's spelling is not met
    def turned(line):
        return turn(re.sub(r"(?<![\w.'-])(" + "|".join(LEMMAS) + r")(?![\w'-])", lambda m: LEMMAS[m[0]], line))

    def spans(text):
        return re.sub(r"`[^`\n]+`", lambda m: turn(m[0]), text)

    for path in sorted(glob.glob("crates/*/specs/**/*.antt", recursive=True) + glob.glob("crates/*/proofs/**/*.antt", recursive=True)):
        text = read(path)
        lines = [spans(line) if line.lstrip().startswith("--") else turned(line) for line in text.split("\n")]
        write(path, text, "\n".join(lines))
    for path in sorted(glob.glob("crates/*/src/*.rt")):
        text = read(path)
        lines = [spans(line) if line.lstrip().startswith("//") else turn(line) for line in text.split("\n")]
        write(path, text, "\n".join(lines))
    for path in sorted(glob.glob("crates/*/must-fail/*.edit")):
        text = read(path)
        lines = [turn(line) if re.match(r"(old|new):", line) else line for line in text.split("\n")]
        write(path, text, "\n".join(lines))
    for path in ["README.md", "docs/GUIDE.md", "docs/DECISIONS.md"]:
        text = read(path)
        write(path, text, spans(text))


def write(path, old, new):
    if new != old:
        with open(path, "w", encoding="utf-8") as f:
            f.write(new)


main(sys.argv[1:])
