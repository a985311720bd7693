#!/usr/bin/env python3
"""Brings the names of this repository's definitions and lemmas to today's spelling, once.

usage: python3 tools/snake_names.py [--list]     at the top of the repository, after port.py

A word with hyphens that a file of specs/ or proofs/ defines gets underscores in place of them; a type or a
statement, which begins with a capital, gets capitals in place of them. The new name stands wherever the old one
did: in the files of specs/ and proofs/, and in the clauses and ghost items of src/. Names that Rattle makes, names
of the library and local names keep their spelling, and so do the functions of src/.
"""

import os
import re
import sys

WORD = r"[A-Za-z_][A-Za-z0-9_']*(?:-[A-Za-z0-9_']+)*"
TOKEN = re.compile(r"(?<![A-Za-z0-9_'-])" + WORD)
# where the plain spelling is a word of the library already, and where port.py took a word for a type
OTHERWISE = {"bit-and": "bit_of_and", "bit-or": "bit_of_or", "Home-of": "home_of"}
HEAD = re.compile(r"^\s*(?:(?:abbrev|unfoldable|opaque|pub)\s+)*(?:(?:record|data)\s+(?=" + WORD + r"\s*[:({]))?(" + WORD + r")(?<![:,])(?:\s+:\s|\s*[({].*Type 0 where)")
# a helper lemma beside the answers, whose statement is no goal
HELPER = re.compile(r"^(" + WORD + r") : (?!goal\.)\S")
# another name that a file gives to what it brings in
ALIAS = re.compile(r"[{ ]as (" + WORD + r")(?=[,};]|\s*$)")


def files(ending):
    for folder, dirs, names in os.walk("crates"):
        dirs[:] = sorted(d for d in dirs if d not in ("out", "must-fail"))
        for name in sorted(names):
            if name.endswith(ending):
                yield os.path.join(folder, name)


def of_lemmas(path):
    """Whether a file holds definitions or lemmas, and not the answers to the goals of one function."""
    return path.count(os.sep) == 3 and os.path.basename(path) != "Lib.antt"


def defined():
    found = set()
    for path in files(".antt"):
        if of_lemmas(path):
            heads = HEAD
        elif os.path.basename(path) == "Answers.antt":
            heads = HELPER
        else:
            continue
        with open(path, encoding="utf-8") as f:
            for line in f:
                head = heads.match(line)
                if head and "-" in head.group(1):
                    found.add(head.group(1))
    for path in list(files(".antt")) + list(files(".rt")):
        with open(path, encoding="utf-8") as f:
            for line in f:
                if re.match(r"(?:pub |ghost )*use ", line):
                    found |= {n for n in ALIAS.findall(line) if "-" in n}
    return found


def spelled(name):
    if name in OTHERWISE:
        return OTHERWISE[name]
    parts = name.split("-")
    if name[0].isupper():
        return "".join(p[0].upper() + p[1:] for p in parts)
    return "_".join(parts)


def of_library(text):
    """The words that a file brings in from elsewhere than this repository."""
    found = set()
    for line in text.split("\n"):
        use = re.match(r"(?:pub |ghost )*use ([^\s{]+)\.\{(.*)\}", line)
        if use and not re.match(r"Rattle\.(?:" + "|".join(os.listdir("crates")) + r")\.", use.group(1)):
            found |= set(TOKEN.findall(use.group(2)))
    return found


def turned(text, names):
    kept = of_library(text)
    return TOKEN.sub(lambda m: m.group(0) if m.group(0) in kept else names.get(m.group(0), m.group(0)), text)


def turned_source(text, names):
    """Comments of src/ are prose, and stay."""
    lines = text.split("\n")
    kept = of_library(text)
    rest = {old: new for old, new in names.items() if old not in kept}
    return "\n".join(x if x.lstrip().startswith("//") else turned(x, rest) for x in lines)


def main():
    names = {n: spelled(n) for n in defined()}
    fallen = {}
    for old, new in names.items():
        fallen.setdefault(new, []).append(old)
    present = set()
    for path in list(files(".antt")) + list(files(".rt")):
        with open(path, encoding="utf-8") as f:
            present |= set(TOKEN.findall(f.read()))
    for new, olds in sorted(fallen.items()):
        if len(olds) > 1:
            sys.exit(f"{' and '.join(olds)} would both be {new}")
        if new in present:
            print(f"look: {olds[0]} becomes {new}, which stands somewhere already")
    if "--list" in sys.argv[1:]:
        for old in sorted(names):
            print(old, names[old])
        return
    for path in files(".antt"):
        change(path, lambda t: turned(t, names))
    for path in files(".rt"):
        change(path, lambda t: turned_source(t, names))
    print(f"{len(names)} names")


def change(path, turn):
    with open(path, encoding="utf-8") as f:
        old = f.read()
    new = turn(old)
    if new != old:
        with open(path, "w", encoding="utf-8") as f:
            f.write(new)


main()
