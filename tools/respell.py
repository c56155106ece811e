#!/usr/bin/env python3
"""Gives the definitions and lemmas of this repository the library's spelling: types in camel case, all else in snake case.

usage: python3 tools/respell.py      at the top of the repository

The pairs of old and new names stand in tools/respelled.tsv. Names are turned in the .rt and .antt files of crates/,
outside comments and string literals; nothing else is touched. A file that brings in `AllByRecursion as All` writes
`AllByRecursion` instead, since `All` is another word of the library, and definitions of specs/ write `nat_le` and `nat_lt`
for the same functions' older names. It runs once, right after the library's own scripts: proof files written later cite
names that are made from the code, which it would turn too.
"""
import os
import re

HERE = os.path.dirname(os.path.abspath(__file__))
NAME = re.compile(r"[^\s(){}\[\],.;|⌜⌝∥«»\"]+")
RENAMED = {"AllByRecursion": "All"}
OLDER = {"leb": "nat_le", "ltb": "nat_lt"}
SKIPPED = {".antt": re.compile(r"--(?=\s|$).*$"), ".rt": re.compile(r"//.*$|b?\"(?:[^\"\\]|\\.)*\"")}


def pairs():
    with open(os.path.join(HERE, "respelled.tsv"), encoding="utf-8") as f:
        return dict(line.rstrip("\n").split("\t") for line in f if "\t" in line)


# The names of one file: those of all, and what it brings in under a plain word of the library.
def names_in(text, names):
    plain = {word: full for full, word in RENAMED.items() if f"{full} as {word}" in text}
    return {**names, **plain}, [(f"{full} as {word}", full) for word, full in plain.items()]


def turned(line, names, skipped):
    out, at = [], 0
    for m in skipped.finditer(line):
        out += [NAME.sub(lambda n: names.get(n.group(), n.group()), line[at:m.start()]), m.group()]
        at = m.end()
    return "".join(out) + NAME.sub(lambda n: names.get(n.group(), n.group()), line[at:])


def main():
    names = pairs()
    for folder, dirs, files in os.walk("crates"):
        dirs[:] = sorted(d for d in dirs if d != "out")
        for name in sorted(files):
            skipped = SKIPPED.get(os.path.splitext(name)[1])
            if skipped is None:
                continue
            path = os.path.join(folder, name)
            with open(path, encoding="utf-8") as f:
                text = f.read()
            here, imports = names_in(text, names)
            new = text
            for old, full in imports:
                new = new.replace(old, full)
            tests = {**here, **OLDER} if "/specs/" in path else here
            new = "\n".join(turned(line, here if line.startswith("use ") else tests, skipped) for line in new.split("\n"))
            if new != text:
                with open(path, "w", encoding="utf-8") as f:
                    f.write(new)


main()
