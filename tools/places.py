#!/usr/bin/env python3
"""Counts places in src/ where a plainer form may serve; with a point's name it lists them.

    tools/places.py            counts, a line a point
    tools/places.py NAME...    the places of these points, too

It goes by the text: what it lists is to be read, and a place that stays says why in docs/DESIGN-PASS.md. Tests are left out.
"""
import collections
import glob
import os
import re
import sys

ROOT = os.path.join(os.path.dirname(os.path.abspath(__file__)), "..")
CLAUSE = re.compile(r"^\s*(requires|ensures)\s+(?:(\w+)\s+)?\{(.*)\}\s*;?$")
FN = re.compile(r"^\s*(?:pub(?:\(crate\))? )?fn (\w+)")


def sources():
    for path in sorted(glob.glob(os.path.join(ROOT, "crates/*/src/**/*.rt"), recursive=True)):
        if not path.endswith("tests.rt"):
            yield os.path.relpath(path, os.path.join(ROOT, "crates")), open(path).read()


def functions(text):
    """(name, line, head, clauses, body) of each function with a body."""
    lines = text.split("\n")
    i = 0
    while i < len(lines):
        m = FN.match(lines[i])
        if not m:
            i += 1
            continue
        start, indent = i, len(lines[i]) - len(lines[i].lstrip())
        head, clauses = [], []
        while i < len(lines):
            c = CLAUSE.match(lines[i])
            if c:
                clauses.append((c.group(1), " ".join(c.group(3).split())))
            else:
                head.append(lines[i].strip())
            if lines[i].rstrip().endswith(";") and len(lines[i]) - len(lines[i].lstrip()) <= indent + 4 and not c and ")" in lines[i]:
                break
            if lines[i].rstrip() in (" " * indent + "{", " " * indent + "{}") or (lines[i].rstrip().endswith("{") and not c):
                break
            if lines[i].rstrip().endswith("};"):
                break
            i += 1
        body = []
        if i < len(lines) and lines[i].rstrip().endswith("{"):
            i += 1
            while i < len(lines) and lines[i].rstrip() != " " * indent + "}":
                body.append(lines[i].strip())
                i += 1
        yield m.group(1), start + 1, " ".join(head), clauses, body
        i += 1


def strip(line):
    return re.sub(r"//.*", "", line)


def by_line(pattern):
    found = []
    for path, text in sources():
        for n, line in enumerate(text.split("\n"), 1):
            if re.search(pattern, strip(line)) and not line.lstrip().startswith(("requires", "ensures", "ghost")):
                found.append(f"{path}:{n}: {line.strip()[:100]}")
    return found


def rewraps():
    """A match or let-else that only hands on a None, a false, an Err or Unsound."""
    found = []
    pattern = re.compile(
        r"None => None,|Err\((\w+)\) => Err\(\1\)|Err\((\w+)\) => return Err\(\2\)|Err\(_\) => None,|Some\((\w+)\) => Some\(|Ok\((\w+)\) => (?:Some|Ok)\("
        r"|else \{\s*return (?:None|false|Next::Unsound|Ok\(None\)|Ok\(false\));\s*\}"
        r"|if [^{]*\{\s*return (?:false|Next::Unsound);\s*\}|\n\s*\} else \{\s*None\s*\}|\n\s*\} else \{\s*false\s*\}"
    )
    for path, text in sources():
        for m in pattern.finditer(text):
            n = text.count("\n", 0, m.start()) + 1
            found.append(f"{path}:{n}: {' '.join(m.group(0).split())[:80]}")
    return found


def flags():
    """Functions that answer a bool and change what a `&mut` parameter lends: the bool says whether it was done."""
    found = []
    for path, text in sources():
        for name, n, head, _, _ in functions(text):
            if re.search(r"-> (?:anyhow::Result<)?bool\b", head) and "&mut" in head:
                found.append(f"{path}:{n}: {name}")
            elif re.search(r"-> \((?:bool|Option)", head):
                found.append(f"{path}:{n}: {name}")
    return found


def enums():
    """Enums of the repository's own, with their variants."""
    found = []
    for path, text in sources():
        for m in re.finditer(r"enum (\w+)[^{]*\{(.*?)\n\}", text, re.S):
            variants = re.findall(r"^\s{4}(\w+(?:\([^)]*\))?)", re.sub(r"//.*", "", m.group(2)), re.M)
            found.append(f"{path}: {m.group(1)} {{ {', '.join(variants)} }}")
    return found


def numbers():
    """Functions that turn a case into a number, or a number into a case."""
    found = []
    for path, text in sources():
        for name, n, head, _, body in functions(text):
            text_of = "\n".join(body)
            to = len(re.findall(r"=> \w*\(?\d+", text_of)) >= 2
            of = len(re.findall(r"^\d+ => ", text_of, re.M)) >= 2
            if to or of:
                found.append(f"{path}:{n}: {name}")
    return found


def shape(body):
    words = re.findall(r"[A-Za-z_]\w*|\d+|[^\s\w]", " ".join(strip(b) for b in body))
    names = {}
    keep = {"for", "in", "if", "else", "match", "return", "let", "mut", "loop", "while", "self", "true", "false", "Some", "None", "Ok", "Err"}
    out = []
    for w in words:
        if w in keep or not (w[0].isalnum() or w[0] == "_"):
            out.append(w)
        else:
            out.append(names.setdefault(w, f"n{len(names)}"))
    return tuple(out)


def twins():
    """Functions of one body but for the names and numbers in it."""
    groups = collections.defaultdict(list)
    for path, text in sources():
        for name, n, _, _, body in functions(text):
            s = shape(body)
            if len(s) >= 22:
                groups[s].append(f"{path}:{n}: {name}")
    return [" = ".join(g) for g in groups.values() if len(g) > 1]


def loops():
    return by_line(r"\bfor \w+ in [^{]*\.\.|\bwhile\b|\bloop \{")


def by_hand():
    """Equality, conversion and printing in functions of their own."""
    found = []
    names = re.compile(r"^(same\w*|is_same|is_type|all_same|equal\w*|number_of|type_of|literal_type|type_number|from_\w+|to_\w+|\w+_word|number|place|clone\w*|copy\w*|print_\w+)$")
    for path, text in sources():
        for name, n, head, _, _ in functions(text):
            if names.match(name):
                found.append(f"{path}:{n}: {name}")
    return found


def clauses():
    """A clause's text that stands in the contracts of three functions or more of a crate."""
    where = collections.defaultdict(set)
    for path, text in sources():
        crate = path.split("/")[0]
        for name, n, _, cs, _ in functions(text):
            for kind, body in cs:
                where[(crate, kind, body)].add(f"{path}:{name}")
    return [f"{len(v)} x {c}: {k} {{ {b} }}" for (c, k, b), v in sorted(where.items(), key=lambda x: -len(x[1])) if len(v) >= 3]


def together():
    """Three parameters of one name and type that stand in three functions or more of a crate."""
    where = collections.defaultdict(set)
    for path, text in sources():
        crate = path.split("/")[0]
        for name, n, head, _, _ in functions(text):
            given = re.sub(r"^.*?\bfn \w+(?:<[^(]*>)?\(", "", head)
            ps = re.findall(r"(\w+): ((?:&mut |&)?[\w<>\[\]; ]+)", given)
            ps = sorted(set(f"{a}: {b.strip()}" for a, b in ps if a not in ("rt",)))
            for i in range(len(ps)):
                for j in range(i + 1, len(ps)):
                    for k in range(j + 1, len(ps)):
                        where[(crate, ps[i], ps[j], ps[k])].add(f"{path}:{name}")
    return [f"{len(v)} x {c}: {a}, {b}, {d}" for (c, a, b, d), v in sorted(where.items(), key=lambda x: -len(x[1])) if len(v) >= 3]


def buffers():
    """Fields and parameters that are an array or a slice, with a number beside them that says how much of it is taken."""
    found = []
    for path, text in sources():
        for m in re.finditer(r"struct (\w+)[^{;]*\{(.*?)\n\}", text, re.S):
            fields = re.findall(r"^\s*(?:pub(?:\(crate\))? )?(\w+): (.*),$", m.group(2), re.M)
            arrays = [a for a, t in fields if re.match(r"(?:&'?\w* ?(?:mut )?)?\[", t)]
            counts = [a for a, t in fields if t in ("usize", "u16", "u8", "u32")]
            if arrays and counts:
                found.append(f"{path}: {m.group(1)} {{ {', '.join(arrays)}; {', '.join(counts)} }}")
        for name, n, head, _, _ in functions(text):
            if re.search(r"\w+: &(?:mut )?\[\w+\]", head) and re.search(r"\b(count|filled|height|n|len|first|end|top): usize", head):
                found.append(f"{path}:{n}: {name}")
    return found


def dispatch():
    """Function pointers, dyn, impl Fn and bounds of closures; and names of steps matched one by one."""
    return by_line(r"\bdyn\b|\bfn\(|impl Fn|: Fn(?:Mut|Once)?\(") + by_line(r'^\s*(?:Some\()?"\w+"\)? =>')


POINTS = {
    "enums": enums,
    "flags": flags,
    "numbers": numbers,
    "rewraps": rewraps,
    "twins": twins,
    "loops": loops,
    "by-hand": by_hand,
    "clauses": clauses,
    "together": together,
    "buffers": buffers,
    "dispatch": dispatch,
}


def main(wanted):
    for name, find in POINTS.items():
        places = find()
        print(f"{name}: {len(places)}")
        if name in wanted:
            for place in places:
                print("   ", place)


main(set(sys.argv[1:]))
