#!/usr/bin/env python3
"""Spells this repository's own definitions, fields and lemmas in snake case, once, after the toolchain's own script has run.

A name that specs/ or a lemma file of proofs/ declares turns wherever it stands: in antt, in the clauses and `ghost use` lines of .rt files, and in code spans of
their comments. Functions of src/, exported names, strings, inputs and outputs stay; so do the goals' names in the folders of functions (proofs/F/). A dash stays
between two names of definitions, as in `coordinates-cell_at`. Where two names would fall together the lemma's gets `_lem`; what else would meet is printed.

usage: tools/respell.py [--check]
"""
import collections
import os
import re
import sys

WORD = r"[^\s(){}.;,@\"«»\[\]|]+"
DECLARED = re.compile(r"^[ \t]*(?:(?:pub|abbrev|unfoldable|data|record) +)*(" + WORD + r"(?: +" + WORD + r")*)((?: *[({][^\n]*?[)}])*) *:(?!=)", re.M)
# Words of the library that a lemma's name may join by a dash.
LIBRARY = {"length", "take", "drop", "get_or", "map", "append", "sum"}
# Names by hand: one that the library has too, and an operator of words.
BY_HAND = {"put-mid": "put_mid_lem", "◌and-then◌": "◌and_then◌"}
LIBRARY_MEETS = {"put_mid"}
CLAUSE = re.compile(r"(?:requires|ensures)\s*\*?\s*(?:\w+\s*)?\{|ghost\s*(?:\w+\s*(?::\s*(?:(?:owns|lends)\s*)?|=\s*))?\{")


def texts(ending):
    for folder, folders, files in os.walk("crates"):
        folders[:] = sorted(f for f in folders if f != "out")
        for f in sorted(files):
            if f.endswith(ending):
                yield os.path.join(folder, f)


def names_of(text):
    for m in DECLARED.finditer(text):
        yield from m[1].split()


def read(path):
    with open(path, encoding="utf-8") as f:
        return f.read()


def rewrite(path, text):
    if text != read(path):
        with open(path, "w", encoding="utf-8") as f:
            f.write(text)


def kind_of(path):
    parts = path.split("/")
    return "spec" if parts[2] == "specs" else "law" if len(parts) == 4 else "function"


def snake(name):
    if name.upper() == name:
        return name.replace("-", "_")
    return re.sub(r"(?<=[a-z0-9])[A-Z]|(?<=[A-Z])[A-Z](?=[a-z])", lambda m: "_" + m[0].lower(), name)


def declared():
    found = collections.defaultdict(set)
    for path in texts(".antt"):
        kind = kind_of(path)
        if kind == "function":
            continue
        for name in names_of(re.sub(r"--[^\n]*", "", read(path))):
            found[name].add((kind, path))
    return found


def turned(name, definitions):
    if not name[:1].isalpha() or name[:1].isupper() and "-" not in name:
        return name
    parts = [snake(p) for p in name.split("-")]
    if name.upper() == name:
        return "_".join(parts)
    joined = all(p in definitions for p in parts) and len(parts) < 4 and any(p in LIBRARY or p != q for p, q in zip(parts, name.split("-")))
    return ("-" if joined else "_").join(parts)


def table():
    found = declared()
    definitions = {snake(n) for n, s in found.items() if any(k == "spec" for k, _ in s) and "-" not in n} | LIBRARY
    files = [set(re.findall(WORD, re.sub(r"--[^\n]*", "", read(path)))) for path in texts(".antt")]
    rows = {}
    for n in sorted(found, key=lambda n: ("-" in n, n)):
        new = BY_HAND.get(n) or turned(n, definitions)
        if new == n:
            continue
        others = [o for o, w in rows.items() if w == new] + ([new] if new in found or new in LIBRARY_MEETS else [])
        if any(n in words and o in words for o in others for words in files):
            if "-" in n:
                new += "_lem"
            else:
                print("together:", n, new, others)
        rows[n] = new
    return rows, found


def turn_antt(text, rows):
    # A name that the file has from the toolchain's library stays.
    theirs = set()
    for m in re.finditer(r"use (?!Rattle\.(?!std\b))[^\s{]+\.\{([^}]*)\}", text):
        theirs |= {n.split(" as ")[0].strip() for n in m[1].split(",")}
    rows = {o: n for o, n in rows.items() if o not in theirs}

    def word(m):
        return rows.get(m[0], m[0])

    def piece(m):
        if m[0].startswith('"'):
            return m[0]
        if m[0].startswith("--"):
            return re.sub(r"`[^`\n]*`", lambda s: re.sub(WORD.replace('"', '`"'), word, s[0]), m[0])
        return rows.get(m[0], m[0])

    return re.sub(r'"(?:[^"\\\n]|\\.)*"|(?<![^\s(){}.;,@«»])--[^\n]*|' + WORD, piece, text)


def turn_rt(text, rows):
    out, at = "", 0
    ghosts = []
    for m in re.finditer(r"ghost\s+use\b[^;]*;", text):
        ghosts.append((m.start(), m.end()))
    for m in CLAUSE.finditer(text):
        depth, i = 1, m.end()
        while depth:
            depth += {"{": 1, "}": -1}.get(text[i], 0)
            i += 1
        ghosts.append((m.end(), i - 1))
    for m in re.finditer(r"//[^\n]*", text):
        for s in re.finditer(r"`[^`\n]*`", m[0]):
            ghosts.append((m.start() + s.start() + 1, m.start() + s.end() - 1))
    for a, b in sorted(ghosts):
        if a < at:
            continue
        out += text[at:a] + turn_antt(text[a:b], rows)
        at = b
    return out + text[at:]


def main():
    rows, found = table()
    meets = 0
    for path in list(texts(".antt")) + list(texts(".rt")):
        words = set(re.findall(WORD, re.sub(r"--[^\n]*|//[^\n]*", "", read(path))))
        for old, new in rows.items():
            if old in words and new in words and path.endswith(".antt"):
                meets += 1
                print(f"meets: {path}: {old} {new}")
    if "--check" in sys.argv:
        print(len(rows), "names;", meets, "meet")
        for o, n in sorted(rows.items()):
            if n.endswith("_lem") or "-" in n:
                print("  ", o, n)
        return
    for ending, turn in ((".antt", turn_antt), (".rt", turn_rt)):
        for path in texts(ending):
            rewrite(path, turn(read(path), rows))
    print(len(rows), "names")
    move_file("demands", "Contracts", "Promised")


def move_file(crate, old, new):
    """A module of specs/ whose name is now one that the toolchain makes."""
    path = f"crates/{crate}/specs/{old}.antt"
    if not os.path.exists(path):
        return
    os.rename(path, f"crates/{crate}/specs/{new}.antt")
    for path in [*texts(".antt"), *texts(".rt")]:
        text = read(path)
        turned = re.sub(rf"{crate}\.specs\.{old}\b", f"{crate}.specs.{new}", text)
        if path == f"crates/{crate}/specs/Lib.antt":
            turned = turned.replace(f"pub mod {old}\n", f"pub mod {new}\n")
        rewrite(path, turned)


main()
