#!/usr/bin/env python3
"""Brings the repository's own names in specs/, proofs/ and clauses to one spelling: words in snake case, facts and types in camel case.

usage: python3 tools/respell.py [--dry]      at the top of the repository, after the toolchain's own port script

A name that a file imports from the library keeps its spelling in that file, and so do the names of goals, which the toolchain makes.
Comments, strings and the code of src/ are left alone, but for names in backquotes.
"""
import os
import re
import sys

NAME = r"[A-Za-z_][\w']*(?:-[\w']+)+"
TOKEN = re.compile(r"(?<![\w'◌-])" + NAME)
DECLARED = re.compile(r"^\s*(?:abbrev |unfoldable )*(?:pub )?(?:abbrev |unfoldable |record |data )*(" + NAME + r")(?:\s[^:=]*)? :(?:\s|$)")
IMPORTED = re.compile(r"use (Rattle\.std|borrow|native|Prim|mathlib|lib)\b[^{;\n]*\{([^}]*)\}")
# names that would fall together with another of the crate or with a tactic: what they are called instead
APART = {"Too-many": "TooManyReadings", "levels-fit": "levels_in_range", "event-records": "records_of_event"}
FIRST = re.compile(r"(?<![\w'.])first_of(?![\w']| \(Prim)")


def files(endings):
    for folder, dirs, names in os.walk("crates"):
        dirs[:] = sorted(d for d in dirs if d != "out")
        for n in sorted(names):
            if n.endswith(endings):
                yield os.path.join(folder, n)


def text_of(path):
    with open(path, encoding="utf-8") as f:
        return f.read()


def respelled(name):
    words = name.split("-")
    if name[0].isupper():
        return "".join(w[:1].upper() + w[1:] for w in words)
    return "_".join(words)


def declared():
    own, made = set(), set()
    for path in files(".antt"):
        for line in text_of(path).splitlines():
            m = DECLARED.match(line)
            if m:
                (made if ": goal." in line else own).add(m.group(1))
    return {n: APART.get(n, respelled(n)) for n in own - made}, sorted(own & made)


def library_names(text):
    return {w.strip().split(" as ")[-1].strip() for m in IMPORTED.finditer(text) for w in m.group(2).split(",")}


def pieces(path, text):
    """(is it text of clauses or proofs, piece): comments and strings apart."""
    mark = "--" if path.endswith(".antt") else "//"
    pattern = re.compile(r'"(?:[^"\\]|\\.)*"|' + (r"(?<!\S)--[^\n]*" if mark == "--" else r"//[^\n]*"))
    at = 0
    for m in pattern.finditer(text):
        yield True, text[at:m.start()]
        yield False, m.group(0)
        at = m.end()
    yield True, text[at:]


def main(argv):
    names, both = declared()
    for n in both:
        print(f"kept, as a goal has this name too: {n}")
    changed = 0
    for path in files((".antt", ".rt")):
        before = text_of(path)
        kept = library_names(before)

        def turn(m):
            n = m.group(0)
            return n if n in kept else names.get(n, n)

        out = []
        for live, piece in pieces(path, before):
            if live:
                piece = FIRST.sub("first_refusal", TOKEN.sub(turn, piece))
            else:
                piece = re.sub(r"`(" + NAME + ")`", lambda m: "`" + names.get(m.group(1), m.group(1)) + "`", piece)
            out.append(piece)
        after = "".join(out)
        if after != before:
            changed += 1
            if "--dry" not in argv:
                with open(path, "w", encoding="utf-8") as f:
                    f.write(after)
    print(f"respell: {len(names)} names, {changed} files")
    return 0


if __name__ == "__main__":
    raise SystemExit(main(sys.argv[1:]))
