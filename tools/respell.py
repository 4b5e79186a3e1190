#!/usr/bin/env python3
"""Respells the repository's own names in camel case, which port.py leaves: definitions and lemmas go to snake case, a fact to upper camel case.

usage: python3 tools/respell.py        at the top, once, after port.py and before any edit by hand

Renamed are names declared in .antt files of crates/ (definitions, lemmas, constructors, fields, arguments of imports by `as`), wherever they
stand as whole words: in .antt and .rt files, in must-fail edits, and in the pages. The names of functions in src/ are in snake case already.
It prints where two names would fall together in one file.
"""

import os
import re
import sys

# What a part of a name is called by the library now.
PARTS = {"getD": "get_or"}
# Names that get another name than the rule gives: a fact; a lemma that would meet the definition it is about.
OWN = {"finishedWithin": "FinishedWithin"}
LOCAL = {
    "crates/laws/specs/ItemWalk.antt": {"after_open": "visited-after_open"},
    "crates/project/specs/DecodedLaws.antt": {"item_in": "item-in"},
    "crates/project/proofs/sections/item_at/Proof.antt": {"item_in": "item-in"},
    "crates/project/proofs/reader/bad_row_at/Proof.antt": {"item_in": "item-in"},
    "crates/chunk/specs/CircleLaws.antt": {"list_at": "list-at"},
    "crates/chunk/proofs/circles/is_listed/Proof.antt": {"list_at": "list-at"},
    "crates/chunk/proofs/circles/listed_with/Proof.antt": {"list_at": "list-at"},
}
# Names given by `as` or bound in a `where`, which no declaration shows.
BOUND = ["newMarks", "numbersIn", "precedingOf", "replyLength", "startsOf", "staysOpen"]

WORD = re.compile(r"[\w'∈-]+")
DECLARED = [
    re.compile(r"^\s*(?:abbrev\s+)?(?:unfoldable\s+)?(?:pub\s+)?([^\s:(){}|]+)\s*(?:[({].*[)}]\s*)*:(?!=)"),
    re.compile(r"^\s*(?:pub\s+)?(?:data|record)\s+([^\s:(){}]+)"),
]


def snake(name):
    parts = []
    for part in name.split("-"):
        part = PARTS.get(part, part)
        if re.match("[a-z]", part):
            part = re.sub(r"([a-z0-9])([A-Z])", lambda m: m.group(1) + "_" + m.group(2).lower(), part)
        parts.append(part)
    return "-".join(parts)


def files(root, *ends):
    for folder, folders, names in os.walk(root):
        folders[:] = sorted(f for f in folders if f != "out")
        for name in sorted(names):
            if name.endswith(ends):
                yield os.path.join(folder, name)


def read(path):
    with open(path, encoding="utf-8") as f:
        return f.read()


def table():
    names = set(BOUND)
    for path in files("crates", ".antt"):
        for line in read(path).split("\n"):
            for shape in DECLARED:
                m = shape.match(line)
                if m and WORD.fullmatch(m.group(1)):
                    names.add(m.group(1))
    return {n: OWN.get(n, snake(n)) for n in names if n in OWN or snake(n) != n}


def respelled(path, text, names):
    own = LOCAL.get(path, {})

    def word(m):
        w = m.group(0)
        if w in own and text[m.start() - 1 : m.start()] != ".":
            return own[w]
        return names.get(w, w)

    return WORD.sub(word, text)


def clashes(path, text, names):
    words = set(WORD.findall(text))
    return sorted(n for n in words if n in names and names[n] in words and names[n] not in LOCAL.get(path, {}))


def main():
    names = table()
    changed = 0
    pages = ["README.md", *files("docs", ".md")]
    for path in [*files("crates", ".antt", ".rt", ".edit"), *pages]:
        text = read(path)
        if path.endswith(".antt"):
            for name in clashes(path, text, names):
                print(f"look: {path}: {name} meets {names[name]}")
        new = respelled(path, text, names)
        if new != text:
            changed += 1
            with open(path, "w", encoding="utf-8") as f:
                f.write(new)
    print(f"{len(names)} names, {changed} files changed")
    for name in sorted(names):
        print(f"{name} {names[name]}")


sys.exit(main())
