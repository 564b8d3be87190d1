#!/usr/bin/env python3
"""Gives this repository's own definitions, constructors, fields and lemmas the spelling of today's Rattle: words in snake case.

usage: tools/respell.py            at the top, once, after port.py: rewrites crates/*/specs, crates/*/proofs, and the names in the sources' clauses and comments
       tools/respell.py --edits    the same, with the lines of crates/*/must-fail/*.edit
       tools/respell.py --names    writes the old and the new names, one pair a line

A name's parts stand between dashes; a part that begins with a small letter loses its humps: codedBits-le becomes coded_bits-le. What a name of Rattle source makes keeps its spelling.
"""

import glob
import re
import sys

WORD = re.compile(r"[A-Za-z_][A-Za-z0-9_]*'*(?:[A-Za-z0-9_]+'*)*(?:-[A-Za-z0-9_'*≤<]+)*")
PART = re.compile(r"^[a-z][a-z0-9_']*[A-Z]")
KEEP = {"line_Refused", "x47B805FC"}
# Names of today's library that stand in a name.
WORDS = {"getD": "get_or"}


def part_of(part):
    if not PART.match(part):
        return part
    if part in WORDS:
        return WORDS[part]
    part = re.sub(r"([a-z0-9'])([A-Z])", r"\1_\2", part)
    return part.lower()


def name_of(name):
    if name in KEEP:
        return name
    return "-".join(part_of(p) for p in name.split("-"))


def texts(kinds):
    for kind in kinds:
        yield from sorted(glob.glob("crates/*/" + kind, recursive=True))


ANTT = ["specs/**/*.antt", "proofs/**/*.antt"]


def names():
    found = set()
    for path in texts(ANTT):
        with open(path, encoding="utf-8") as f:
            for word in WORD.findall(f.read()):
                if name_of(word) != word:
                    found.add(word)
    return {old: name_of(old) for old in sorted(found)}


def turned(text, pairs):
    return WORD.sub(lambda m: pairs.get(m.group(0), m.group(0)), text)


def sources(text, pairs):
    """A source: strings stay, the rest is turned."""
    parts = re.split(r'("(?:[^"\\\n]|\\.)*")', text)
    return "".join(p if i % 2 else turned(p, pairs) for i, p in enumerate(parts))


def main():
    pairs = names()
    # A part of a longer name turns too, where only sources and edits have it.
    full = dict(pairs)
    if "--names" in sys.argv:
        for old, new in pairs.items():
            print(old, new)
        return
    for path in texts(ANTT):
        with open(path, encoding="utf-8") as f:
            text = f.read()
        with open(path, "w", encoding="utf-8") as f:
            f.write(turned(text, full))
    for path in texts(["src/**/*.rt"] + (["must-fail/*.edit"] if "--edits" in sys.argv else [])):
        with open(path, encoding="utf-8") as f:
            text = f.read()
        with open(path, "w", encoding="utf-8") as f:
            f.write(sources(text, full))


if __name__ == "__main__":
    main()
