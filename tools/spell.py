#!/usr/bin/env python3
"""Spells the repository's own definitions and lemmas as Rattle's library spells its own: words in snake case, a dash only
between the names of two functions.

usage: python3 tools/spell.py [FOLDER]

FOLDER holds crates/ (this one, if none is given). tools/names.txt has a line for each name: the old spelling and the new one.
Whole names are replaced in every .rt, .antt and .edit file, but not within double quotes; names of Rust's (functions, fields,
types) are not on the list. In README.md and docs/ a name between backticks is replaced. A second run changes nothing."""

import os
import re
import sys

HERE = os.path.dirname(os.path.realpath(__file__))
LETTER = r"[\w'\-]"


def names():
    with open(os.path.join(HERE, "names.txt"), encoding="utf-8") as f:
        return dict(line.split() for line in f if line.strip())


def outside_quotes(text, turn):
    parts = re.split(r'("(?:[^"\\\n]|\\.)*")', text)
    return "".join(p if i % 2 else turn(p) for i, p in enumerate(parts))


def main(root):
    table = names()
    some = "|".join(sorted(map(re.escape, table), key=len, reverse=True))
    name = re.compile(rf"(?<!{LETTER})(?:{some})(?!{LETTER})")
    quoted = re.compile(rf"(?<=`)(?:{some})(?=`)")

    def turn(text):
        return name.sub(lambda m: table[m[0]], text)

    for folder, dirs, files in os.walk(root):
        dirs[:] = sorted(d for d in dirs if d not in ("out", ".git", "target", "tools"))
        for f in sorted(files):
            path = os.path.join(folder, f)
            if os.path.islink(path):
                continue
            page = f.endswith(".md")
            if not page and not f.endswith((".rt", ".antt", ".edit")):
                continue
            with open(path, encoding="utf-8") as it:
                old = it.read()
            new = quoted.sub(lambda m: table[m[0]], old) if page else outside_quotes(old, turn)
            if new != old:
                with open(path, "w", encoding="utf-8") as it:
                    it.write(new)


if __name__ == "__main__":
    main(os.path.abspath(sys.argv[1] if len(sys.argv) > 1 else "."))
