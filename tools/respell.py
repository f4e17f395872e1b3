#!/usr/bin/env python3
"""Brings this repository's own definitions and lemmas to one spelling: words in snake case, types in camel case.

usage: python3 tools/respell.py [FOLDER]

Goes over crates/ below FOLDER (here, if none is given) once, after the kit's port.py, and turns each whole word that stands first in a row of
respell.tsv (beside this file) to the second: in .antt files, in .rt files and in must-fail edits, but in no comment and no string.
A lemma that would have had its definition's name ends in _lem.
"""

import os
import re
import sys

HERE = os.path.dirname(os.path.realpath(__file__))
# a string, a comment of either language, or a word
PARTS = re.compile(r"""b?"(?:\\.|[^"\\])*"|--[^\n]*|//[^\n]*|[A-Za-z_][A-Za-z0-9_'-]*""")


def table():
    with open(os.path.join(HERE, "respell.tsv"), encoding="utf-8") as f:
        return dict(line.rstrip("\n").split("\t") for line in f)


def files(root):
    for folder, dirs, names in os.walk(os.path.join(root, "crates")):
        dirs[:] = sorted(d for d in dirs if d != "out")
        for name in sorted(names):
            if name.endswith((".antt", ".rt", ".edit")):
                yield os.path.join(folder, name)


def main(root):
    rows = table()
    changed = 0
    for path in files(root):
        with open(path, encoding="utf-8") as f:
            old = f.read()
        new = PARTS.sub(lambda m: rows.get(m[0], m[0]), old)
        if new != old:
            changed += 1
            with open(path, "w", encoding="utf-8") as f:
                f.write(new)
    print(f"respell: {changed} files changed")


if __name__ == "__main__":
    main(sys.argv[1] if len(sys.argv) > 1 else ".")
