#!/usr/bin/env python3
"""Brings the repository's own definitions and lemmas to Rattle's spelling: words in snake case, types and modules in camel case.

usage: python3 tools/respell.py [FOLDER]      once, after port.py: rewrites src/, specs/ and proofs/ of the folder's crates in place; no edit of must-fail/

Functions of src/, exported names and strings are in that spelling already. Four lemmas would get the name of the definition that they speak
of, in one file with it: they get `_lem`.
"""

import glob
import os
import re
import sys

LEMMAS = {"dead_cases", "no_table", "wrong_size", "part_bytes"}
WORD = re.compile(r"(?<![\w'])([a-z][a-z0-9_]*[A-Z]\w*)")
LEMMA = re.compile(r"(?<![\w.'-])(" + "|".join(sorted(LEMMAS)) + r")(?![\w'-])")
GARBLED = {"is_Within": "is_within"}


def snake(word):
    return re.sub(r"_+", "_", re.sub(r"([A-Z])", lambda m: "_" + m.group(1).lower(), word))


def turned(text, lemmas):
    if lemmas:
        text = LEMMA.sub(lambda m: m.group(1) + "_lem", text)
    return WORD.sub(lambda m: GARBLED.get(m.group(1)) or snake(m.group(1)), text)


def main(root):
    files = []
    for part in ("src", "specs", "proofs"):
        for end in ("rt", "antt"):
            files += glob.glob(os.path.join(root, "crates", "*", part, "**", "*." + end), recursive=True)
    for path in sorted(files):
        with open(path, encoding="utf-8") as f:
            old = f.read()
        new = turned(old, path.endswith(".antt"))
        if new != old:
            with open(path, "w", encoding="utf-8") as f:
                f.write(new)


if __name__ == "__main__":
    main(sys.argv[1] if len(sys.argv) > 1 else ".")
