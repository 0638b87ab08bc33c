#!/usr/bin/env python3
"""Turns the repository's own definitions, lemmas and variables from camel case to snake case.

usage: python3 tools/snake_names.py [FOLDER]   in the repository, once, right after the kit's port.py

A name is turned where it begins with a small letter, or where a part of it behind a dash does: numbersOf is
numbers_of, length-lengthBytes is length-length_bytes. Types, facts and modules keep their capitals. Every .antt
file and every .rt file below FOLDER/crates is read, clauses and comments alike; code has no such name. A new name
that a file had already, as another thing of antt, is listed as 'falls together', and nothing is written.
"""
import os
import re
import sys

NAME = re.compile(r"(?<![\w'\"-])[^\W\d][\w']*(?:-[\w']+)*")
CAMEL = re.compile(r"(?<=[a-z0-9])([A-Z])")


def snake(part):
    return CAMEL.sub(lambda m: "_" + m.group(1).lower(), part) if part[:1].islower() else part


def turned(name):
    return "-".join(map(snake, name.split("-")))


def files(root):
    for folder, dirs, names in os.walk(os.path.join(root, "crates")):
        dirs[:] = sorted(d for d in dirs if d != "out")
        for name in sorted(names):
            if name.endswith((".antt", ".rt")):
                yield os.path.join(folder, name)


def plain(text):
    """The names that stand for themselves in text, comments aside: no field, no part of a path."""
    text = re.sub(r"--.*", "", text)
    return {m.group() for m in NAME.finditer(text) if text[m.start() - 1 : m.start()] != "."}


def main(root):
    texts = {}
    for path in files(root):
        with open(path, encoding="utf-8") as f:
            texts[path] = f.read()
    clash = []
    for path, text in texts.items():
        if path.endswith(".antt"):
            names = plain(text)
            clash += [f"{path}: {n} and {turned(n)}" for n in names if turned(n) != n and turned(n) in names]
    if clash:
        print("falls together: " + "\nfalls together: ".join(sorted(clash)))
        return 1
    for path, text in texts.items():
        new = NAME.sub(lambda m: turned(m.group()), text)
        if new != text:
            with open(path, "w", encoding="utf-8") as f:
                f.write(new)
    return 0


if __name__ == "__main__":
    sys.exit(main(sys.argv[1] if len(sys.argv) > 1 else "."))
