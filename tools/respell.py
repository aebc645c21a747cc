#!/usr/bin/env python3
"""Spells this repository's own definitions and lemmas as today's Rattle spells words: in snake case.

usage: tools/respell.py   at the top of the repository, once, right after the kit's port.py

The table is respell.tsv beside this script: old name, tab, new name. Whole words alone turn: in .antt files the code, in .rt files the
clauses, ghost items and 'ghost use' lines, and in comments of both the words in camel case. Functions of src/, strings, inputs and
outputs keep their names.
"""

import glob
import os
import re
import sys

HERE = os.path.dirname(os.path.realpath(__file__))
WORD = re.compile(r"[^\s(){}.;,@\"«»`]+")
COMMENT = re.compile(r"(?<![^\s(){}.;,@\"«»])--[^\n]*|\"(?:[^\"\\\n]|\\.)*\"")
CLAUSE = re.compile(r"\b(?:requires|ensures)\b\*?\s*(?:\w+\s*)?\{|\bghost\s+\w+\s*[:=]\s*\{")
RUST_QUIET = re.compile(r"//[^\n]*|b?\"(?:\\.|[^\"\\])*\"")
CAMEL = re.compile(r"[a-z0-9][A-Z]")


def table():
    with open(os.path.join(HERE, "respell.tsv"), encoding="utf-8") as f:
        return dict(line.rstrip("\n").split("\t") for line in f if line.strip())


NAMES = table()


def words(text):
    return WORD.sub(lambda m: NAMES.get(m[0], m[0]), text)


def prose(text):
    """In a comment only a name in camel case is surely a name."""
    return WORD.sub(lambda m: NAMES.get(m[0], m[0]) if CAMEL.search(m[0]) else m[0], text)


def antt(text):
    made, at = [], 0
    for m in COMMENT.finditer(text):
        made += [words(text[at : m.start()]), prose(m[0]) if m[0].startswith("--") else m[0]]
        at = m.end()
    return "".join(made) + words(text[at:])


def closing(text, at):
    depth = 1
    while depth:
        depth += (text[at] == "{") - (text[at] == "}")
        at += 1
    return at


def rust(text):
    made, at = [], 0
    piece = re.compile(rf"{RUST_QUIET.pattern}|\bghost\s+use\b[^;]*;|{CLAUSE.pattern}")
    while m := piece.search(text, at):
        made.append(text[at : m.start()])
        if m[0].startswith("//"):
            made.append(prose(m[0]))
            at = m.end()
        elif m[0].endswith("{"):
            at = closing(text, m.end())
            made += [m[0], antt(text[m.end() : at])]
        else:
            made.append(words(m[0]) if m[0].startswith("ghost") else m[0])
            at = m.end()
    return "".join(made) + text[at:]


def main():
    if not os.path.isdir("crates"):
        sys.exit("respell: run it at the top of the repository")
    for path in sorted(glob.glob("crates/*/**/*", recursive=True)):
        turn = antt if path.endswith(".antt") else rust if path.endswith(".rt") else None
        if turn is None or "/out/" in path:
            continue
        with open(path, encoding="utf-8") as f:
            text = f.read()
        new = turn(text)
        if new != text:
            with open(path, "w", encoding="utf-8") as f:
                f.write(new)


if __name__ == "__main__":
    main()
