#!/usr/bin/env python3
"""Spells the repository's own definitions and lemmas in snake case, as Rattle's are.

usage: tools/respell.py [FILE..]     with no FILE: every .antt, .rt and .edit file below crates/

tools/respelled.txt lists the names, in the spelling that they had. A name of a library that this repository uses too
keeps the library's spelling. In code the text of a string and of a comment stays, but for what stands in backquotes;
in any other FILE only what stands in backquotes is turned.
"""

import os
import re
import sys

HERE = os.path.dirname(os.path.realpath(__file__))
with open(os.path.join(HERE, "respelled.txt"), encoding="utf-8") as f:
    NAMES = set(f.read().split())
# A word as antt cuts words, and what it may hold of a path.
WORD = re.compile(r"[^\s(){}.;,@\"«»`:/\[\]]+")
FUNCTION = re.compile(r"/proofs/(.*/)?Proof\.antt$")


def turned(text, kept=()):
    return WORD.sub(lambda m: m.group().replace("-", "_") if m.group() in NAMES and m.group() not in kept else m.group(), text)


def quoted(text):
    return re.sub(r"`[^`\n]*`", lambda m: turned(m.group()), text)


def source(line, comment):
    """A line of code: its words, and of its comment what stands in backquotes."""
    at = line.find(comment)
    while at >= 0 and (line[:at].count('"') % 2 or (at and comment == "--" and not line[at - 1].isspace())):
        at = line.find(comment, at + 1)
    code, said = (line, "") if at < 0 else (line[:at], line[at:])
    parts = re.split(r'("(?:[^"\\]|\\.)*")', code)
    return "".join(p if i % 2 else turned(p) for i, p in enumerate(parts)) + quoted(said)


def respell(path):
    with open(path, encoding="utf-8") as f:
        old = f.read()
    if path.endswith((".antt", ".rt")):
        comment = "--" if path.endswith(".antt") else "//"
        new = "".join(source(line, comment) for line in old.splitlines(keepends=True))
    elif path.endswith(".edit"):
        new = "".join(line if line.startswith("file:") else turned(line) for line in old.splitlines(keepends=True))
    else:
        new = quoted(old)
    if new != old:
        with open(path, "w", encoding="utf-8") as f:
            f.write(new)


def main(paths):
    if not paths:
        for folder, dirs, files in os.walk("crates"):
            dirs[:] = sorted(d for d in dirs if d != "out")
            paths += [os.path.join(folder, f) for f in sorted(files) if f.endswith((".antt", ".rt", ".edit"))]
    for path in paths:
        respell(path)


if __name__ == "__main__":
    main(sys.argv[1:])
