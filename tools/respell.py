#!/usr/bin/env python3
"""Respells this repository's own definitions and lemmas: words in snake case, types with a capital, no middle dot.

usage: tools/respell.py [FOLDER]      FOLDER is the top of the repository, by default the one that this file lies in

Each row of respell.tsv is an old name, a tab and the new one. Whole words turn: in .antt and .rt files under crates/ and in
must-fail/*.edit everywhere but in the prose of a comment, where only names with an inner capital do; in README.md and
docs/*.md within code spans. A third column names the one file in which a row counts. A second run changes nothing.
"""

import os
import re
import sys

HERE = os.path.dirname(os.path.realpath(__file__))
WORD = re.compile(r"[^\s(){}.;,@\"«»:\[\]|λ→⌜⌝`]+")
SPAN = re.compile(r"`[^`\n]+`")
INNER = re.compile(r"^[a-z][A-Za-z0-9_']*$")


def table():
    everywhere, one_file = {}, {}
    with open(os.path.join(HERE, "respell.tsv"), encoding="utf-8") as f:
        for line in f:
            row = line.rstrip("\n").split("\t")
            if len(row) == 3:
                one_file.setdefault(row[2], {})[row[0]] = row[1]
            else:
                everywhere[row[0]] = row[1]
    return everywhere, one_file


def turned(text, names):
    return WORD.sub(lambda m: names.get(m.group(0), m.group(0)), text)


def code(text, names, comment):
    prose = {a: b for a, b in names.items() if INNER.match(a)}
    out = []
    for line in text.split("\n"):
        at = line.find(comment)
        if at < 0:
            out.append(turned(line, names))
        else:
            out.append(turned(line[:at], names) + turned(line[at:], prose))
    return "\n".join(out)


def page(text, names):
    return SPAN.sub(lambda m: turned(m.group(0), names), text)


def files(top):
    for folder, dirs, names in os.walk(os.path.join(top, "crates")):
        dirs[:] = sorted(d for d in dirs if d not in ("out", "data"))
        for n in sorted(names):
            if n.endswith((".antt", ".rt", ".edit")):
                yield os.path.join(folder, n)
    yield os.path.join(top, "README.md")
    docs = os.path.join(top, "docs")
    for n in sorted(os.listdir(docs)):
        if n.endswith(".md") and n != "PORT.md":
            yield os.path.join(docs, n)


def main():
    top = os.path.realpath(sys.argv[1] if len(sys.argv) > 1 else os.path.join(HERE, ".."))
    everywhere, one_file = table()
    changed = 0
    for path in files(top):
        with open(path, encoding="utf-8") as f:
            old = f.read()
        names = everywhere | one_file.get(os.path.relpath(path, top), {})
        if path.endswith(".md"):
            new = page(old, names)
        else:
            new = code(old, names, "//" if path.endswith(".rt") else "--")
        if new != old:
            with open(path, "w", encoding="utf-8") as f:
                f.write(new)
            changed += 1
    print(f"respell: {changed} files changed")


main()
