#!/usr/bin/env python3
"""Respells the names of definitions, fields and lemmas by the table snake_names.tsv beside it: old name, tab, new name,
and where the old name is a Rust item's too, a tab and the files below crates/ in which it is the definition's or lemma's.

usage: python3 tools/snake_names.py [FOLDER]    at the top of the repository, once, after /opt/rattle/port/port.py

It goes through the .rt and .antt files and the must-fail edits of FOLDER/crates (FOLDER is the current one where none is
given). A name is replaced where it stands as a whole word: in code and clauses outside string literals, and in comments
where the word is in camel case or stands between backticks. Names of Rust items, exported names and strings stay.
"""

import os
import re
import sys

HERE = os.path.dirname(os.path.realpath(__file__))
WORD = re.compile(r"[A-Za-z_∩∪∖⊆⊎<ℕℤμ+◌][\w'₀-₉◌ℕℤ∩∪∖⊆≤-]*")
STRING = re.compile(r'b?"(?:[^"\\]|\\.)*"')


def table():
    with open(os.path.join(HERE, "snake_names.tsv"), encoding="utf-8") as f:
        rows = [line.rstrip("\n").split("\t") for line in f]
    return {r[0]: r[1] for r in rows if len(r) == 2}, {(p, r[0]): r[1] for r in rows if len(r) == 3 for p in r[2].split()}


def words(text, names):
    return WORD.sub(lambda m: names.get(m[0], m[0]), text)


def comment(text, names):
    """A hyphen is common in English, so that a name with one is replaced between backticks alone."""
    parts = text.split("`")
    for i, part in enumerate(parts):
        inside = i % 2 == 1
        parts[i] = WORD.sub(lambda m: names.get(m[0], m[0]) if inside or re.search("[a-z][A-Z]", m[0]) else m[0], part)
    return "`".join(parts)


def code(text, names):
    done, last = [], 0
    for m in STRING.finditer(text):
        done += [words(text[last:m.start()], names), m[0]]
        last = m.end()
    return "".join(done) + words(text[last:], names)


def line(text, names, mark):
    at = text.find(mark)
    while at >= 0 and text.count('"', 0, at) % 2:
        at = text.find(mark, at + 1)
    if at < 0:
        return code(text, names)
    return code(text[:at], names) + comment(text[at:], names)


def turned(path, text, names):
    mark = "-- " if path.endswith(".antt") else "//"
    if path.endswith(".edit"):
        mark = "//" if "file: src/" in text else "-- "
    out = []
    for l in text.split("\n"):
        if path.endswith(".antt") and l.strip() == "--":
            out.append(l)
        elif path.endswith(".edit") and not l.startswith(("old:", "new:")):
            out.append(l)
        else:
            out.append(line(l, names, mark))
    return "\n".join(out)


def main(argv):
    names, by_file = table()
    top = argv[0] if argv else "."
    changed = 0
    for folder, dirs, files in os.walk(os.path.join(top, "crates")):
        dirs[:] = sorted(d for d in dirs if d not in ("out", ".git"))
        for f in sorted(files):
            if not f.endswith((".rt", ".antt", ".edit")):
                continue
            path = os.path.join(folder, f)
            with open(path, encoding="utf-8") as it:
                text = it.read()
            here = os.path.relpath(path, os.path.join(top, "crates"))
            new = turned(path, text, names | {old: to for (file, old), to in by_file.items() if file == here})
            if new != text:
                with open(path, "w", encoding="utf-8") as it:
                    it.write(new)
                changed += 1
    print(f"{changed} files changed")


if __name__ == "__main__":
    main(sys.argv[1:])
