#!/usr/bin/env python3
"""Respells the names of definitions, fields and lemmas in the pages, by the tables snake_names.tsv and port_names.tsv beside it
(old name, tab, new name): a word of a table is replaced where it stands between backticks.

usage: python3 tools/doc_names.py    at the top of the repository, once

port_names.tsv has the names in the pages that port.py respelled by itself; it goes before the other table.
"""

import os
import re

HERE = os.path.dirname(os.path.realpath(__file__))
PAGES = ["README.md"] + [f"docs/{name}.md" for name in "STATEMENTS DECISIONS GATE REFUSALS CHANGES".split()]
WORD = re.compile(r"[A-Za-z_∩∪∖⊆⊎<ℕℤμ+◌][\w'₀-₉◌ℕℤ∩∪∖⊆≤-]*")


def names():
    table = {}
    for file in ("snake_names.tsv", "port_names.tsv"):
        with open(os.path.join(HERE, file), encoding="utf-8") as f:
            rows = [line.rstrip("\n").split("\t") for line in f]
        table |= {row[0]: row[1] for row in rows if len(row) > 1}
    return table


def main():
    table = names()
    for page in PAGES:
        with open(page, encoding="utf-8") as f:
            text = f.read()
        new = re.sub(r"`[^`\n]+`", lambda span: WORD.sub(lambda word: table.get(word[0], word[0]), span[0]), text)
        new = re.sub(r"(`[^`\n]*?\w) (\.\w[^`\n]*`)", r"\1\2", new)
        with open(page, "w", encoding="utf-8") as f:
            f.write(new)


if __name__ == "__main__":
    main()
