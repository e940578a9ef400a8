#!/usr/bin/env python3
"""Renames the repository's own definitions and lemmas by the table port_names.txt beside this file: snake case, no dash.

usage: python3 tools/port_names.py    at the top of the repository, once, right after /opt/rattle/port/port.py

A name is a whole word of antt. Names in src/ that are no definitions of specs/ stay: the table has no word of theirs but end_before, which is kept there.
The kit's script turned some names already; of these, and only in pages and edits, the lines of the table that end in `pages` speak.
Proof.antt files of functions keep the names that they declare. In pages a name is turned where it stands alone within backticks."""
import glob
import os
import re

HERE = os.path.dirname(os.path.realpath(__file__))
WORD = r"[^\s(){}\[\],;.:λ`\"]+"
everywhere, here, pages = {}, {}, {}
for line in open(os.path.join(HERE, "port_names.txt"), encoding="utf-8"):
    if line.startswith("#"):
        continue
    old, new, *files = line.split()
    if files == ["pages"]:
        pages[old] = new
    elif files:
        here.setdefault(files[0], {})[old] = new
    else:
        everywhere[old] = new
KEPT = {"end_before"}  # a function of src/


def turned(text, table, path):
    def one(m):
        word = m.group(0)
        if word not in table:
            return word
        if word in KEPT and (path.endswith(".rt") or text[m.start() - 1 : m.start()] == "." or text[m.end() : m.end() + 1] == "."):
            return word
        return table[word]

    return re.sub(WORD, one, text)


def write(path, new, old):
    if new != old:
        with open(path, "w", encoding="utf-8") as f:
            f.write(new)


for path in sorted(glob.glob("crates/*/**/*", recursive=True) + glob.glob("tests/edits/**/*.edit", recursive=True)):
    if "/out/" in path or not path.endswith((".antt", ".rt", ".edit")):
        continue
    with open(path, encoding="utf-8") as f:
        text = f.read()
    table = everywhere | here.get(path, {}) | (pages if path.endswith(".edit") else {})
    if os.path.basename(path) == "Proof.antt":
        for m in re.finditer(r"(?m)^\s*(?:(?:pub|abbrev|unfoldable) )*(" + WORD + r") : ", text):
            table.pop(m.group(1), None)
    write(path, turned(text, table, path), text)

for path in sorted(glob.glob("*.md") + glob.glob("docs/**/*.md", recursive=True)):
    with open(path, encoding="utf-8") as f:
        text = f.read()
    write(path, re.sub(r"`(" + WORD + r")`", lambda m: "`" + (pages | everywhere).get(m.group(1), m.group(1)) + "`", text), text)
