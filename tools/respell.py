#!/usr/bin/env python3
"""Brings this repository's own definitions and lemmas to today's spelling: snake case, by the list in respell.txt beside this file.

usage: python3 tools/respell.py     at the top of a checkout, once, after port.py

A line of respell.txt is an old name and its new one. A lemma that would have its function's name ends in `_lem`. Functions of src/, exported
C names, strings, inputs and outputs keep their names. The module Contracts of a crate's specs/ becomes Promises, since Rattle now makes
a module of that name itself.
"""

import os
import re

HERE = os.path.dirname(os.path.realpath(__file__))
WORD = r"[A-Za-zℕ_][A-Za-z0-9_'\-ℕ₀-₉]*"


def names():
    with open(os.path.join(HERE, "respell.txt"), encoding="utf-8") as f:
        return dict(line.split() for line in f)


def respelled(text, table):
    text = re.sub(r"(?<![\w'\-◌+])" + WORD, lambda m: table.get(m.group(0), m.group(0)), text)
    text = re.sub(r"\bspecs\.Contracts\b", "specs.Promises", text)
    text = re.sub(r"\bspecs/Contracts\b", "specs/Promises", text)
    return re.sub(r"\bmod Contracts\b", "mod Promises", text)


def outside_strings(text, table):
    parts = re.split(r'("(?:[^"\\\n]|\\.)*")', text)
    return "".join(p if i % 2 else respelled(p, table) for i, p in enumerate(parts))


def main():
    table = names()
    for folder, dirs, files in os.walk("crates"):
        dirs[:] = [d for d in dirs if d != "out"]
        for f in files:
            p = os.path.join(folder, f)
            if not f.endswith((".antt", ".rt", ".edit")):
                continue
            with open(p, encoding="utf-8") as it:
                old = it.read()
            new = outside_strings(old, table) if f.endswith(".rt") else respelled(old, table)
            if new != old:
                with open(p, "w", encoding="utf-8") as it:
                    it.write(new)
            if f == "Contracts.antt" and os.path.basename(folder) == "specs":
                os.rename(p, os.path.join(folder, "Promises.antt"))


if __name__ == "__main__":
    main()
