#!/usr/bin/env python3
"""Brings the repository's own definitions and lemmas to today's spelling: facts and records in camel case, all else in snake
case, a dash only between two names. Run once, at the top, after the kit's port.py; the table is beside this file.

It changes whole names alone, in specs/ and proofs/ (comments too) and in the clauses and ghost items of src/; functions, strings,
inputs and outputs keep their names: no name of the table can be written in Rust."""
import os
import re

HERE = os.path.dirname(os.path.realpath(__file__))
NAME = re.compile(r"[A-Za-z_μℕ][A-Za-z0-9_'ℕ]*(?:-[A-Za-z0-9_'ℕ]+)*")


def table():
    with open(os.path.join(HERE, "respelled.txt"), encoding="utf-8") as f:
        return dict(line.split() for line in f if line.strip())


def sources():
    for folder, dirs, names in os.walk("crates"):
        dirs[:] = sorted(d for d in dirs if d != "out")
        for name in sorted(names):
            if name.endswith((".antt", ".rt")):
                yield os.path.join(folder, name)


def main():
    names = table()
    for path in sources():
        with open(path, encoding="utf-8") as f:
            old = f.read()
        new = NAME.sub(lambda m: names.get(m.group(), m.group()), old)
        if new != old:
            with open(path, "w", encoding="utf-8") as f:
                f.write(new)


if __name__ == "__main__":
    main()
