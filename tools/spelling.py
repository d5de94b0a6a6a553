#!/usr/bin/env python3
"""Spells this repository's own definitions and lemmas as the kit of November 2026 does: words in snake case.

usage: python3 tools/spelling.py [FOLDER]

Run once, after the kit's port.py, at the top of FOLDER (here, if none is given). spelling.tsv beside this script has a row for each name: the
old one, a tab, the new one, and where it holds only in some files a tab and these. Whole names turn, in .antt, .rt and .edit files and in the
code spans of .md files. Two names that would have fallen together are told apart by `_law` on the lemma's.
"""
import os
import re
import sys

NAME = re.compile(r'[^\s(){}.;,@"«»\x60]+')
SPAN = re.compile(r"\x60[^\x60\n]+\x60")


def table():
    everywhere, only = {}, {}
    with open(os.path.join(os.path.dirname(os.path.abspath(__file__)), "spelling.tsv"), encoding="utf-8") as f:
        for line in f:
            old, new, *files = line.rstrip("\n").split("\t")
            if not files:
                everywhere[old] = new
            for path in files[0].split() if files else ():
                only.setdefault(path, {})[old] = new
    return everywhere, only


def main(root):
    everywhere, only = table()
    for folder, folders, files in os.walk(root):
        folders[:] = [d for d in folders if d not in ("out", ".git", "target", "tools")]
        for name in files:
            path = os.path.join(folder, name)
            rows = everywhere | only.get(os.path.relpath(path, root), {})

            def turn(text):
                return NAME.sub(lambda m: rows.get(m[0], m[0]), text)

            if name.endswith((".antt", ".rt", ".edit", ".md")):
                with open(path, encoding="utf-8") as f:
                    old = f.read()
                new = SPAN.sub(lambda m: turn(m[0]), old) if name.endswith(".md") else turn(old)
                if new != old:
                    with open(path, "w", encoding="utf-8") as f:
                        f.write(new)


main(sys.argv[1] if len(sys.argv) > 1 else ".")
