#!/usr/bin/env python3
"""Gives this repository's own definitions, fields and lemmas the spelling of today's Rattle. Run once, at the top, right after port.py.

The table is respelled.tsv beside this file: old, a tab, new. It turns whole words: in antt code, in clauses and ghost imports of .rt files, in code spans of
pages, and in the lines of must-fail edits. Functions of src/, exported names, inputs and outputs keep their names.
"""
import os, re, subprocess, sys

HERE = os.path.dirname(os.path.realpath(__file__))
TABLE = os.path.join(HERE, "respelled.tsv")
SNAKE = "/opt/rattle/port/notes/2026-11-18-names-are-in-snake-case/snake.py"
WORD = re.compile(r'[^\s(){}.;,@"«»`]+')

with open(TABLE, encoding="utf-8") as f:
    table = dict(line.rstrip("\n").split("\t") for line in f if line.strip())
done = subprocess.run([sys.executable, SNAKE, "--table", TABLE, "--leave", os.path.join(HERE, "prose.txt"), "--only", "antt,rt,md", "crates", "docs", "README.md"])
for folder, dirs, files in os.walk("crates"):
    for name in sorted(files):
        if name.endswith(".edit"):
            path = os.path.join(folder, name)
            with open(path, encoding="utf-8") as f:
                text = f.read()
            new = WORD.sub(lambda m: table.get(m[0], m[0]), text)
            if new != text:
                with open(path, "w", encoding="utf-8") as f:
                    f.write(new)
                print("turned:", path)
sys.exit(done.returncode)
