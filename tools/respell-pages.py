#!/usr/bin/env python3
"""Brings the names between backticks in README.md, host/README.md and docs/ to those of crates/: run after tools/respell.py.

A name that crates/ no longer has is respelled in snake case where crates/ has that.
"""
import os
import re
import sys

sys.path.insert(0, os.path.dirname(os.path.abspath(__file__)))
from respell import TOKEN, files, snake

root = os.getcwd()
have = set()
for path in files(root, ".antt", ".rt"):
    with open(path, encoding="utf-8") as f:
        have.update(TOKEN.findall(f.read()))
edits = {e[:-5] for folder, _, names in os.walk(os.path.join(root, "crates")) for e in names if e.endswith(".edit")}


def word(m):
    w = m.group()
    if w in have or w in edits:
        return w
    for s in (snake(w) if w[0].islower() else w, snake(w).replace("-", "_") if w[0].islower() else w):
        if s != w and s in have:
            return s
    return w


for folder, dirs, names in [(root, [], ["README.md"]), (os.path.join(root, "host"), [], ["README.md"]), *os.walk(os.path.join(root, "docs"))]:
    for name in names:
        if not name.endswith(".md") or name.startswith("PORT"):
            continue
        path = os.path.join(folder, name)
        with open(path, encoding="utf-8") as f:
            text = f.read()
        made = re.sub(r"`[^`\n]*`", lambda m: TOKEN.sub(word, m.group()), text)
        if made != text:
            with open(path, "w", encoding="utf-8") as f:
                f.write(made)
            print(os.path.relpath(path, root))
