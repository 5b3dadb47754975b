#!/usr/bin/env python3
"""Holds the definitions and clauses of a repository against those before a respelling.

usage: python3 tools/same-words.py OLD NEW      two folders with crates/: before (with paths of the older form) and after

Definitions (specs/) are read as words, without comments, `use` lines, brackets and the dots of projections. Both sides must have the same number of words,
and each word of OLD must stand for one word of NEW throughout: what it prints is each file where that is not so, each word that stands for several, and each
that is no plain respelling (camel case or dashes to snake case). Of each function's clauses it prints those whose words differ by more than that, with
`x .entry` read as `x.now` or `x.old` and `x .exit` as `x.new`.

It does not see how brackets group, where a `use` line brings a word from, signatures, constants, or the laws in proofs/.
"""

import os
import re
import sys

WORD = re.compile(r'"[^"]*"|[λ⌜⌝⟦⟧→:=.(){}\[\],;]|[^\s(){}\[\],;.:λ=→⌜⌝"⟦⟧]+')


def snake(n):
    if not n[:1].islower():
        return n
    n = re.sub(r"([a-zA-Z0-9])([A-Z][a-z])", r"\1_\2", n)
    return re.sub(r"([a-z0-9])([A-Z])", r"\1_\2", n).lower().replace("-", "_")


def read(path):
    with open(path, encoding="utf-8") as f:
        return f.read()


def definition_words(path):
    lines, inside = [], False
    for line in re.sub(r"--[^\n]*", "", read(path)).split("\n"):
        if inside or re.match(r"\s*(pub )?use ", line):
            inside = "}" not in line and (inside or "{" in line)
            continue
        lines.append(line)
    return [w for w in WORD.findall("\n".join(lines)) if w not in "()."]


def clauses(path):
    text = re.sub(r"//[^\n]*", "", read(path))
    for m in re.finditer(r"\bfn (\w+)", text):
        end = re.search(r"\n\s*\{\n", text[m.end():])
        head = text[m.end():m.end() + end.start()] if end else text[m.end():]
        other = re.search(r"\bfn \w+", head)
        head = head[:other.start()] if other else head
        starts = [q for q in re.finditer(r"(?m)^\s*(requires|ensures)\*?\s*\w*\s*\{", head)] + [None]
        found = []
        for q, following in zip(starts, starts[1:]):
            its = head[q.end():following.start() if following else None]
            found.append((q.group(1), " ".join(its.split()).rstrip("}").strip()))
        yield m.group(1), found


def clause_words(text, old):
    text = text.replace("«", "").replace("»", "")
    if old:
        bound = re.match(r"\s*λ (\w+)\.", text)
        text = text[bound.end():] if bound else text
        text = re.sub(r"[⌜⌝]|\bdo\b", " ", text)
        text = re.sub(r"\bnow \((\w+) \.entry\)", r"\1@entry", text)
        text = re.sub(r"\bnow \((\w+) \.exit\)", r"\1@exit", text)
        text = re.sub(r"\bnow (\w+)\b", r"\1@entry", text)
        text = re.sub(r"\((\w+) \.entry\)", r"\1", text)
        if bound:
            text = re.sub(rf"(?<![\w.]){bound.group(1)}(?!\w)", "result", text)
    else:
        text = re.sub(r"(\w+)\.(now|old)\b", r"\1@entry", text)
        text = re.sub(r"(\w+)\.new\b", r"\1@exit", text)
    return [snake(w.replace("_≡_", "≡")) for w in WORD.findall(text) if w not in "()."]


def main(old, new):
    stands, files = {}, 0
    for crate in sorted(os.listdir(os.path.join(old, "crates"))):
        folder = os.path.join(old, "crates", crate, "specs")
        for name in sorted(os.listdir(folder)) if os.path.isdir(folder) else []:
            path = os.path.join("crates", crate, "specs", name)
            a, b = definition_words(os.path.join(old, path)), definition_words(os.path.join(new, path))
            files += 1
            if len(a) != len(b):
                print(f"{path}: {len(a)} and {len(b)} words")
                continue
            for x, y in zip(a, b):
                stands.setdefault(x, set()).add(y)
    print(f"{files} files of definitions; {len(stands)} words, {sum({x} != ys for x, ys in stands.items())} respelled")
    for x, ys in sorted(stands.items()):
        if len(ys) > 1 or ys != {x} and next(iter(ys)).replace("-", "_") != snake(x):
            print(f"  {x}: {' '.join(sorted(ys))}")
    count, differ = 0, 0
    for crate in sorted(os.listdir(os.path.join(old, "crates"))):
        for folder, _, names in os.walk(os.path.join(old, "crates", crate, "src")):
            for name in sorted(names):
                path = os.path.join(folder, name)
                now = dict(clauses(path.replace(old, new, 1)))
                for fn, its in clauses(path):
                    other = now.get(fn)
                    if other is None or len(other) != len(its):
                        print(f"{crate}::{fn}: {len(its)} clauses before")
                        differ += 1
                        continue
                    for (kind, x), (kind2, y) in zip(its, other):
                        count += 1
                        if kind != kind2 or clause_words(x, True) != clause_words(y, False):
                            differ += 1
                            print(f"{crate}::{fn} {kind}\n  - {x.strip()}\n  + {y.strip()}")
    print(f"{count} clauses, {differ} differ by more than that")


if __name__ == "__main__":
    if len(sys.argv) != 3:
        print(__doc__)
        raise SystemExit(2)
    main(sys.argv[1].rstrip("/"), sys.argv[2].rstrip("/"))
