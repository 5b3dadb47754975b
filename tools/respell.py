#!/usr/bin/env python3
"""Respells the names that the repository's specs/ and proofs/ declare: definitions, fields, constructors and lemmas in snake case, types as they are.

usage: python3 tools/respell.py [--list]     at the top of the repository; --list prints old and new names and changes nothing

A dash stays where it joins two names of definitions, as in `length-words`, and becomes `_` elsewhere and in fields. Where two names would fall together, the
lemma gets `_lem` and the field of worked cases `_case`.
Names of src/ (functions, types, fields), strings and what is not declared here stay. In comments a name with a dash is respelled between backticks alone.
"""

import os
import re
import subprocess
import sys

STOP = set(" \t\n(){}[],;:.λ→=\"`«»⌜⌝◌ΣΠ|⟨⟩")
TOKEN = re.compile(r"[^\s(){}\[\],;:.λ\"`«»⌜⌝|⟨⟩]+")
DECLARED = re.compile(r"^(?P<in>\s*)(?P<words>(?:(?:pub|abbrev|unfoldable|record|data|mutual|ruleset)\s+)*)(?P<names>[^\s(){}\[\],;:.λ\"`|=]+(?:\s+[^\s(){}\[\],;:.λ\"`|=]+)*)\s+:(?:\s|$)")
BINDER = re.compile(r"[({]\s*([^(){}:λ→=]+?)\s+:\s")
LAMBDA = re.compile(r"λ\s+([^.(){}]+)\.")
LET = re.compile(r"\blet\s+([^\s(){}\[\],;:.=]+)\s+[:=]")
IMPORT = re.compile(r"^\s*(?:ghost\s+)?(?:pub\s+)?use\s+([^{}]+?)\.\{([^}]*)\}", re.M)
KEYWORDS = {"let", "in", "where", "with", "as", "elim", "use", "pub", "abbrev", "unfoldable", "record", "data", "unfolding"}


def files(root, *ends):
    for top in ("crates",):
        for folder, dirs, names in os.walk(os.path.join(root, top)):
            dirs[:] = sorted(d for d in dirs if d not in ("out", "target"))
            for n in sorted(names):
                if n.endswith(ends):
                    yield os.path.join(folder, n)


def code(text, mark):
    """The text with comments and strings blanked, at the same length."""
    out = re.sub(r'"(?:[^"\\\n]|\\.)*"', lambda m: " " * len(m.group()), text)
    return re.sub(re.escape(mark) + r"[^\n]*", lambda m: " " * len(m.group()), out)


def camel(n):
    return re.search(r"[a-z0-9][A-Z]", n) is not None


def snake(n):
    n = re.sub(r"([a-zA-Z0-9])([A-Z][a-z])", r"\1_\2", n)
    return re.sub(r"([a-z0-9])([A-Z])", r"\1_\2", n).lower()


def main(argv):
    root = subprocess.run(["git", "rev-parse", "--show-toplevel"], capture_output=True, text=True, check=True).stdout.strip()
    ours = {c for c in os.listdir(os.path.join(root, "crates"))}
    declared, definitions, fields, foreign = set(), set(), set(), set()
    for p in files(root, ".antt"):
        text = code(open(p, encoding="utf-8").read(), "--")
        for m in IMPORT.finditer(text):
            path = m.group(1).split(".")
            if not (path[0] == "Rattle" and len(path) > 1 and path[1] in ours):
                for n in m.group(2).split(","):
                    foreign.add(n.split(" as ")[0].strip())
        spec = "/specs/" in p
        proof = p.endswith("Proof.antt")
        for line in text.split("\n"):
            m = DECLARED.match(line)
            if m and not (proof and "-" in m.group("names")):
                for n in m.group("names").split():
                    if n in KEYWORDS:
                        continue
                    declared.add(n)
                    w = m.group("words")
                    top = not m.group("in")
                    if top and ("abbrev" in w or "unfoldable" in w):
                        definitions.add(n)
                    elif not top and spec:
                        fields.add(n)
            for r in (BINDER, LAMBDA):
                for m in r.finditer(line):
                    declared.update(x for x in m.group(1).split() if camel(x))
            for m in LET.finditer(line):
                if camel(m.group(1)):
                    declared.add(m.group(1))
    library = set()
    for line in open(os.path.join(root, "tools", "respell-library.txt"), encoding="utf-8"):
        library.add(line.strip())
    declared = {n for n in declared if n[0].islower() and n not in foreign and re.match(r"[\w\-'₀-₉]+$", n)}
    def_names = {snake(n) for n in definitions} | library

    def new(n):
        s = snake(n)
        if n in fields:
            return s.replace("-", "_")
        parts = s.split("-")
        out = [parts[0]]
        for q in parts[1:]:
            left = out[-1]
            base = q.rstrip("₀₁₂₃₄₅₆₇₈₉")
            if left in def_names and base in def_names:
                out.append(q)
            else:
                out[-1] = left + "_" + q
        return "-".join(out)

    table = {n: new(n) for n in declared if new(n) != n}
    # names that fall together: a field of worked cases gives way to a definition, and so does a lemma
    taken = {}
    for n in sorted(declared):
        taken.setdefault(table.get(n, n), []).append(n)
    for t, ns in sorted(taken.items()):
        if len(ns) > 1 or t in foreign:
            for n in ns:
                if "-" in n:
                    table[n] = t + ("_case" if n in fields else "_lem")
            if "--list" in argv:
                print("fall together:", t, [(n, table.get(n, n)) for n in ns], "foreign" if t in foreign else "")
    if "--list" in argv:
        for n in sorted(table):
            print(n, table[n])
        return 0

    def turn(text, mark):
        def word(m):
            w = m.group()
            return table.get(w, w)

        out = []
        for line in text.split("\n"):
            # strings stay
            cut = None
            quoted = [(m.start(), m.end()) for m in re.finditer(r'"(?:[^"\\]|\\.)*"', line)] if mark == "//" else []
            for m in re.finditer(re.escape(mark), line):
                if not any(a <= m.start() < b for a, b in quoted):
                    cut = m.start()
                    break
            head, tail = (line, "") if cut is None else (line[:cut], line[cut:])
            if quoted:
                pieces, at = [], 0
                for a, b in quoted:
                    if b <= len(head):
                        pieces += [TOKEN.sub(word, head[at:a]), head[a:b]]
                        at = b
                pieces.append(TOKEN.sub(word, head[at:]))
                head = "".join(pieces)
            else:
                head = TOKEN.sub(word, head)
            tail = re.sub(r"`[^`]*`", lambda m: TOKEN.sub(word, m.group()), tail)
            tail = re.sub(r"(?<![\w\-`])[a-z][a-z0-9]*(?:[A-Z][a-z0-9]*)+(?![\w\-`])", lambda m: table.get(m.group(), m.group()), tail)
            out.append(head + tail)
        return "\n".join(out)

    changed = 0
    for p in files(root, ".antt", ".rt"):
        text = open(p, encoding="utf-8").read()
        made = turn(text, "--" if p.endswith(".antt") else "//")
        if made != text:
            open(p, "w", encoding="utf-8").write(made)
            changed += 1
    print(f"{len(table)} names, {changed} files")
    return 0


if __name__ == "__main__":
    raise SystemExit(main(sys.argv[1:]))
