#!/usr/bin/env python3
"""Counts the places of the points of docs/DESIGN-PASS.md in crates/*/src.

usage: tools/design-count.py [COMMIT] [--list]      without a commit: the files as they are

Each pattern is a place to look at, not a verdict; --list prints them.
"""
import collections
import re
import subprocess
import sys

args = [a for a in sys.argv[1:] if not a.startswith("--")]
listing = "--list" in sys.argv


def git(*words):
    return subprocess.run(["git", *words], capture_output=True, text=True, check=True).stdout


def files():
    if args:
        names = git("ls-tree", "-r", "--name-only", args[0], "crates").split("\n")
        names = [n for n in names if re.match(r"crates/\w+/src/.*\.rt$", n)]
        return {n: git("show", f"{args[0]}:{n}") for n in names}
    names = git("ls-files", "crates/*/src/*.rt", "crates/*/src/**/*.rt").split()
    return {n: open(n).read() for n in sorted(set(names))}


src = files()


def lines_of(pattern, skip_comments=True):
    found = []
    for name, text in src.items():
        for i, line in enumerate(text.split("\n"), 1):
            if skip_comments and line.lstrip().startswith("//"):
                continue
            if re.match(r"\s*(ghost|requires|ensures|:|→|≡)", line):
                continue
            if re.search(pattern, line):
                found.append((name, i, line.strip()))
    return found


def blocks(kind):
    for name, text in src.items():
        for m in re.finditer(rf"^(?:pub )?{kind} (\w+)[^{{;\n]*\{{(.*?)^\}}", text, re.M | re.S):
            yield name, text[: m.start()].count("\n") + 1, m.group(1), m.group(2)


def functions():
    for name, text in src.items():
        for m in re.finditer(r"^(?:    )?(?:pub |#\[unsafe\(no_mangle\)\]\n|extern \"C\" )*fn (\w+)(?:<[^>]*>)?\((.*?)\)(.*?)^(?:    )?\{\n(.*?)^(?:    )?\}", text, re.M | re.S):
            yield name, text[: m.start()].count("\n") + 1, m.group(1), m.group(2), m.group(3), m.group(4)


points = collections.OrderedDict()

# 1
absent = r"^\s*(Refused|Stop|Fault|Past|Wrong|Fine|End|Cut)\b"
points["1 enums with a variant for a refusal or for nothing"] = [
    (n, i, f"enum {e}") for n, i, e, body in blocks("enum") if re.search(absent, body, re.M)
]
points["1 structs with a flag beside a value"] = [
    (n, i, f"struct {e}: {m.group(1)}")
    for n, i, e, body in blocks("struct")
    for m in re.finditer(r"(\w+): bool", body)
    if m.group(1) != "transparent" and m.group(1) != "black"
]
points["1 constants that number a kind, a word or a refusal"] = lines_of(r"^const [A-Z_]+: (u8|u64|usize) = [0-9]{1,2};")
points["1 a refusal by a literal number"] = lines_of(
    r"(Refused|Stop|Fault|Step::Stop)\([0-9]+|refuse_with\(\w+, [0-9]+|refuse_if\([^,]+, [0-9]+|number: [0-9A-Z_]+,"
)
points["1 a kind tested by its number"] = lines_of(r"command == [0-9]+|indicator == 0|kind == [0-9]")
points["1 a number that stands for none"] = lines_of(r"^\s*(return )?(256|16|LARGEST|10|641);?$|at: 641|640 < f\.at|^\s*return 0;$|15 < (high|low)|255 < (b|high|low)")
# 2
shape = collections.defaultdict(list)
for n, i, f, params, rest, body in functions():
    words = re.sub(r"\b(?!while\b|for\b|if\b|else\b|match\b|return\b|let\b|loop\b)\w+\b", "x", re.sub(r"//.*", "", body))
    words = re.sub(r"\s+", "", words)
    if len(words) > 40:
        shape[words].append((n, i, f))
points["2 functions of one shape (all but one of each)"] = [p for ps in shape.values() for p in ps[1:]]
same = collections.defaultdict(list)
for n, i, f, params, rest, body in functions():
    same[f].append((n, i, f))
points["2 private functions of one name in several crates (all but one of each)"] = [
    p for f, ps in same.items() if len({q[0] for q in ps}) > 1 and f != "main" for p in ps[1:]
]
# 3
points["3 while"] = lines_of(r"^\s*('\w+: )?while (?!let)")
points["3 loop"] = lines_of(r"^\s*('\w+: )?loop \{")
points["3 an index counted in a for"] = lines_of(r"for \w+ in [0-9a-z_.]+\.\.[a-z_.()0-9]+ \{")
# 4
points["4 numbers taken apart or put together by hand"] = lines_of(
    r"% 256|/ 256|256 \* |\* 256|65536 \*|/ 65536|/ 16777216|\* 65536|281474976710656|4294967296|/ 16\b.*% 16|wrapping_add_u16"
)
points["4 the smaller, the larger or the difference by hand"] = lines_of(
    r"if (\w+) < (\w+) \{ (\1|\2|0) \} else|if \w+ <= LARGEST|= 18446744073709551615"
)
points["4 a field copied by hand"] = lines_of(r"^\s*(\w+): \w+\.\1,|^\s*(\w+): \2,")
points["4 a number of an enum by hand"] = lines_of(r"=> [0-9]+,$|^\s*[0-9]+ => \w+::\w+,$")
points["4 printing by hand"] = lines_of(r"fn (print_\w+|put_number|put_label|put_pairs?|hex_digit|digit|number|pair)\b")
# 5
groups = collections.Counter()
where = collections.defaultdict(list)
for n, i, f, params, rest, body in functions():
    names = [p.strip().split(":")[0].strip() for p in params.split(",") if ":" in p]
    types = {p.strip().split(":")[0].strip(): p.split(":")[1].strip() for p in params.split(",") if ":" in p}
    crate = n.split("/")[1]
    for a, b in zip(names, names[1:]):
        if a != "rt":
            where[(a, b)].append((n, i, f"{f}({a}, {b})"))
points["5 pairs of parameters that stand together in three functions or more"] = [
    (*ps[0][:2], f"{', '.join(k)}: {len(ps)} functions") for k, ps in where.items() if len(ps) >= 3
]
facts = collections.defaultdict(list)
for n, i, f, params, rest, body in functions():
    for clause in re.findall(r"(?:requires|ensures)[^{]*\{(.*?)\}\s*$", rest, re.M):
        for part in clause.split("×"):
            facts[(n.split("/")[1], re.sub(r"[()\s]", "", part))].append((n, i, f"{f}: {part.strip()}"))
points["5 facts in the contracts of three functions or more of a crate"] = [
    (*ps[0][:2], f"{k[1]}: {len(ps)} functions") for k, ps in facts.items() if len(ps) >= 3 and k[1]
]
# 6
points["6 places in place of a slice"] = [
    (n, i, f"{e}: {m.group(1)}, {m.group(2)}")
    for kind in ("struct", "enum")
    for n, i, e, body in blocks(kind)
    for m in re.finditer(r"\b(from|at): usize,\s*(?:pub )?(to|end): usize", body)
]
points["6 a buffer with a length beside it"] = lines_of(r"\[(0|1|4)?\.\.\w+\]") 
# 7
points["7 a flag or a letter that says which step runs"] = lines_of(r"write: bool|if write \{|match letter|match k \{|match word|if word ==|if k <=|if READ <= k|told\.word|before\.word|after\.word")

for name, places in points.items():
    print(f"{len(places):4}  {name}")
    if listing:
        for n, i, text in places:
            print(f"        {n}:{i}: {text[:150]}")
