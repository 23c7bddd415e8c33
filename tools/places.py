#!/usr/bin/env python3
"""Counts, in crates/*/src, the places that docs/DESIGN-PASS.md speaks of, point by point.

usage: python3 tools/places.py [--list] [ROOT]      ROOT: a checkout, by default this one; --list names each place

What a number means is said beside it. The rules go by text: a place is looked at by a reader before it is changed or kept.
"""
import collections
import pathlib
import re
import sys

LIST = "--list" in sys.argv
ARGS = [a for a in sys.argv[1:] if a != "--list"]
ROOT = pathlib.Path(ARGS[0]) if ARGS else pathlib.Path(__file__).resolve().parent.parent
ITEM = re.compile(r"^( *)(?:pub )?(?:extern \"C\" )?fn (\w+)", re.M)


def functions(text):
    """Name, head (signature and clauses) and body of each function."""
    found = []
    for m in ITEM.finditer(text):
        indent = m.group(1)
        lines = text[m.start():].split("\n")
        head, body, inside = [], [], False
        for line in lines:
            if not inside and (line == indent + "{" or line.rstrip().endswith(" {") and not line.strip().startswith(("requires", "ensures"))):
                inside = True
                head.append(line.rstrip(" {"))
                continue
            if inside and line == indent + "}":
                break
            (body if inside else head).append(line)
        found.append((m.group(2), "\n".join(head), "\n".join(body)))
    return found


def without_comments(text):
    return re.sub(r"//[^\n]*", "", text)


def report(point, what, places):
    print(f"{point}  {len(places):4}  {what}")
    if LIST:
        for place in places:
            print(f"           {place}")


sources = sorted(ROOT.glob("crates/*/src/*.rt"))
code = {p.parent.parent.name: without_comments(p.read_text()) for p in sources}
fns = {c: functions(t) for c, t in code.items()}
everywhere = [(c, *f) for c, fs in fns.items() for f in fs]

# ---- 1
enums = []
for c, t in code.items():
    for m in re.finditer(r"enum (\w+)[^{]*\{(.*?)\n\}", t, re.S):
        variants = re.findall(r"^\s*(\w+)(\(.*\)|\s*\{.*\})?,?$", m.group(2), re.M)
        enums.append((c, m.group(1), variants))
option = [f"{c}::{n}" for c, n, v in enums if len(v) == 2 and sum(bool(b) for _, b in v) == 1]
result = [f"{c}::{n}" for c, n, v in enums if f"{c}::{n}" not in option and any(a in ("Refused", "Wrong", "Over") for a, _ in v)]
option_or_result = option + result
report("1", "own enums of two variants of which one alone holds a value (Option's or Result's shape)", option)
report("1", "own enums with a variant Refused, Wrong or Over beside others (Result's shape)", result)
flags = [f"{c}::{m.group(1)}.{f}" for c, t in code.items() for m in re.finditer(r"struct (\w+) \{(.*?)\n\}", t, re.S)
         for f in re.findall(r"(\w+): bool", m.group(2))]
report("1", "fields that are a bool beside values", flags)
numbers = [f"{c}::{m.group(1)}" for c, t in code.items() for m in re.finditer(r"const (\w+): usize = \d+;", t) if c == "refusal"]
numbers += [f"{c}::{n}({p})" for c, n, h, _ in everywhere for p in re.findall(r"(?<![\w.])((?:number: usize|kind: u8))", h.split("requires")[0].split("ensures")[0]) if n not in ("say_segment",)]
report("1", "numbers for kinds or refusals: constants of the crate refusal, parameters `number: usize` and `kind: u8`", numbers)

# ---- 2
def shape(body):
    """The tokens of a body with its names, numbers and texts left out."""
    words = {}
    def turn(m):
        w = m.group(0)
        if w in ("let", "mut", "if", "else", "while", "loop", "for", "in", "return", "match", "as", "true", "false", "self"):
            return w
        return words.setdefault(w, f"n{len(words)}")
    return re.sub(r"\s+", " ", re.sub(r"b?\"[^\"]*\"|b?'[^']*'|[A-Za-z_]\w*|\d\w*", turn, body)).strip()


groups = collections.defaultdict(list)
for c, n, h, b in everywhere:
    if c != "plugin_c" and len(b.split()) >= 6:
        groups[shape(b)].append(f"{c}::{n}")
twins = sorted(" = ".join(g) for g in groups.values() if len(g) > 1)
report("2", "groups of functions whose bodies differ in names, numbers and texts alone (plugin_c's are C's names)", twins)
report("2", "functions in these groups, less one a group", [f for g in groups.values() if len(g) > 1 for f in g[1:]])

# ---- 3
loops, counted = [], []
for c, n, h, b in everywhere:
    for m in re.finditer(r"^\s*(?:let [\w ]+ = )?(?:'\w+: )?(while\b(?! let)[^\n]*|loop) ?\{$", b, re.M):
        loops.append(f"{c}::{n}: {m.group(1).rstrip(' {')}")
        if re.search(r"\b(\w+) [+-]= ", b) and any(v in m.group(1) for v in re.findall(r"\b(\w+) [+-]= ", b)):
            counted.append(loops[-1])
report("3", "`while` and `loop`", loops)
report("3", "of these, those whose condition has a variable that is counted by hand", counted)

# ---- 4
casts = [f"{c}::{n}" for c, n, h, b in everywhere if re.fullmatch(r"\s*\(?\w+ as \w+\)?( % 256)?\s*", b)]
report("4", "functions that are a cast and nothing else", casts)
said = [f"{c}::{n}" for c, n, h, b in everywhere if n.startswith("say") and re.search(r"\bmatch\b", b)]
report("4", "functions that print a value by a match", said)
compared = [f"{c}::{n}" for c, n, h, b in everywhere if re.search(r"if \w+\[\w+\] [!=]= \w+(\[\w+\])? \{\s*return (true|false);", b)]
report("4", "functions that compare byte by byte", compared)
copied = [f"{c}::{n}" for c, n, h, b in everywhere if re.search(r"while[^{]*\{\s*(let x = [\w.]+\[[^\]]*\];\s*)?\w+\[[^\]]*\] = (\w+\[[^\]]*\]|0|x);\s*\w+ \+= 1;\s*\}", b)]
report("4", "functions that copy or clear element by element", copied)

# ---- 5
facts = collections.defaultdict(set)
for c, n, h, b in everywhere:
    for line in re.findall(r"requires[^{]*\{(.*)\}", h):
        for fact in re.split(r" × ", line):
            facts[fact.strip(" ()")].add(f"{c}::{n}")
shared = sorted(f"{len(v):3} {k}" for k, v in facts.items() if len(v) >= 3)
report("5", "facts of a `requires` that stand in three or more functions", shared)
report("5", "functions with one of these facts, counted once for each fact", [f for v in facts.values() if len(v) >= 3 for f in v])
together = collections.defaultdict(set)
for c, n, h, b in everywhere:
    if c in ("plugin", "plugin_c"):
        continue
    sig = re.search(r"\((.*?)\)\s*(?:->|$|\n)", h.replace("\n", " ") + "\n", re.S)
    params = [p.strip() for p in sig.group(1).split(",")] if sig else []
    names = [re.sub(r"\s+", " ", p) for p in params if ":" in p]
    for i in range(len(names)):
        for j in range(i + 1, len(names)):
            together[(names[i], names[j])].add(f"{c}::{n}")
pairs = sorted(f"{len(v):3} ({a}, {b})" for (a, b), v in together.items() if len(v) >= 5)
report("5", "pairs of parameters that stand in five or more functions", pairs)

# ---- 6
beside = [f"{c}::{m.group(1)}" for c, t in code.items() for m in re.finditer(r"struct (\w+) \{(.*?)\n\}", t, re.S)
          if re.search(r": \[[^\]]*; \w+\]", m.group(2)) and re.search(r"(count|total|len): usize", m.group(2))]
report("6", "structs of an array and a length beside it", beside)
lent = [f"{c}::{n}" for c, n, h, b in everywhere if re.search(r"\[u32\](, \w+: usize)?, (count|n): usize", h)]
report("6", "functions that take a slice and how many of it are used", lent)

# ---- 7
steps = [f"{c}::{n}" for c, n, h, b in everywhere if re.search(r"match (sought|kind) \{", b)]
report("7", "functions that switch on which test or call to run", steps)

# ---- 8
answers = sorted(ROOT.glob("crates/*/proofs/**/Answers.antt"))
count = [a for p in answers for a in re.findall(r"^pub [\w'-]+ : goal", p.read_text(), re.M)]
report("8", "files of answers", answers)
report("8", "answers in them", count)
report("8", "files of invariants", sorted(ROOT.glob("crates/*/proofs/**/Invariants.antt")))
