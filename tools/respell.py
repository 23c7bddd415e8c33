#!/usr/bin/env python3
"""Respells this repository's own definitions and lemmas in snake case: `wrongLength` and `number-one` become `wrong_length` and `number_one`.

usage: python3 tools/respell.py [--list]        at the top of the checkout; --list shows the renamings and writes nothing

It goes by module: a word is turned in a file where that file defines it or imports it from a file of this repository. What Rust code, strings, inputs and
outputs name stays. Two names of this repository that would fall together are told apart: the lemma then ends in `_lem`. Edits in must-fail/ are turned by
the words of the file that they change, and the documents by the words that they put in backticks.
"""
import collections
import glob
import os
import re
import sys

ROOT = os.getcwd()
MODS = r"(?:(?:abbrev|unfoldable|irreducible|opaque|instance|pub|def|ghost)\s+)*"
TOP = re.compile(r"^(" + MODS + r")([^\s:({\[.;,]+)\s*(?:\{[^}]*\}\s*|\([^)]*\)\s*)*:(?!=)(?=\s|$)")
CON = re.compile(r"^\s+(?:pub )?((?:[a-z_][^\s:({\[=;,.]*\s+)*[a-z_][^\s:({\[=;,.]*)\s*:\s")
USE = re.compile(r"^\s*(?:ghost |pub )*use\s+([^;{}\s]+)\.\{([^}]*)\}", re.M)
ALIAS = re.compile(r"^\s*(?:ghost |pub )*use\s+(Rattle\.[^;{}\s]+)\s+as\s+([\w-]+)", re.M)
WORD = re.compile(r"[A-Za-z_][A-Za-z0-9_'₀₁₂₃₄₅₆₇₈₉-]*")
ODD = re.compile(r"[a-z0-9][A-Z]|[A-Za-z0-9'_]-[A-Za-z0-9]")
# variables that would hide a definition under its new name
LOCAL = {"crates/copies/proofs/Finds.antt": {"is_open": "opened_is"}, "crates/drafts/proofs/Drops.antt": {"is_open": "opened_is"}}
KEYWORDS = {"pub", "abbrev", "use", "mod", "data", "record", "unfoldable", "where"}


def snake(n):
    return re.sub(r"([a-z0-9])([A-Z])", lambda m: m.group(1) + "_" + m.group(2).lower(), n.replace("-", "_"))


def turns(n):
    """A word to turn: camel case that begins low, or a dash, but no symbol in it. A type keeps its capital."""
    return bool(ODD.search(n)) and WORD.fullmatch(n) and (n[0].islower() or "-" in n)


def spelled(n):
    return n.replace("-", "_") if n[0].isupper() else snake(n)


def texts():
    for c in sorted(os.listdir("crates")):
        for sub in ("specs", "proofs", "src"):
            for d, ds, fs in os.walk(os.path.join("crates", c, sub)):
                ds[:] = sorted(x for x in ds if x != "out")
                for f in sorted(fs):
                    if f.endswith((".antt", ".rt")):
                        yield c, os.path.join(d, f)


def module(c, path):
    rel = os.path.relpath(path, os.path.join("crates", c))
    return "Rattle." + c + "." + rel[: -len(".antt")].replace("/", ".")


def defined(path, text):
    """The names that a file defines, with the kind: a lemma or definition ('top'), a constructor ('con') or a record's field ('field')."""
    out, inside, block = [], None, False
    for l in text.splitlines():
        if not l.strip() or l.lstrip().startswith("--"):
            continue
        if not l.startswith(" "):
            block = l.startswith("module ")
            m = re.match(r"(?:pub |unfoldable |abbrev )*(data|record) ", l)
            inside = m.group(1) if m else None
            m = TOP.match(l)
            if m and m.group(2) not in KEYWORDS:
                out.append((m.group(2), "top"))
        elif block:
            m = TOP.match(l.strip())
            if m and m.group(2) not in KEYWORDS:
                out.append((m.group(2), "top"))
        elif inside:
            m = CON.match(l)
            if m:
                out += [(n, "con" if inside == "data" else "field") for n in m.group(1).split() if n != "pub"]
    return out


def main(argv):
    files = {p: (c, open(p, encoding="utf-8").read()) for c, p in texts()}
    own = {}       # module -> {name}
    fields = collections.defaultdict(set)   # crate -> {field}
    spec_names = set()
    for p, (c, t) in files.items():
        if not p.endswith(".antt"):
            continue
        names = set()
        for n, kind in defined(p, t):
            if kind == "field":
                if turns(n):
                    fields[c].add(n)
            else:
                names.add(n)
        own[module(c, p)] = names
    every = set().union(*own.values())
    goals = re.compile(r"proofs/.+/(Proof|Answers|Invariants)\.antt$")
    from_camel = {snake(n) for n in every if turns(n) and "-" not in n}
    camel = from_camel | {n for n in every if "-" not in n and not ODD.search(n)}
    # lemmas whose dash is gone already, and whose name a definition takes now
    lemmas = {(m, n) for m in own for n in own[m] if ".proofs." in m and n in from_camel}

    def new_name(n):
        s = spelled(n)
        if "-" in n and s in camel and n[0].islower():
            return s + "_lem"
        return s

    renamed = collections.Counter()
    renaming = {}
    trouble = []
    written = {}
    word_maps = {}
    for p, (c, t) in files.items():
        here = {}
        if p.endswith(".antt"):
            for n in own[module(c, p)]:
                if turns(n) and not (goals.search(p) and not n.endswith("-spec")):
                    here[n] = new_name(n)
                if (module(c, p), n) in lemmas:
                    here[n] = n + "_lem"
            here.update(LOCAL.get(p, {}))
        for m in USE.finditer(t):
            if m.group(1) in own:
                for n in m.group(2).split(","):
                    n = n.strip().split(" as ")[0].strip()
                    if n in own[m.group(1)] and turns(n):
                        here[n] = new_name(n)
                    if (m.group(1), n) in lemmas:
                        here[n] = n + "_lem"
        for f in fields[c]:
            here.setdefault(f, new_name(f))
        word_maps[p] = here
        aliases = {m.group(2): m.group(1) for m in ALIAS.finditer(t)}
        if not here and not aliases:
            continue
        seen = set(WORD.findall(re.sub(r"--.*|//.*", "", t)))
        for a, b in here.items():
            if b in seen and a in seen:
                trouble.append((p, a, b))
        # whole paths, as Rattle.codes.specs.Cursor.stepAt, and words; strings stay
        def turn(m):
            w = m.group(0)
            # a projection's field is another's word, but for fields of this crate's records
            path = re.search(r"[\w.'-]*$", m.string[: m.start()]).group(0)
            if path.endswith("."):
                at = aliases.get(path[:-1], path[:-1])
                if w in own.get(at, ()) and turns(w):
                    renamed[w] += 1
                    renaming[w] = new_name(w)
                    return new_name(w)
                if (at, w) in lemmas:
                    return w + "_lem"
                if not path.startswith("Rattle.") and w not in fields[c]:
                    return w
            if w in here:
                renamed[w] += 1
                renaming[w] = here[w]
                return here[w]
            return w
        parts = re.split(r'("(?:[^"\\\n]|\\.)*")', t)
        for i in range(0, len(parts), 2):
            parts[i] = WORD.sub(turn, parts[i])
        written[p] = "".join(parts)
    if "--list" in argv:
        for a in sorted(renaming):
            print(a, renaming[a], renamed[a])
        for x in trouble:
            print("together:", *x)
        return 0
    for p, t in written.items():
        open(p, "w", encoding="utf-8").write(t)
    after = {p: set(WORD.findall(written.get(p, files[p][1]))) for p in files}
    # edits: by the words of the file that they change
    for e in sorted(glob.glob("crates/*/must-fail/*.edit")):
        c = e.split("/")[1]
        out, target = [], None
        for l in open(e, encoding="utf-8").read().split("\n"):
            m = re.match(r"file:\s*(\S+)", l)
            if m:
                target = os.path.join("crates", c, m.group(1))
            elif target in files:
                head = re.match(r"(?:old|new):", l)
                if head:
                    here, known = word_maps[target], after[target]

                    def turn(m):
                        w = m.group(0)
                        if w in here:
                            return here[w]
                        return spelled(w) if turns(w) and spelled(w) in known else (renaming[w] if w in renaming else w)
                    parts = re.split(r'("(?:[^"\\\n]|\\.)*")', l[4:])
                    for i in range(0, len(parts), 2):
                        parts[i] = WORD.sub(turn, parts[i])
                    l = l[:4] + "".join(parts)
            out.append(l)
        open(e, "w", encoding="utf-8").write("\n".join(out))
    # documents: words in backticks
    everywhere = set().union(*after.values())
    for d in sorted(glob.glob("docs/*.md") + glob.glob("*.md")):
        t = open(d, encoding="utf-8").read()

        def quoted(m):
            def turn(k):
                w = k.group(0)
                if w in renaming:
                    return renaming[w]
                return spelled(w) if turns(w) and w not in everywhere and spelled(w) in everywhere else w
            return WORD.sub(turn, m.group(0))
        n = re.sub(r"`[^`\n]+`", quoted, t)
        if n != t:
            open(d, "w", encoding="utf-8").write(n)
    print(f"respell: {len(renaming)} names in {len(written)} files; {len(trouble)} to look at")
    for x in trouble:
        print("together:", *x)
    return 0


if __name__ == "__main__":
    raise SystemExit(main(sys.argv[1:]) or 0)
