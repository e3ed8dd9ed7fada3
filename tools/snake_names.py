#!/usr/bin/env python3
"""Brings the repository's own definitions, lemmas and fields to snake case, once, after port.py.

usage: tools/snake_names.py [--check]      at the top of the repository

`mostWords`, `clearing-more` and a field `lead-exact` become `most_words`, `clearing_more` and `lead_exact`. A name is
the repository's own if a line of its specs/ or proofs/ declares it. In a file that imports a name of that spelling
from a library of Rattle the word is left as it is. Types, modules, Rust code, strings and generated names stay.
In a comment, and in docs/, only words with a capital inside are turned, since no sentence has such a word.
It prints the names that keep their dash, or take it back, since a definition has the plain one. Where a file has a
library's name of the new spelling it says so and writes nothing."""

import os
import re
import sys

NAME = r"[A-Za-z_α-ωΑ-Ω₀-₉+][A-Za-z0-9_α-ωΑ-Ω₀-₉'\-]*"
TOKEN = re.compile(r"--[^\n]*|//[^\n]*|\"(?:[^\"\\]|\\.)*\"|«[^»]*»|[^\s(){}.;,@\"«»\[\]\\|λ:]+|.|\n")
DECLARED = re.compile(r"^\s*(?:(?:pub|abbrev|unfoldable|opaque|data|record) )*([^\s:(){}]+) :(?=\s|$)", re.M)
GENERATED = {"tie", "goal", "lts", "reads"}
CAMEL = re.compile(r"(?<=[a-z0-9₀-₉])([A-Z])")
KEEP = {"λ", "μ"}


def snake(word):
    word = word.replace("-", "_")
    if "A" <= word[0] <= "Z":
        return word
    return re.sub(r"([A-Z]+)", lambda m: "_" + m[1].lower(), word).replace("__", "_")


def turned(word):
    """The new spelling, or None: types and modules keep their capital, and Rattle's operators are no words."""
    if not re.fullmatch(r"[a-zα-ωμ_][A-Za-z0-9_α-ω₀-₉'\-₁₂]*", word) or re.fullmatch(r"[a-z]", word):
        return None
    if word.endswith("-") or word.startswith("-") or "--" in word:
        return None
    new = snake(word)
    return new if new != word else None


def files(ending):
    for top, dirs, names in os.walk("crates"):
        dirs[:] = sorted(d for d in dirs if d != "out")
        for n in sorted(names):
            if n.endswith(ending):
                yield os.path.join(top, n)


def read(path):
    with open(path, encoding="utf-8") as f:
        return f.read()


def own_crates():
    return {l.split(":")[0].split()[0] for l in read("crates.txt").splitlines() if ":" in l and not l.startswith("#")}


def foreign(text, own):
    """The words that the file brings from Rattle's libraries."""
    out = set()
    for m in re.finditer(r"use ([^\s{;]+)\.\{([^}]*)\}", text):
        path = m[1].split(".")
        if path[0] == "Rattle" and path[1] in own:
            continue
        for it in m[2].split(","):
            words = it.split()
            if words:
                out.add(words[-1])
                out.add(words[0])
    return out


def main():
    check = "--check" in sys.argv
    own = own_crates()
    texts = {p: read(p) for p in files(".antt")}
    declared = {}
    for p, t in texts.items():
        code = re.sub(r"--[^\n]*", "", t)
        for m in DECLARED.finditer(code):
            new = turned(m[1])
            if new:
                declared.setdefault(m[1], new)
    # Names that fall together: the definition has the plain name, and the lemma or field beside it keeps its dash,
    # or takes it back where port.py had turned it.
    plain = {m[1] for t in texts.values() for m in DECLARED.finditer(re.sub(r"--[^\n]*", "", t))}
    camel = {new for old, new in declared.items() if CAMEL.search(old)}
    rust = set(re.findall(r"[A-Za-z_][A-Za-z0-9_]*", "".join(re.sub(r"//[^\n]*", "", read(p)) for p in files(".rt"))))
    dashes = set()
    for old, new in list(declared.items()):
        if "-" in old and not CAMEL.search(old) and (new in camel or new in plain):
            print(f"keeps its dash: {old}, beside {new}")
            dashes.add(old)
            del declared[old]
    for new in sorted(camel & plain):
        back = new.replace("_", "-")
        print(f"takes its dash back: {new} -> {back}{', and it is a word of Rust code' if new in rust else ''}")
        declared[new] = back
    # So does a name with a dash whose new spelling a file has already, as a field of a Rust struct.
    for p, t in texts.items():
        there = set(TOKEN.findall(t))
        for w in there:
            if w in declared and "-" in w and not CAMEL.search(w) and declared[w] in there and not p.endswith("Proof.antt"):
                print(f"keeps its dash: {w}, beside {declared[w]} in {p}")
                del declared[w]
    bad = 0
    out = {}
    for p, t in texts.items():
        outside = foreign(t, own)
        words = TOKEN.findall(t)
        there = set(words)
        clash = [w for w in there if w in declared and w not in outside and declared[w] in outside]
        for w in clash:
            print(f"{p}: {w} -> {declared[w]} stands there already")
            bad += 1
        new, path, front = [], False, True
        for i, w in enumerate(words):
            path = (path or (front and w in ("use", "ghost"))) and w not in ("{", "\n")
            front = w == "\n" or (front and w.isspace())
            if path:
                pass
            elif w.startswith("--"):
                w = re.sub(r"[A-Za-z0-9_\-]+", lambda m: declared[m[0]] if m[0] in declared and CAMEL.search(m[0]) else m[0], w)
            elif w in declared and w not in outside:
                if not (i > 1 and words[i - 1] == "." and words[i - 2] in GENERATED):
                    w = declared[w]
            new.append(w)
        out[p] = "".join(new)
    spec_names = {}
    for p, t in texts.items():
        if "/specs/" in p:
            for m in DECLARED.finditer(re.sub(r"--[^\n]*", "", t)):
                if m[1] in declared and "-" not in declared[m[1]]:
                    spec_names[m[1]] = declared[m[1]]
    for p in files(".rt"):
        t = read(p)
        outside = foreign(t, own)
        words = TOKEN.findall(t)
        new = []
        for w in words:
            if w.startswith("//"):
                w = re.sub(r"[A-Za-z0-9_\-]+", lambda m: spec_names[m[0]] if m[0] in spec_names and CAMEL.search(m[0]) else m[0], w)
            elif w in spec_names and w not in outside:
                w = spec_names[w]
            new.append(w)
        out[p] = "".join(new)
    more = [os.path.join(d, n) for d in ("docs", "docs/changes") for n in sorted(os.listdir(d)) if n.endswith((".md", ".list"))]
    more += ["CONTRIBUTING.md", "README.md", "CHANGELOG.md"] + [p for p in files(".edit")]
    for p in more:
        t = read(p)
        out[p] = re.sub(r"[A-Za-z_][A-Za-z0-9_'\-]*", lambda m: declared[m[0]] if m[0] in declared and (CAMEL.search(m[0]) or p.endswith(".edit")) else m[0], t)
    print(f"{len(declared)} names, {bad} that stand there already")
    if check or bad:
        return 1 if bad else 0
    n = 0
    for p, t in out.items():
        if t != read(p):
            with open(p, "w", encoding="utf-8") as f:
                f.write(t)
            n += 1
    print(f"{n} files")


if __name__ == "__main__":
    raise SystemExit(main())
