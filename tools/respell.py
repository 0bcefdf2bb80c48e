#!/usr/bin/env python3
"""Brings the repository's own names in specs, proofs and clauses to one spelling: words in snake case, types in upper camel case.

usage: python3 tools/respell.py [--names]     at the top of the repository

Only names with a dash or a prime, and words with a capital inside, change, wherever they stand, in comments too; `getD` within a name is
`get_or`. A name that a check makes (of a goal, an invariant, a measure, or a step of the code behind `c.`) stays as it is, and so do
functions of src/, strings, inputs and outputs. It stops, and changes nothing, where two names would fall together. --names prints the old
and the new name of each, and changes nothing. It was run once, on the repository as the kit's script for older repositories left it
(docs/PORT.md), and finds nothing more to turn.
"""

import collections
import os
import re
import sys

TOKEN = re.compile(r"[^\s(){}\[\],;:λ→×⊎|=\"`]+")
DECLARED = re.compile(r"^\s*(?:(?:abbrev|unfoldable|pub|data|record|ruleset)\s+)*([^\s:(){}\[\].,;\"]+)\s*(?=:)")
HEADED = re.compile(r"^\s*(?:(?:abbrev|unfoldable|pub)\s+)*(?:data|record|ruleset)\s+([^\s:(){}\[\].,;\"]+)")
NOT_DECLARED = ("--", "use ", "pub mod", "mod ", "let ", "elim", "|", "λ")


def files():
    for folder, dirs, names in os.walk("crates"):
        dirs[:] = sorted(d for d in dirs if d != "out")
        for name in sorted(names):
            if name.endswith((".antt", ".rt")):
                yield os.path.join(folder, name)


def read(path):
    with open(path, encoding="utf-8") as f:
        return f.read()


def declared(texts):
    """The names that specs and proofs declare, with the files that do, and those that a check asks for."""
    found, asked = collections.defaultdict(set), set()
    for path, text in texts.items():
        if not path.endswith(".antt"):
            continue
        asked.update(re.findall(r"\bgoal\.([^\s(){}\[\],;]+)", text))
        for line in text.split("\n"):
            if line.lstrip().startswith(NOT_DECLARED):
                continue
            m = DECLARED.match(line) or HEADED.match(line)
            if m:
                found[m.group(1)].add(path)
    return {n: ps for n, ps in found.items() if n not in asked}


def respelt(name):
    if name[0].isupper():
        return "".join(part[:1].upper() + part[1:] for part in name.split("-"))
    words = name.replace("getD", "get_or").replace("-", "_").replace("′", "'")
    return re.sub(r"(?<=[a-z])([A-Z])", lambda m: "_" + m.group(1).lower(), words)


def turned(text, new, code):
    """The text with the new names. In code, strings stay."""

    def one(m):
        parts = m.group(0).split(".")
        if parts[0] in ("c", "goal"):
            return m.group(0)
        return ".".join(new.get(p, p) for p in parts)

    pieces = re.split(r'("(?:[^"\\]|\\.)*")', text) if code else [text]
    return "".join(p if code and i % 2 else TOKEN.sub(one, p) for i, p in enumerate(pieces))


def main():
    texts = {p: read(p) for p in files()}
    names = declared(texts)
    new = {n: respelt(n) for n in sorted(names) if "-" in n or "′" in n or re.match(r"[a-z].*[A-Z]", n)}
    new = {n: to for n, to in new.items() if n != to}
    back = collections.defaultdict(list)
    for n in list(new) + [n for n in names if n not in new]:
        back[new.get(n, n)].append(n)
    bad = {to: ns for to, ns in back.items() if len(ns) > 1}
    if bad:
        print("names fall together:", bad, file=sys.stderr)
        raise SystemExit(1)
    if sys.argv[1:] == ["--names"]:
        for n, to in new.items():
            print(n, to)
        return
    for path, text in texts.items():
        out = turned(text, new, path.endswith(".rt"))
        if out != text:
            with open(path, "w", encoding="utf-8") as f:
                f.write(out)
    print(f"{len(new)} names")


main()
