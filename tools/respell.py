#!/usr/bin/env python3
"""Brings the definitions and lemmas of this repository to the spelling of today's Rattle: words in snake case, types in camel case.

usage: tools/respell.py [TOP]      once, right after the library's own names were turned

A lemma that would get its definition's name ends in _lem. Names of src/, symbols of the paper (Z, A, B, Dz), constructors and what
Rattle itself makes of a function (its goals) keep their names. It prints each name that it leaves.
"""

import collections
import os
import re
import sys

DECLARED = re.compile(r"^(\s*)((?:(?:pub|abbrev|unfoldable|pattern|record|data)\s+)*)([^\s:(){}]+)((?:\s*\{[^}]*\})*)((?:\s*\([^)]*\))*)\s*:(?!:)\s*(.*)$")
IMPORTED = re.compile(r"^\s*(?:pub |ghost )*use ([\w.'+:-]+?)\.\{([^}]*)\}", re.M)
TOKEN = re.compile(r"(?<![\w'₀-₉])[A-Za-z][\w'₀-₉]*(?:-[\w'₀-₉]+)*")
STRING = re.compile(r'b?"(?:[^"\\]|\\.)*"')
TYPES = {"Line-of": "LineOf", "So-far": "SoFar"}
# two definitions of a lemma file and of a definition that would meet in one file
LEMMAS = {"on_store": "on_store_lem"}


def snake(name):
    return re.sub(r"(?<=[a-z0-9])[A-Z]", lambda m: "_" + m[0].lower(), name).replace("-", "_")


def texts(top, endings):
    for folder, dirs, files in os.walk(top):
        dirs[:] = sorted(d for d in dirs if d not in ("out", "target", ".git"))
        for f in sorted(files):
            if f.endswith(endings):
                yield os.path.join(folder, f)


def declared(text):
    for line in text.splitlines():
        m = DECLARED.match(line)
        if m and not line.lstrip().startswith(("--", "use ")):
            yield m[3], m[6]


def own_goals(text):
    """The names that a proof gives the goals of its function: Rattle's, and made anew."""
    return {name for name, kind in declared(text) if re.match(r"(tie|\w+-lts)\.(Need|invariant|decreases)", kind)}


def names(crates):
    yours = {d for d in os.listdir(crates) if os.path.isdir(os.path.join(crates, d))}
    found, lent = collections.Counter(), set()
    for path in texts(crates, (".antt", ".rt")):
        with open(path, encoding="utf-8") as f:
            text = f.read()
        if path.endswith(".antt"):
            goals = own_goals(text) if path.endswith("Proof.antt") else set()
            found.update(n for n, _ in declared(text) if n not in goals)
        for path_, items in IMPORTED.findall(text):
            steps = path_.split(".")
            if steps[0] != "crate" and not (steps[0] == "Rattle" and steps[1] in yours):
                lent.update(it.strip() for it in items.split(","))
    turned = {}
    for n in sorted(found):
        if not TOKEN.fullmatch(n) or n in lent:
            if "-" in n or snake(n) != n:
                print(f"left: {n}")
            continue
        if n in TYPES:
            turned[n] = TYPES[n]
        elif n[0].islower() and snake(n) != n:
            turned[n] = snake(n)
        elif n[0].isupper() and "-" in n:
            turned[n] = n.replace("-", "_")
    plain = {n for n in found if n not in turned}
    by_new = collections.defaultdict(list)
    for n, to in turned.items():
        by_new[to].append(n)
    for to, old in by_new.items():
        dashed = [n for n in old if "-" in n]
        if dashed and (len(old) > len(dashed) or to in plain):
            for n in dashed:
                turned[n] += "_lem"
                print(f"lemma: {n} is {turned[n]}")
    return turned | LEMMAS


def in_antt(text, turned, kept):
    return TOKEN.sub(lambda m: m[0] if m[0] in kept else turned.get(m[0], m[0]), text)


def in_code(line, turned):
    """A line of a .rt file: outside its strings, and a dash only in what is ghost."""
    ghost = re.match(r"\s*(ghost use|requires|ensures)\b", line)
    parts, at = [], 0
    for m in list(STRING.finditer(line)) + [None]:
        piece = line[at : m.start() if m else len(line)]
        parts.append(TOKEN.sub(lambda t: turned.get(t[0], t[0]) if ghost or "-" not in t[0] and "_" not in t[0] else t[0], piece))
        if m:
            parts.append(m[0])
            at = m.end()
    return "".join(parts)


def in_page(text, turned):
    """A page: a name in camel case anywhere, one with a dash only where it is marked as code."""
    text = re.sub(r"`[^`\n]*`", lambda m: TOKEN.sub(lambda t: turned.get(t[0], t[0]) if "_" not in t[0] else t[0], m[0]), text)
    return TOKEN.sub(lambda t: turned.get(t[0], t[0]) if "-" not in t[0] and "_" not in t[0] else t[0], text)


def main(top):
    crates = os.path.join(top, "crates")
    turned = names(crates)
    local = {n: to for n, to in turned.items() if n in LEMMAS}
    for n in local:
        del turned[n]
    changed = 0
    for path in texts(crates, (".antt", ".rt")):
        with open(path, encoding="utf-8") as f:
            text = f.read()
        if path.endswith(".antt"):
            here = turned | local if "/history/proofs/" in path else turned
            new = in_antt(text, here, own_goals(text) if path.endswith("Proof.antt") else set())
        else:
            new = "".join(in_code(line, turned) for line in text.splitlines(keepends=True))
        if new != text:
            changed += 1
            with open(path, "w", encoding="utf-8") as f:
                f.write(new)
    pages = [os.path.join(top, "README.md"), *texts(os.path.join(top, "docs"), (".md",))]
    for path in pages:
        if not os.path.exists(path):
            continue
        with open(path, encoding="utf-8") as f:
            text = f.read()
        new = in_page(text, turned)
        if new != text:
            changed += 1
            with open(path, "w", encoding="utf-8") as f:
                f.write(new)
    print(f"respell: {len(turned)} names, {changed} files")


if __name__ == "__main__":
    main(sys.argv[1] if len(sys.argv) > 1 else ".")
