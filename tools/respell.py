#!/usr/bin/env python3
"""Brings the definitions and lemmas of crates/ from camel case to snake case, and says how many it changed.

usage: python3 tools/respell.py        at the top, once, after the kit's port.py

It renames what an .antt file of specs/ or proofs/ declares, there, in the clauses of src/ and in the edits of
must-fail/. Types, modules and names of Rattle code stay as they are. Needs Python's standard library.
"""

import os
import re
import sys

WORD = re.compile(r"[^\W\d][\w'-]*")
DECLARED = re.compile(r"\s*(?:(?:pub|abbrev|unfoldable|opaque|local|record|data)\s+)*([^\W\d][\w'-]*)\s*:(?!=)")
TURN = re.compile(r"(?<=[a-z0-9])[A-Z]+")
# a word of the library that port.py has left inside a name, and in edits
LEFT = {"getD": "get_or"}
# a lemma that would fall together with a definition that it speaks of
APART = {"aib/specs/PairLaws.antt": {"in_use": "in_use-some_used"}}


def snake(name):
    parts = [LEFT.get(p) or TURN.sub(lambda m: "_" + m.group().lower(), p) if p[:1].islower() else p for p in name.split("-")]
    return "-".join(parts)


def texts(root):
    for folder, dirs, files in os.walk(root):
        dirs[:] = sorted(d for d in dirs if d != "out")
        for f in sorted(files):
            if f.endswith((".antt", ".rt", ".edit")):
                yield os.path.join(folder, f)


def declared(paths):
    names = set()
    for p in paths:
        if p.endswith(".antt"):
            with open(p, encoding="utf-8") as f:
                names |= {m.group(1) for line in f if (m := DECLARED.match(line))}
    return LEFT | {n: snake(n) for n in names if n[:1].islower() and snake(n) != n}


def main():
    if not os.path.isdir("crates"):
        print("respell: run it where crates/ is", file=sys.stderr)
        return 2
    paths = list(texts("crates"))
    names = declared(paths)
    changed = 0
    for p in paths:
        with open(p, encoding="utf-8") as f:
            old = f.read()
        apart = APART.get(os.path.relpath(p, "crates"), {})
        step = WORD.sub(lambda m: apart.get(m.group(), m.group()), old)
        new = WORD.sub(lambda m: names.get(m.group(), m.group()), step)
        if new != old:
            with open(p, "w", encoding="utf-8") as f:
                f.write(new)
            changed += 1
    print(f"respell: {len(names)} names, {changed} files")
    return 0


if __name__ == "__main__":
    raise SystemExit(main())
