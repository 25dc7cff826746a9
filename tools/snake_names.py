#!/usr/bin/env python3
"""Brings this repository's own definitions and lemmas to today's spelling: words in snake case, as `boardOf` to `board_of`.

usage: python3 tools/snake_names.py        at the top of the repository, once, after the kit's port.py

What is renamed is every name with a capital inside that begins small, in .rt (clauses and comments), .antt and .edit files, and the same names in
README.md and docs/*.md. Functions of src/, exported names, strings, inputs and outputs have no such name. Four names of proofs/ that would fall
together with a renamed definition in scope get another name first.
"""

import glob
import os
import re

CAMEL = re.compile(r"(?<![A-Za-z0-9_'.-])[a-z][a-z0-9_]*[A-Z][A-Za-z0-9_]*(?:'+)?(?![A-Za-z0-9_-])|(?<=\.)[a-z][a-z0-9_]*[A-Z][A-Za-z0-9_]*")

# (files, old name, new name): names in the way of a renamed definition
FIRST = [
    ("crates/rules/proofs", "is_control", "controlling"),
    ("crates/marks/proofs", "one_more", "one_more-counted"),
    ("crates/marks/proofs/TestedLaws.antt", "differs_at", "own_differs"),
    ("crates/rules/proofs/Derived.antt", "most_bytes", "most_bytes-is"),
]


def snake(name):
    return re.sub(r"[A-Z]+", lambda m: "_" + m.group().lower(), name)


def sources():
    for path in sorted(glob.glob("crates/**/*", recursive=True)):
        if path.endswith((".rt", ".antt", ".edit")) and "/out/" not in path:
            yield path


def rewrite(path, turn):
    with open(path, encoding="utf-8") as f:
        old = f.read()
    new = turn(old)
    if new != old:
        with open(path, "w", encoding="utf-8") as f:
            f.write(new)
    return new != old


def main():
    if not os.path.isdir("crates"):
        raise SystemExit("run it at the top of the repository")
    names = set()
    for path in sources():
        if not path.endswith(".edit"):
            with open(path, encoding="utf-8") as f:
                names |= set(CAMEL.findall(f.read()))
    for place, old, new in FIRST:
        for path in sources():
            if path.startswith(place):
                rewrite(path, lambda t: re.sub(r"(?<![A-Za-z0-9_'-])" + old + r"(?![A-Za-z0-9_'-])", new, t))
    changed = 0
    for path in sources():
        changed += rewrite(path, lambda t: CAMEL.sub(lambda m: snake(m.group()), t))
    known = re.compile(r"(?<![A-Za-z0-9_-])(" + "|".join(sorted(names, key=len, reverse=True)) + r")(?![A-Za-z0-9_-])")
    for path in ["README.md"] + sorted(glob.glob("docs/*.md")):
        changed += rewrite(path, lambda t: known.sub(lambda m: snake(m.group()), t))
    print(f"{len(names)} names, {changed} files changed")
    for name in sorted(names):
        print(name, snake(name))


if __name__ == "__main__":
    main()
