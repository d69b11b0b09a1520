#!/usr/bin/env python3
"""Brings the repository's own names to the spelling of today's Rattle, after port.py.

usage: python3 tools/respell.py [FOLDER]
rewrites crates/, README.md and docs/ of FOLDER (else of this repository)

Definitions, fields, constructors and lemmas are in snake case. A dash stays where it joins a
definition's name to what a lemma says of it, as in `net-joined`; between plain words it is an
underscore. A name that would have another's spelling gets `_lem`. Functions of src/, exported names,
strings, inputs and outputs keep their names. In pages a command may have a lemma's old name, as
`least-trade`: read their diff.
"""

import os
import re
import sys

HERE = os.path.dirname(os.path.abspath(__file__))
ROOT = os.path.abspath(sys.argv[1]) if len(sys.argv) > 1 else os.path.join(HERE, "..")
DECLARED = re.compile(r"^(\s*)((?:pub |abbrev |unfoldable |data |record )*)([^\s:(){}.,;λ]+) :( |$)")
TOKEN = re.compile(r"[^\s(){}\[\].,;:\"`|]+")
STRING = re.compile(r'("[^"\n]*")')
QUOTED = re.compile(r"`[^`\n]+`")
GOAL = re.compile(r"\bNeed-(\S+)")
# Names of the library's that lemmas here have too.
KEPT = {"not-false"}
# Definitions whose name in snake case a lemma or a function of src/ has.
CHOSEN = {
    "rowCount": "count_of_rows",
    "twoBytes": "two_bytes_of",
    "fourBytes": "four_bytes_of",
    "turnFacts": "turning_facts",
}


def files(suffixes, *tops):
    for top in tops:
        for folder, dirs, names in os.walk(os.path.join(ROOT, top)):
            dirs[:] = sorted(d for d in dirs if d not in ("out", ".git", "target"))
            for name in sorted(names):
                if name.endswith(suffixes):
                    yield os.path.join(folder, name)


def read(path):
    with open(path, encoding="utf-8") as f:
        return f.read()


def snake(part):
    if not part[:1].islower():
        return part
    return re.sub(r"(?<=[a-z0-9])([A-Z])", lambda m: "_" + m.group(1).lower(), part)


def declared():
    """The names that specs/ and proofs/ declare: definitions of specs/, and the others."""
    definitions, others, seen, goals = set(), {}, set(), set()
    for path in files((".antt",), "crates"):
        text = read(path)
        seen.update(TOKEN.findall(text))
        goals.update(GOAL.findall(text))
        in_specs = "/specs/" in path
        for line in text.split("\n"):
            m = DECLARED.match(line)
            if m is None or ".Need-" in line:
                continue
            if in_specs and not m.group(1):
                definitions.add(m.group(3))
            others.setdefault(m.group(3), path)
    for goal in goals:
        others.pop(goal, None)
    for path in files((".rt",), "crates"):
        seen.update(TOKEN.findall(read(path)))
    return definitions, others, seen


def table():
    definitions, names, seen = declared()
    heads = {snake(d) for d in definitions} | definitions
    new, taken = {}, set(seen)
    plain = [n for n in sorted(names) if "-" not in n and snake(n) != n]
    for n in plain:
        to = CHOSEN.get(n, snake(n))
        assert to not in names, f"{n}: {to} is there"
        new[n] = to
        taken.add(to)
    for path in files((".rt",), "crates"):
        for n in re.findall(r"\bas ([a-z]\w*[A-Z]\w*)[,}]", read(path)):
            new[n] = snake(n)
    for n in sorted(names):
        if n in KEPT or "-" not in n or "`" in n or not n[0].isalpha() or n.endswith("-"):
            continue
        if n.endswith("-spec"):
            new[n] = n.replace("-", "_")
            continue
        parts = [snake(p) for p in n.split("-")]
        to = parts[0]
        for i, part in enumerate(parts[1:]):
            of_head = i == 0 and to in heads and to not in ("no", "of", "both", "none", "all")
            joins = of_head or not part[:1].islower() or not parts[0][:1].islower()
            to += ("-" if joins else "_") + part
        if to != n:
            if to in taken:
                to += "_lem"
            new[n] = to
            taken.add(to)
    assert len(set(new.values())) == len(new), "two names fall together"
    return new


def main():
    new = table()
    def turn(m):
        return new.get(m.group(0), m.group(0))
    changed = 0
    for path in files((".antt", ".rt", ".edit"), "crates"):
        text = read(path)
        parts = STRING.split(text)
        turned = "".join(p if i % 2 else TOKEN.sub(turn, p) for i, p in enumerate(parts))
        changed += turned != text
        if turned != text:
            with open(path, "w", encoding="utf-8") as f:
                f.write(turned)
    pages = [os.path.join(ROOT, "README.md")] + list(files((".md",), "docs"))
    for path in pages:
        text = read(path)
        turned = QUOTED.sub(lambda m: TOKEN.sub(turn, m.group(0)), text)
        if turned != text:
            with open(path, "w", encoding="utf-8") as f:
                f.write(turned)
            changed += 1
    print(f"respell: {len(new)} names, {changed} files")


main()
