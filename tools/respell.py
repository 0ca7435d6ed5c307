#!/usr/bin/env -S python3 -I
"""Spells this repository's own definitions and lemmas as today's Rattle does, after port.py has turned the rest.

usage: tools/respell.py          at the top of the repository, once, on what port.py left

A definition, a lemma, a field and a constructor are in snake case: `nextGoal` is `next_goal`, `numberedTo-at` is `numbered_to-at`. A
dash stays where it joins two names of a lemma; in a definition, a field and a constructor it becomes `_`. Types and facts keep their
capital, also within a name (`chain-C2`, `single-Reads`). Names of src/ are in snake case already and stay. The scripts of port.py
turned `getD` within a few names to `get_d`: those follow `get_or`.
"""

import sys

if not __debug__:  # as in every script here
    sys.exit('tools/respell.py: python3 leaves assertions out (-O or PYTHONOPTIMIZE), so nothing would be checked')

import os
import re

TOKEN = re.compile(r"[^\s(){}\[\],.;:\"`|=]+")
DECLARED = re.compile(r"^\s*(?:(?:abbrev|unfoldable|pub|data|record)\s+)*([^\s:(){}\"]+) :(?= |$)")
BLOCK = re.compile(r"^(\s*)(?:pub )?(?:data|record) .*where")
DEFINED = re.compile(r"^\s*(?:abbrev|unfoldable) (?:pub )?([^\s:(){}\"]+) :(?= |$)")
CAMEL = re.compile(r"(?<=[a-z0-9])([A-Z])(?=[a-z])")
CASE = re.compile(r"^C\d+r?$|^[A-Z]$")  # the comparisons C1 to C12, C5r, and the signal D
# lemmas that would now have the name of a definition that they are about
LEMMAS = ("by_rows", "goes_back", "in_rows", "includes_none", "left_by", "passes_over", "row_zero", "some_below")
WALKS = ("crates/compare/proofs/", "invariant-loop", "decreases-loop")


def files(kinds):
    for folder, dirs, names in os.walk("crates"):
        dirs[:] = sorted(d for d in dirs if d != "out")
        for name in sorted(names):
            if name.endswith(kinds):
                yield os.path.join(folder, name)


def snake(name):
    parts = [p if CASE.match(p) else CAMEL.sub(lambda m: "_" + m.group(1).lower(), p) for p in name.split("-")]
    return "-".join(parts).replace("get_d_", "get_or_")


def main():
    declared, plain = set(), set()
    for path in files((".antt",)):
        inside = None
        with open(path, encoding="utf-8") as f:
            for line in f:
                named = DECLARED.match(line)
                if named and not named.group(1).startswith("--"):
                    declared.add(named.group(1))
                block = BLOCK.match(line)
                if block:
                    inside = len(block.group(1))
                elif inside is not None and line.strip() and not line.lstrip().startswith("--"):
                    if len(line) - len(line.lstrip()) <= inside:
                        inside = None
                    elif named:
                        plain.add(named.group(1))
                defined = DEFINED.match(line)
                if defined and not path.startswith(WALKS[0]) and not defined.group(1).startswith(WALKS[1:]) and "/+" not in path:
                    plain.add(defined.group(1))
    new = {}
    for name in LEMMAS:
        if name in declared and snake(name) in {snake(n) for n in declared if n != name}:
            new[name] = name + "_lem"
    for name in declared - set(new):
        if not re.match(r"[a-z]", name):
            continue
        to = snake(name)
        if name in plain and not any(CASE.match(p) for p in name.split("-")):
            to = to.replace("-", "_")
        if to != name:
            new[name] = to
    tokens = set()
    for path in files((".antt", ".rt")):
        with open(path, encoding="utf-8") as f:
            tokens.update(TOKEN.findall(f.read()))
    for name, to in sorted(new.items()):
        if to in tokens and to not in new:
            print(f"look: {name} becomes {to}, which stands somewhere already")
        others = [n for n in new if new[n] == to and n != name]
        if others:
            print(f"look: {name} becomes {to}, and so does {others[0]}")
    if "--dry" in sys.argv[1:]:
        for name, to in sorted(new.items()):
            print(name, to)
        return
    for path in files((".antt", ".rt")):
        with open(path, encoding="utf-8") as f:
            text = f.read()
        turned = TOKEN.sub(lambda m: new.get(m.group(0), m.group(0)), text)
        if turned != text:
            with open(path, "w", encoding="utf-8") as f:
                f.write(turned)
    print(f"turned: {len(new)} names")


main()
