#!/usr/bin/env python3
"""Brings the names of this repository's own definitions and lemmas to today's spelling.

usage: tools/respell.py        at the top of the repository, once, on what the kit's port.py has turned

Facts and types get upper camel case (`Good-book`: `GoodBook`), everything else that specs/ and proofs/ define snake case (`all-cost`: `all_cost`),
record fields too. Names of the code, of std and those that Rattle makes for goals stay. What is renamed is found by reading the definitions, so that
the same script does the same to any earlier commit. It prints each renaming, and stops before it writes anything where two names would fall together.
"""
import glob
import re
import sys

TOKEN = re.compile(r"[A-Za-z][\w']*(?:-[\w']+)*")
DEFINED = re.compile(r"^ *(?:abbrev |unfoldable )?(?:pub )?(?:record |data )?([A-Za-z][\w'-]*)(?: [^:=\n]*)? : ", re.M)
IMPORTED = re.compile(r"use (?:Rattle\.std|borrow|Prim|mathlib)[\w.]*\.\{([^}]*)\}")
GOAL = re.compile(r"^(?:abbrev )?(?:pub )?(\S+) : goal\.", re.M)


def respelled(name):
    parts = name.split("-")
    if name[0].isupper():
        return "".join(p[0].upper() + p[1:] for p in parts)
    return "_".join(parts)


def read(path):
    with open(path, encoding="utf-8") as f:
        return f.read()


proofs = sorted(glob.glob("crates/*/specs/*.antt") + glob.glob("crates/*/proofs/**/*.antt", recursive=True))
defined, foreign = set(), set()
for path in proofs:
    text = read(path)
    goals = set(GOAL.findall(text))
    defined |= {n for n in DEFINED.findall(text) if n not in goals}
    for names in IMPORTED.findall(text):
        foreign |= {n.split(" as ")[-1].strip() for n in names.split(",")}
renamed = {n: respelled(n) for n in sorted(defined) if "-" in n and n not in foreign}
for name, to in renamed.items():
    if to in defined or to in foreign:
        sys.exit(f"{name}: there is a {to} already")
if len(set(renamed.values())) < len(renamed):
    sys.exit("two names fall together")
for path in proofs + sorted(glob.glob("crates/*/src/**/*.rt", recursive=True)):
    text = read(path)
    turned = TOKEN.sub(lambda m: renamed.get(m[0], m[0]), text)
    if turned != text:
        with open(path, "w", encoding="utf-8") as f:
            f.write(turned)
for name, to in renamed.items():
    print(f"{name}: {to}")
