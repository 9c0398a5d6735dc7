#!/usr/bin/env python3
"""Brings the definitions and lemmas of specs/ and proofs/ to snake case, as today's Rattle spells its words.

Run once at the top of the repository, after the kit's port.py. Names that a proof's walk through the code gave (Tie's needs, in Proof.antt)
are left, as are types and modules, the paper's letters (f, F, H, D, Q, m, HD', S1 to S11), and all names of src/, strings and outputs.
"""
import glob
import os
import re

TOKEN = re.compile(r"[A-Za-z_][A-Za-z0-9_'₀-₉]*(?:-[A-Za-z0-9_'₀-₉]+)*")
DECLARED = re.compile(r"\s*(?:(?:abbrev|unfoldable|pub)\s+)*([A-Za-z][A-Za-z0-9_'₀-₉-]*)\s*(?:\(.*\)\s*)?:(?:\s|$)")
ALIAS = re.compile(r"\bas ([A-Za-z][A-Za-z0-9_'-]*)")

# Two names that snake case would make one: the lemma gives way, or the field.
FALL_TOGETHER = {
    "bit-or": "bit_or_lem",
    "first_above": "first_above_lem",
    "is-above": "is_above_lem",
    "is-legal": "each_is_legal",
    "is-overrun": "is_overrun_lem",
    "is-visited": "is_visited_lem",
    "lengths-of": "lengths_of_lem",
    "no_bytes": "no_bytes_lem",
    "on-date": "on_date_lem",
    "unless-turned": "unless_turned_lem",
    "with-next": "with_next_lem",
}
# A constructor in one crate, a lemma beside the function demand_at in another.
IN_CRATES = {"demand-at": {"load": "demand_at_lem", "superposition_test": "demand_at_lem"}}
# Rattle makes a module specs.contracts.
MODULES = {"Contracts": "FunctionContracts"}


def snake(name):
    name = name.replace("-", "_")
    if name[0].islower():
        name = re.sub(r"(?<=[a-z0-9'])([A-Z])", r"_\1", name).lower()
    return name


def code(path, line):
    return re.sub(r"(^|\s)--(\s.*|)$", "", line) if path.endswith(".antt") else line


def sources():
    for kind in ("antt", "rt", "edit"):
        for path in sorted(glob.glob(f"crates/**/*.{kind}", recursive=True)):
            if "/out/" not in path:
                yield path


def renames():
    names = set()
    for path in sources():
        if path.endswith(".edit"):
            continue
        for line in open(path, encoding="utf-8"):
            line = code(path, line)
            names.update(ALIAS.findall(line))
            declared = DECLARED.match(line) if path.endswith(".antt") else None
            if declared and not (path.endswith("Proof.antt") and ("tie." in line or "statement" in line)):
                names.add(declared.group(1))
    table = {name: snake(name) for name in names if snake(name) != name}
    table.update(FALL_TOGETHER)
    table.update(MODULES)
    return table


def main():
    table = renames()
    for path in sources():
        crate = path.split(os.sep)[1]
        here = dict(table)
        here.update({name: in_crates[crate] for name, in_crates in IN_CRATES.items() if crate in in_crates})
        text = open(path, encoding="utf-8").read()
        turned = TOKEN.sub(lambda m: here.get(m.group(0), m.group(0)), text)
        if turned != text:
            open(path, "w", encoding="utf-8").write(turned)
    for path in sources():
        folder, file = os.path.split(path)
        name, kind = os.path.splitext(file)
        if kind == ".antt" and name in MODULES:
            os.rename(path, os.path.join(folder, MODULES[name] + kind))


main()
