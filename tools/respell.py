#!/usr/bin/env python3
"""Brings the names that this repository's antt files declare to today's spelling: words in snake case, types and modules in upper camel case.

usage: python3 tools/respell.py [--list]      at the top of the repository, once, after the kit's port.py

What turns, in crates/*/specs, crates/*/proofs, the clauses and ghost items of crates/*/src, and crates/*/must-fail:
- a definition, lemma, field or case whose name is in camel case with a small first letter: maxStates, backupAt-below -> max_states, backup_at-below;
- a definition or field of specs/ whose name has a dash: entries-fit -> entries_fit. A lemma keeps its dashes.
In README.md and docs/ the names in camel case turn too.
Names of src/, exported names, strings, inputs and outputs stay. --list prints the rows and what falls together, and writes nothing.
"""
import glob
import re
import sys

NAME = r'[^\s(){}.;,@"«»]+'
DECLARED = re.compile(
    r"(?m)^ *(?:(?:pub|abbrev|unfoldable|private|record|data) )*(" + NAME + r")((?: \{[^{}\n]*\})*(?: \([^()\n]*\))*)\s*:\s"
)
WORD = re.compile(r'[^\s(){}.;:,@"«»\[\]⌜⌝!?&|`*]+')
# Names that would fall together with another turn to a word of their own.
OWN = {
    "entry_in": "entry_fits",
    "value_in": "value_fits",
    "corner-in": "corner_fits",
    "cells_same": "same_cells",
    "marked_from": "marked_from-at",
    "no_cells": "no_cells-stored",
    "last_digits": "last_digits-bytes",
    "getD-listed": "get_or-listed",
    "reached-covered": "covers_reached",
    "two_steps": "two_step_worth",
    "two-steps-≤": "two_step_worth-≤",
}


def snake(part):
    return re.sub(r"(?<=[a-z0-9])[A-Z]", lambda m: "_" + m[0].lower(), part)


def turned(name, in_specs):
    parts = name.split("-")
    new = [snake(p) if p[:1].islower() else p for p in parts]
    return ("_" if in_specs and all(re.fullmatch(r"\w+", p) for p in parts) else "-").join(new)


def rows(root):
    table = {}
    for path in sorted(glob.glob(root + "/crates/*/specs/*.antt") + glob.glob(root + "/crates/*/proofs/**/*.antt", recursive=True)):
        with open(path, encoding="utf-8") as f:
            text = f.read()
        for m in DECLARED.finditer(text):
            name = m[1]
            new = OWN.get(name) or turned(name, "/specs/" in path)
            if new != name and (name not in table or "/specs/" in path):
                table[name] = new
    return table


def files(root):
    for kind in ("specs/*.antt", "proofs/**/*.antt", "src/*.rt", "must-fail/*.edit"):
        yield from sorted(glob.glob(root + "/crates/*/" + kind, recursive=True))


def respelled(path, text, table):
    def word(m):
        w = m[0]
        tail = re.search(r"'*$", w)[0]
        head = w[: len(w) - len(tail)] if tail else w
        return table.get(w) or (table[head] + tail if head in table else w)

    out = []
    for line in text.split("\n"):
        if path.endswith(".edit") and not line.startswith(("old: ", "new: ", "#")):
            out.append(line)
            continue
        # text in quotes stays
        out.append("".join(p if i % 2 else WORD.sub(word, p) for i, p in enumerate(re.split(r'("(?:[^"\\]|\\.)*")', line))))
    return "\n".join(out)


def main():
    root = "."
    table = rows(root)
    words = {}
    for path in files(root):
        with open(path, encoding="utf-8") as f:
            for w in set(WORD.findall(f.read())):
                words.setdefault(w, []).append(path)
    if "--list" in sys.argv:
        for old, new in sorted(table.items()):
            met = words.get(new, [])
            print(f"{old}\t{new}" + (f"\tmeets {len(met)}: {' '.join(met[:4])}" if met else ""))
        return
    in_pages = {old: new for old, new in table.items() if re.search("[a-z0-9][A-Z]", old)}
    pages = [root + "/README.md", *sorted(glob.glob(root + "/docs/*.md"))]
    for path in [*files(root), *pages]:
        with open(path, encoding="utf-8") as f:
            text = f.read()
        new = respelled(path, text, in_pages if path in pages else table)
        if new != text:
            with open(path, "w", encoding="utf-8") as f:
                f.write(new)


main()
