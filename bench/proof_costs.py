#!/usr/bin/env python3
"""Prints where the first check of a crate spent its time, by kind of work, by module and by function.

Run `rt check --jobs 1` in the crate's folder first, where its out/ is not there yet, and then this in the repository's top
folder with the crate's name. A check keeps each module as it ends with it, in files below out/incremental: the
time of a module is that between its file and the one before. These are seconds by the clock, so the machine should do
nothing else; after a second check the figures mean nothing.

Of a function, `Lts` is what the borrow checker makes of its body, its drops among it, `Proof` its goals, and `Tie` what joins both.
"""

import collections
import os
import re
import sys

PARTS = ("Lts", "Proof", "Tie", "Code", "Statement", "Met", "Given", "Kinds", "Key", "Goals", "Answers", "Invariants", "Reads")
MOST = 25


def kept_files(folder):
    """The files below a folder as moments and names, the earliest first."""
    found = []
    for at, _, names in os.walk(folder):
        found += [(os.stat(f"{at}/{name}").st_mtime_ns / 1e9, name) for name in names]
    return sorted(found)


def kind_of(module):
    """What a module is made for."""
    last = module.rpartition(".")[2]
    if "-proofs." not in module:
        return "specs and contracts"
    return f"proofs, {last}" if last in PARTS else "proofs, lemmas and all else"


def main():
    if len(sys.argv) != 2:
        sys.exit(__doc__)
    files = kept_files(f"crates/{sys.argv[1]}/out/incremental")
    if not files:
        sys.exit(f"bench/proof_costs.py: no check of {sys.argv[1]} kept anything: run `rt check --jobs 1` in its folder")
    kinds, modules, functions = (collections.Counter() for _ in range(3))
    for (before, _), (moment, name) in zip(files, files[1:]):
        module = re.sub(r"(\.decls)?\.oantt$", "", name)
        kinds[kind_of(module)] += moment - before
        modules[module] += moment - before
        function = re.match(r"Rattle-\w+-proofs\.(.*)\.\w+$", module)
        if function:
            functions[function[1]] += moment - before
    for title, table in (("kinds", kinds), ("modules", modules), ("functions", functions)):
        print(title)
        for name, seconds in table.most_common(MOST):
            print(f"{seconds:8.1f}  {name}")
    print(f"{sum(kinds.values()):8.1f}  all")


main()
