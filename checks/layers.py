#!/usr/bin/env python3
"""Compares the table of crates in docs/architecture.md with crates.txt, which says what each crate stands on: `checks/layers.py`, without a word, and
without the program.

The table draws the layers from the top down, and the crates of a layer too. So each crate of crates.txt has one row, each row is of a crate that is
there, the rows of a layer stand together, and a crate stands on none but those of rows below its own. Libraries of the kit, which crates.txt doesn't
list by themselves, have no rows. Crates that are tests alone (`*_examples`) may stand in any layer, above all that they use.

The folders of scripts are compared with a table below, which says from which others the scripts of each may import: the oracle from none, and nothing
but a benchmark from benchmarks. No name stands in two folders of which one script may import it.
"""

import ast
import collections
import os
import re
import sys

TOP = os.path.dirname(os.path.dirname(os.path.abspath(__file__)))
sys.path.insert(0, os.path.join(TOP, "checks/harness"))
from checked_program import Checks  # noqa: E402

TABLE, CRATES = "docs/architecture.md", "crates.txt"
HEAD = "| Layer | Crate |"
ROW = re.compile(r"\| ([^|]+) \| `(\w+)` \|")
# A line of crates.txt: the crate, words that say what it may do, and what it stands on.
CRATE = re.compile(r"(\w+)((?: \w+=\S+)*):((?: \w+)*)")

# The folders of scripts, each with those from which its scripts may import.
SCRIPTS = {
    "oracle": ("oracle",),
    "checks/harness": ("oracle", "checks/harness"),
    "checks/inputs": ("oracle", "checks/inputs"),
    "checks": ("oracle", "checks/harness", "checks/inputs", "checks", "players", "worlds"),
    "checks/by_hand": ("oracle", "checks/harness", "checks/inputs", "checks"),
    "bench": ("oracle", "checks/harness", "checks/inputs", "bench"),
    "players": ("players",),
    "worlds": ("worlds",),
}

Row = collections.namedtuple("Row", "number layer crate")


def lines_of(path):
    with open(os.path.join(TOP, path), encoding="utf-8") as it:
        return it.read().splitlines()


def crates_of(lines):
    """What each crate stands on, of those that crates.txt has, and the lines that say nothing of the kind."""
    found = [CRATE.fullmatch(line.rstrip()) for line in lines if line.strip()]
    stands_on = {it[1]: it[3].split() for it in found if it}
    wrong = [f"{CRATES}: no crate and what it stands on: {line}" for line in lines if line.strip() and not CRATE.fullmatch(line.rstrip())]
    twice = collections.Counter(it[1] for it in found if it)
    wrong += [f"{CRATES}: {crate} stands there {count} times" for crate, count in twice.items() if count > 1]
    return {crate: [it for it in others if it in stands_on] for crate, others in stands_on.items()}, wrong


def rows_of(lines):
    """The rows of the table of crates, with their numbers in the document, and the lines within it that are none."""
    starts = [number for number, line in enumerate(lines, 1) if line.startswith(HEAD)]
    if len(starts) != 1:
        return [], [f"{TABLE}: {len(starts)} tables begin with {HEAD}, and not one"]
    rows, wrong = [], []
    # (behind the head and the line under it)
    for number, line in enumerate(lines[starts[0] + 1 :], starts[0] + 2):
        if not line.startswith("|"):
            break
        found = ROW.match(line)
        if found:
            rows.append(Row(number, found[1], found[2]))
        else:
            wrong.append(f"{TABLE}:{number}: no layer and no crate: {line[:80]}")
    return rows, wrong


def row_faults(rows, crates):
    """Crates without exactly one row, and rows of crates that aren't there."""
    count = collections.Counter(it.crate for it in rows)
    faults = [f"{TABLE}: {crate} has {count[crate]} rows, and not one" for crate in crates if count[crate] != 1]
    for row in rows:
        if row.crate not in crates:
            faults.append(f"{TABLE}:{row.number}: {row.crate} is no crate of {CRATES}")
        elif not os.path.isdir(os.path.join(TOP, "crates", row.crate)):
            faults.append(f"{TABLE}:{row.number}: there is no folder crates/{row.crate}")
    return faults


def layer_faults(rows):
    """Rows of a layer that stand apart from the others of it."""
    faults, seen = [], set()
    for before, row in zip([None, *rows], rows):
        if row.layer in seen and row.layer != before.layer:
            faults.append(f"{TABLE}:{row.number}: {row.crate} stands apart from the other rows of the layer {row.layer}")
        seen.add(row.layer)
    return faults


def order_faults(rows, stands_on):
    """Crates that stand on one whose row is not below their own."""
    at = {row.crate: row for row in rows}
    faults = []
    for row in rows:
        for other in stands_on.get(row.crate, ()):
            if other in at and at[other].number <= row.number:
                layers = f"{row.crate} ({row.layer}) stands on {other} ({at[other].layer})"
                faults.append(f"{TABLE}:{row.number}: {layers}, whose row is drawn above it")
    return faults


def scripts_in(folder):
    return sorted(it[:-3] for it in os.listdir(os.path.join(TOP, folder)) if it.endswith(".py"))


def imported_by(path):
    """The modules that a script imports, wherever in it."""
    with open(os.path.join(TOP, path), encoding="utf-8") as it:
        steps = list(ast.walk(ast.parse(it.read())))
    named = {name.name for step in steps if isinstance(step, ast.Import) for name in step.names}
    return named | {step.module for step in steps if isinstance(step, ast.ImportFrom) and step.module}


def script_faults():
    """Imports of a script from a folder of which its own may not, and names that stand in two of those of which it may."""
    homes = collections.defaultdict(list)
    for folder in SCRIPTS:
        for name in scripts_in(folder):
            homes[name].append(folder)
    faults = []
    for folder, others in SCRIPTS.items():
        for name in scripts_in(folder):
            for module in sorted(imported_by(f"{folder}/{name}.py") & set(homes)):
                found = [it for it in homes[module] if it in others]
                if not found:
                    faults.append(f"{folder}/{name}.py: it imports {module} of {homes[module][0]}/, and may not")
                elif len(found) > 1:
                    faults.append(f"{folder}/{name}.py: it imports {module}, which stands in {' and in '.join(found)}")
    return faults


def main():
    if sys.argv[1:] in (["-h"], ["--help"]):
        print(__doc__.strip())
        return
    if len(sys.argv) != 1:
        sys.exit(f"layers.py: it takes no words, and not {sys.argv[1]}")
    checks = Checks(__file__, has_program=False)
    try:
        stands_on, wrong_crates = crates_of(lines_of(CRATES))
        rows, wrong_rows = rows_of(lines_of(TABLE))
    except (OSError, UnicodeDecodeError) as error:
        sys.exit(f"layers.py: {error}")
    checks.note(f"the lines of {CRATES}", wrong_crates)
    checks.note(f"the lines of the table in {TABLE}", wrong_rows)
    checks.note("each crate has one row, and each row a crate", row_faults(rows, stands_on), max(1, len(stands_on)))
    checks.note("the rows of a layer stand together", layer_faults(rows), max(1, len({row.layer for row in rows})))
    checks.note("each crate stands on rows below its own", order_faults(rows, stands_on), max(1, sum(map(len, stands_on.values()))))
    checks.note("scripts import from folders of which they may", script_faults(), sum(len(scripts_in(folder)) for folder in SCRIPTS))
    checks.finish()


if __name__ == "__main__":
    main()
