#!/usr/bin/env python3
"""Checks the worlds that worlds/make_world.py makes: they keep the rules, their exits meet, and from each exit a way leads to all that stands in
the room; and the built program takes them.

It runs behind `rt ci`, which builds crates/world_server/out/world_server. With --model no program is run.
"""

import json
import os
import subprocess
import sys
import tempfile

TOP = os.path.dirname(os.path.dirname(os.path.abspath(__file__)))
sys.path[:0] = [os.path.join(TOP, it) for it in ("oracle", "checks/harness", "worlds")]
from checked_program import Checks, content_of, run, shown, write_files  # noqa: E402
from game import place_of  # noqa: E402
from make_world import world  # noqa: E402
from rules import broken  # noqa: E402
from worlds import Refused, Upload, stream_of  # noqa: E402

checks = Checks(__file__, "--model" not in sys.argv[1:])

SIZES = [(1, 0), (1, 1), (2, 2), (3, 1), (5, 4), (16, 4), (64, 64), (399, 7), (400, 64)]
SCRIPT = os.path.join(TOP, "worlds/make_world.py")
FIXED = ("source", "controller", "spawn")


def is_open(place, x, y):
    return place["terrain"][50 * y + x] != "1"


def exits_of(place):
    """The tiles of each side that are no walls."""
    sides = {"left": [(0, n) for n in range(50)], "right": [(49, n) for n in range(50)], "top": [(n, 0) for n in range(50)], "bottom": [(n, 49) for n in range(50)]}
    return {side: [tile for tile in tiles if is_open(place, *tile)] for side, tiles in sides.items()}


def reached(place):
    """All tiles to which ways lead from one that stands beside the first thing, over what is no wall and has nothing that obstructs."""
    closed = {(one["x"], one["y"]) for one in place["objects"] if one["kind"] in FIXED}
    first = place["objects"][0]
    left = [tile for tile in around(first["x"], first["y"]) if is_open(place, *tile) and tile not in closed]
    seen = set(left)
    while left:
        for tile in around(*left.pop()):
            if tile not in seen and tile not in closed and is_open(place, *tile):
                seen.add(tile)
                left.append(tile)
    return seen


def around(x, y):
    return [(a, b) for a in range(max(0, x - 1), min(49, x + 1) + 1) for b in range(max(0, y - 1), min(49, y + 1) + 1) if (a, b) != (x, y)]


def way_faults(place):
    seen = reached(place)
    faults = [f"no way to the {one['kind']} of {place['name']}" for one in place["objects"] if not seen & set(around(one["x"], one["y"]))]
    return faults + [f"no way to {tile} of {place['name']}" for tiles in exits_of(place).values() for tile in tiles if tile not in seen]


def exit_faults(it):
    """Exits lead to exits of the next room, at the same tiles, and each room next to another one has some."""
    rooms, faults = {place_of(place["name"]): place for place in it["rooms"]}, []
    for (column, row), place in rooms.items():
        for side, other, across in (("right", (column + 1, row), "left"), ("bottom", (column, row + 1), "top")):
            here = {max(tile) if min(tile) == 0 else min(tile) for tile in exits_of(place)[side]}
            there = {max(tile) for tile in exits_of(rooms[other])[across]} if other in rooms else set()
            faults += [] if here == there and bool(here) == (other in rooms) else [f"{place['name']}, {side}: {sorted(here)} and {sorted(there)}"]
        for side, other in (("left", (column - 1, row)), ("top", (column, row - 1))):
            faults += [f"{place['name']}, {side}: an exit to no room"] if exits_of(place)[side] and other not in rooms else []
    return faults


def check_world(rooms, players, seed):
    it = world(rooms, players, seed=seed)
    name = f"{rooms} rooms and {players} players, seed {seed}"
    checks.note(f"{name}: the rules", broken(it))
    checks.note(f"{name}: exits", exit_faults(it))
    checks.note(f"{name}: ways", [fault for place in it["rooms"] for fault in way_faults(place)])
    owners = sorted(one["owner"] for place in it["rooms"] for one in place["objects"] if one["kind"] == "spawn")
    checks.note(f"{name}: spawns", [] if owners == list(range(1, players + 1)) else [f"those of {owners}"])
    if checks.has_program:
        check_run(name, it)


def check_run(name, it):
    """A run in which each player is a colony."""
    module = content_of(os.path.join(TOP, "players/colony.wasm"))
    uploads = [Upload(0, account["player"], Refused(None, module)) for account in it["players"]]
    with tempfile.TemporaryDirectory() as folder:
        write_files(folder, {"world.json": json.dumps(it).encode(), "uploads.bin": stream_of(uploads)})
        status, out, err = run(["run", "world.json", "uploads.bin", "journal.bin", "--ticks", "5"], folder)
    lines = out.decode().splitlines()
    faults = [] if (status, err) == (0, b"") and lines else [f"exit status {status}, standard error {shown(err)}"]
    faults += [line for line in lines if "refused" in line or "trapped" in line]
    runs = [line for line in lines if line.startswith("player ")]
    checks.note(f"{name}: a run of 5 ticks", faults if len(runs) == 5 * len(uploads) else [*faults, f"{len(runs)} runs"])


def check_words():
    with tempfile.TemporaryDirectory() as folder:
        path = os.path.join(folder, "it.json")
        for words, wanted in ((["3", "2", "--seed", "7", "--limit", "50"], world(3, 2, 50, 7)), (["1", "0"], world(1, 0))):
            done = subprocess.run([sys.executable, SCRIPT, *words, "-o", path], capture_output=True, timeout=60)
            said = done.returncode, done.stdout, done.stderr
            with open(path, encoding="utf-8") as it:
                checks.note(f"the words {words}", [] if said == (0, b"", b"") and json.load(it) == wanted else [f"{said}, or another world"])
            os.remove(path)
        for words in (["0", "0"], ["401", "1"], ["2", "3"], ["70", "65"], ["2", "1", "--limit", "501"], ["x", "1"], ["2"]):
            done = subprocess.run([sys.executable, SCRIPT, *words, "-o", path], capture_output=True, timeout=60)
            checks.note(f"the words {words}", [] if done.returncode == 2 and not os.path.exists(path) else [f"exit status {done.returncode}"])
    checks.note("other seeds make other worlds", [] if len({json.dumps(world(4, 2, seed=seed)) for seed in range(9)}) == 9 else ["two are the same"])


def main():
    for rooms, players in SIZES:
        for seed in range(3 if rooms < 100 else 1):
            check_world(rooms, players, seed)
    check_words()
    checks.finish()


main()
