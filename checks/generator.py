#!/usr/bin/env python3
"""How the players of generated worlds do: the second writing of the generator (oracle/generated_worlds.py) makes worlds and upload streams, and the
built program runs them.

It runs behind `rt ci`, which builds crates/world_server/out/world_server. It is seen that the program takes the world and the module, that each
player's creep harvests, comes home and fills the spawn, that it drops its load where the spawn is full, and that none needs more fuel than a
hundredth of what it may use, nor more than all of it with 300 objects in sight.
"""

import json
import os
import sys
import tempfile

TOP = os.path.dirname(os.path.dirname(os.path.abspath(__file__)))
sys.path[:0] = [os.path.join(TOP, it) for it in ("oracle", "checks/harness", "players")]
from checked_program import run, write_files  # noqa: E402
from generated_worlds import STATES, players_of, uploads, world  # noqa: E402
from journal_file import worlds_of  # noqa: E402

TICKS = 300
FUEL = 200_000


# ---- what is seen


def played(made, stream, ticks):
    """The status and the lines of a run, and the rooms after each tick."""
    with tempfile.TemporaryDirectory() as folder:
        write_files(folder, {"world.json": json.dumps(made).encode(), "stream": stream})
        status, out, _ = run(["run", "world.json", "stream", "journal", "--ticks", str(ticks)], folder)
        with open(os.path.join(folder, "journal"), "rb") as it:
            # (a tick brings lists of its own, so those of the worlds before it stay)
            states = [{index: room.objects for index, room in world.rooms.items()} for _, world in worlds_of(it.read())]
    return status, out.decode().splitlines(), states


def one(objects, kind):
    return next(it for it in objects if it["kind"] == kind)


def fuel(lines):
    return max(int(line.split()[3]) for line in lines if " finished " in line)


def faults_of_work(states, room, full):
    """What is wrong with the work of a room's creep: it fills itself more than once, and hands on or drops all of it."""
    loads = [one(state[room], "creep")["energy"] for state in states]
    emptied = sum(now == 0 < before for before, now in zip(loads, loads[1:]))
    piles = any(it["kind"] == "pile" for state in states for it in state[room])
    energy = [one(state[room], "spawn")["energy"] for state in states]
    faults = []
    if max(loads) != 50 or emptied < 2:
        faults.append(f"room {room}: loads up to {max(loads)}, emptied {emptied} times")
    if full and (not piles or min(energy) != 300):
        faults.append(f"room {room}: nothing is dropped, or the spawn is not full")
    if not full and max(now - before for before, now in zip(energy, energy[1:])) < 50:
        faults.append(f"room {room}: the spawn gets no load")
    return faults


def faults_of_world(seed, rooms):
    status, lines, states = played(world(seed, rooms), uploads(rooms), TICKS)
    players = players_of(rooms)
    faults = [] if status == 0 else [f"status {status}"]
    faults += [f"player {player} is refused" for player in range(1, players + 1) if f"upload player {player} accepted" not in lines]
    faults += [fault for room in range(players) for fault in faults_of_work(states, room, True)]
    return faults + ([] if fuel(lines) <= FUEL // 100 else [f"{fuel(lines)} of fuel"])


def faults_of_poor_spawn():
    """A spawn that begins with nothing is filled by its creep."""
    made = world(7, 1)
    one(made["rooms"][0]["objects"], "spawn")["energy"] = 0
    _, _, states = played(made, uploads(1), TICKS)
    return faults_of_work(states, 0, False)


def faults_of_crowd():
    """With 300 objects in sight, the source and the spawn behind most of them, the fuel is enough."""
    made = world(7, 1)
    room = made["rooms"][0]
    roads = [(x, y) for y in range(31, 41) for x in range(10, 40)][:296]
    for (x, y), at in zip(roads, range(5, 301)):
        room["objects"].append({"id": at, "kind": "road", "x": x, "y": y, "hits": 5000, "timer": 1000})
    creep, source = one(room["objects"], "creep"), one(room["objects"], "source")
    source["id"], creep["id"], room["next"] = 301, 302, 303
    _, lines, states = played(made, uploads(1), 60)
    faults = [] if fuel(lines) <= FUEL else [f"{fuel(lines)} of fuel"]
    return faults if max(one(state[0], "creep")["energy"] for state in states) == 50 else [*faults, "no work"]


def main():
    tries = [(f"seed {seed}, {rooms} rooms", faults_of_world, (seed, rooms)) for seed, rooms in [(7, 1), (0, 9), (STATES - 1, 3), (12345, 400)]]
    tries += [("a poor spawn", faults_of_poor_spawn, ()), ("a crowd", faults_of_crowd, ())]
    failed = 0
    for name, faults_of, words in tries:
        faults = faults_of(*words)
        failed += bool(faults)
        for fault in faults:
            print(f"FAILED: {name}: {fault}")
    print(f"{len(tries) - failed} checks of generated worlds passed, {failed} failed")
    return 1 if failed else 0


if __name__ == "__main__":
    sys.exit(main())
