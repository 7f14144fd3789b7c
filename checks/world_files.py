#!/usr/bin/env python3
"""Runs the built program on world files and compares what it says of each: the first fault, or the world that it
goes on with. Each file is one good world with one place changed, and what is expected stands beside it: it comes
from docs/formats.md, not from the program.

It runs behind `rt ci`, which builds crates/world_server/out/world_server.
"""

import json
import os
import subprocess
import sys
import tempfile

TOP = os.path.dirname(os.path.dirname(os.path.abspath(__file__)))
PROGRAM = os.path.join(TOP, "crates/world_server/out/world_server")
SECOND = 1 << 32
MOST = 1 << 53
WALLS = {(0, 0), (49, 0), (0, 49), (49, 49)}

failures = 0
passed = 0


def terrain(walls=WALLS, swamps=()):
    return "".join("1" if (x, y) in walls else "2" if (x, y) in swamps else "0" for y in range(50) for x in range(50))


def thing(serial, kind, x, y, room=1, **fields):
    return {"id": room * SECOND + serial, "kind": kind, "x": x, "y": y, **fields}


# The places of the objects of the second room.
SOURCE, CREEP, SPAWN, EXTENSION, STORAGE, CONTAINER, ROAD, PILE, SITE, WOUNDED = range(10)


def world():
    """A world of two rooms with an object of each kind, and two players in falling number."""
    return {
        "version": 1,
        "tick": 5,
        "rooms": [
            {
                "name": "E0S0",
                "terrain": terrain(),
                "next": 20,
                "objects": [
                    thing(3, "source", 9, 9, room=0, energy=3000, timer=300),
                    thing(1, "controller", 5, 5, room=0, other=7, other_ticks=5000),
                ],
            },
            {
                "name": "W127N0",
                "terrain": terrain(WALLS | {(30, 30)}, {(31, 31)}),
                "next": 100,
                "objects": [
                    thing(11, "source", 30, 30),
                    thing(12, "creep", 0, 20, owner=7, body=["work", "carry", "move"], energy=50, timer=1500, extra=500),
                    thing(13, "spawn", 11, 11, owner=7, energy=300, timer=6, body=["move", "claim"]),
                    thing(14, "extension", 12, 11, owner=7, energy=200),
                    thing(15, "storage", 13, 11, owner=9, energy=1000000),
                    thing(16, "container", 14, 11, energy=2000, timer=500),
                    thing(17, "road", 15, 11, timer=1000),
                    thing(18, "pile", 15, 11, energy=1000000000),
                    thing(19, "site", 16, 11, owner=9, extra=5, progress=2999),
                    # (of its three parts the first is dead)
                    thing(20, "creep", 20, 20, owner=9, body=["carry", "carry", "claim"], hits=200, energy=50, timer=600),
                    thing(21, "controller", 40, 40, owner=9, extra=7, progress=10934999, timer=150000),
                ],
            },
        ],
        "players": [
            {"player": 9, "token": "!~" * 32, "limit": 500, "bucket": 10000, "points": MOST, "memory": "00ff" * 100},
            {"player": 7, "limit": 0},
        ],
    }


def check(name, text, fault):
    """Runs no tick of a world: the program says the fault, or the opening line where `fault` is a line."""
    global failures, passed
    with tempfile.TemporaryDirectory() as folder:
        with open(os.path.join(folder, "w.json"), "wb") as it:
            it.write(text if isinstance(text, bytes) else json.dumps(text).encode())
        open(os.path.join(folder, "u.bin"), "wb").close()
        done = subprocess.run([PROGRAM, "run", "w.json", "u.bin", "j.bin", "--ticks", "0"], cwd=folder, stdin=subprocess.DEVNULL, capture_output=True, timeout=120)
    accepted = fault.startswith("start ")
    want = (0, fault + "\n", "") if accepted else (3, "", f"fault 3 World {fault}\n")
    got = (done.returncode, done.stdout.decode(), done.stderr.decode())
    if got == want:
        passed += 1
    else:
        failures += 1
        print(f"FAILED: {name}\n    wanted {want}\n    got    {got}")


def changed(fault, *path, **to):
    """The world with one value changed: `to` has the value, or nothing where the key is taken away."""
    it = world()
    at = it
    for step in path[:-1]:
        at = at[step]
    if "to" in to:
        at[path[-1]] = to["to"]
    else:
        del at[path[-1]]
    check(f"{'.'.join(map(str, path))} {to.get('to', 'absent')!r:.60}: {fault}", it, fault)


def with_changes(fault, *changes):
    """The world with several values changed, each a path and a value."""
    it = world()
    for *path, value in changes:
        at = it
        for step in path[:-1]:
            at = at[step]
        at[path[-1]] = value
    check(f"{changes!r:.100}: {fault}", it, fault)


FINE = "start tick 5 rooms 2 objects 13 players 2"
NO_NUMBERS = [None, True, "1", [], {}, -1, 1.0, 1 << 64]
NO_TEXTS = [None, 1, ["pile"], {}]
NO_LISTS = [None, 1, "x", {}]


def one_object(place):
    return ("rooms", 1, "objects", place)


def forms():
    """Each key: absent, of a wrong form, at and past each end of its range."""
    check("the world itself", world(), FINE)
    for key, values in [("version", NO_NUMBERS + [0, 2]), ("tick", NO_NUMBERS + [MOST + 1]), ("rooms", NO_LISTS), ("players", NO_LISTS)]:
        for value in values:
            changed(f"BadValue {key.capitalize()} 0", key, to=value)
    for key in ["version", "tick", "rooms"]:
        changed(f"Missing {key.capitalize()}", key)
    changed("Rule Owner 1", "players")
    changed("start tick 0 rooms 2 objects 13 players 2", "tick", to=0)
    changed(f"start tick {MOST} rooms 2 objects 13 players 2", "tick", to=MOST)

    for key in ["name", "terrain", "next", "objects"]:
        changed(f"Missing {key.capitalize()}", "rooms", 1, key)
    names = ["", "E0", "E0S0 ", "e0s0", "S0E0", "E00S0", "E0S00", "E128S0", "E0N128", "W-1S0", "E0S0E0", "E 0S0", "E4294967296S0"]
    texts = ["0" * 2499, "0" * 2501, "0" * 2499 + "3", "0" * 2499 + "/", "0" * 2498 + "\u00e4"]
    for key, values in [("name", NO_TEXTS + names), ("terrain", NO_TEXTS + texts), ("next", NO_NUMBERS + [0, SECOND]), ("objects", NO_LISTS)]:
        for value in values:
            changed(f"BadValue {key.capitalize()} 1", "rooms", 1, key, to=value)
    for name in ["E127S127", "W0N0", "W127S0", "E0N127"]:
        changed(FINE, "rooms", 1, "name", to=name)
    changed(FINE, "rooms", 1, "next", to=SECOND - 1)

    place = one_object(PILE)
    for key in ["id", "kind", "x", "y"]:
        changed(f"Missing {key.capitalize()}", *place, key)
    for key in ["id", "x", "y", "owner", "hits", "energy", "timer", "extra", "progress", "other", "other_ticks"]:
        most = {"id": MOST, "x": 49, "y": 49, "energy": MOST, "progress": MOST}.get(key, SECOND - 1)
        field = "OtherTicks" if key == "other_ticks" else key.capitalize()
        for value in NO_NUMBERS + [most + 1] + ([0] if key == "id" else []):
            changed(f"BadValue {field} {PILE}", *place, key, to=value)
    for value in NO_TEXTS + ["", "Pile", "pile ", "piles", "nuke"]:
        changed(f"BadValue Kind {PILE}", *place, "kind", to=value)
    for kind in ["tower", "rampart", "wall", "tombstone"]:
        changed(f"NotBuilt {kind.capitalize()}", *place, "kind", to=kind)
    for value in NO_LISTS + [["move"] * 51, ["moves"], [None], [["move"]], ["move", "RANGED_ATTACK"]]:
        changed(f"BadValue Body {CREEP}", *one_object(CREEP), "body", to=value)
    # (at an end of a key's range that no rule allows, the rule speaks)
    changed(f"Rule Serial {MOST}", *place, "id", to=MOST)
    for key, most in [("energy", MOST), ("timer", SECOND - 1), ("extra", SECOND - 1), ("progress", MOST), ("other_ticks", SECOND - 1), ("hits", SECOND - 1)]:
        changed(f"Rule Range {SECOND + 18}", *place, key, to=most)
    changed(FINE, *one_object(ROAD), "hits", to=5000)
    for key in ["energy", "timer", "extra", "progress", "other", "other_ticks", "owner"]:
        changed(FINE, *one_object(SOURCE), key, to=0)

    for key in ["player", "limit"]:
        changed(f"Missing {key.capitalize()}", "players", 1, key)
    for key, most in [("player", SECOND - 1), ("limit", 500), ("bucket", 10000), ("points", MOST)]:
        for value in NO_NUMBERS + [most + 1] + ([0] if key == "player" else []):
            changed(f"BadValue {key.capitalize()} 1", "players", 1, key, to=value)
    for value in NO_TEXTS + [" ", "a b", "\x7f", "\u00e9", "a" * 65]:
        changed("BadValue Token 1", "players", 1, "token", to=value)
    for value in NO_TEXTS + ["0", "0g", "0A", "000", "00" * 65537]:
        changed("BadValue Memory 1", "players", 1, "memory", to=value)
    for key, value in [("token", ""), ("token", "a" * 64), ("limit", 500), ("bucket", 10000), ("points", MOST), ("memory", ""), ("memory", "0f" * 65536)]:
        changed(FINE, "players", 1, key, to=value)
    for key in ["token", "bucket", "points", "memory"]:
        changed(FINE, "players", 0, key)


def ranges():
    """Each kind's fields, at and past the ends of their ranges."""
    for place, name, good, bad in [
        (SOURCE, "energy", [0, 3000], [3001]),
        (SOURCE, "timer", [0, 300], [301]),
        (SOURCE, "hits", [0], [1]),
        (SOURCE, "extra", [0], [1]),
        (SOURCE, "body", [[]], [["move"]]),
        (CREEP, "hits", [300, 201, 101], [0, 301]),
        (CREEP, "energy", [0, 50], [51]),
        (CREEP, "timer", [1, 1500], [0, 1501]),
        (CREEP, "extra", [0, 500], [501]),
        (CREEP, "progress", [0], [1]),
        (CREEP, "other_ticks", [0], [1]),
        (CREEP, "owner", [9], [0]),
        (WOUNDED, "timer", [1, 600], [0, 601]),
        (WOUNDED, "energy", [0, 50], [51, 100]),
        (WOUNDED, "hits", [101, 300], [100, 301]),
        (SPAWN, "hits", [1, 5000], [0, 5001]),
        (SPAWN, "energy", [0, 300], [301]),
        (SPAWN, "timer", [1, 6], [0, 7]),
        (SPAWN, "body", [["move"] * 50], [[], ["move"]]),
        (SPAWN, "owner", [9], [0]),
        (SPAWN, "extra", [0], [1]),
        (EXTENSION, "hits", [1, 1000], [0, 1001]),
        (EXTENSION, "energy", [0, 200], [201]),
        (EXTENSION, "owner", [9], [0]),
        (EXTENSION, "timer", [0], [1]),
        (EXTENSION, "body", [[]], [["move"]]),
        (STORAGE, "hits", [1, 10000], [0, 10001]),
        (STORAGE, "energy", [0, 1000000], [1000001]),
        (STORAGE, "owner", [7], [0]),
        (CONTAINER, "hits", [1, 250000], [0, 250001]),
        (CONTAINER, "energy", [0, 2000], [2001]),
        (CONTAINER, "timer", [1, 500], [0, 501]),
        (ROAD, "hits", [1, 5000], [0, 5001]),
        (ROAD, "energy", [0], [1]),
        (ROAD, "timer", [1, 1000], [0, 1001]),
        (PILE, "energy", [1, 1000000000], [0, 1000000001]),
        (PILE, "timer", [0], [1]),
        (SITE, "extra", [4, 5, 6, 7], [0, 3, 9, 260]),
        (SITE, "progress", [0, 2999], [3000]),
        (SITE, "owner", [7], [0]),
        (SITE, "hits", [0], [1]),
        (SITE, "energy", [0], [1]),
        (10, "timer", [1, 150000], [0, 150001]),
        (10, "progress", [0, 10934999], [10935000]),
        (10, "hits", [0], [1]),
        (10, "energy", [0], [1]),
        (10, "other_ticks", [0], [1]),
    ]:
        for value in good:
            changed(FINE, *one_object(place), name, to=value)
        for value in bad:
            changed(f"Rule Range {SECOND + 11 + place}", *one_object(place), name, to=value)
    # a road is built with 300, so that a site of one has less
    with_changes(FINE, (*one_object(SITE), "extra", 8), (*one_object(SITE), "progress", 299))
    with_changes(f"Rule Range {SECOND + 19}", (*one_object(SITE), "extra", 8), (*one_object(SITE), "progress", 300))
    # a spawn that makes nothing
    with_changes(FINE, (*one_object(SPAWN), "timer", 0), (*one_object(SPAWN), "body", []))
    # a controller: levels, owners and reservations
    level = one_object(10)
    with_changes(FINE, (*level, "extra", 8), (*level, "progress", 0), (*level, "timer", 200000))
    for changes in [
        ((*level, "extra", 8), (*level, "progress", 1), (*level, "timer", 200000)),
        ((*level, "extra", 9), (*level, "progress", 0), (*level, "timer", 1)),
        ((*level, "extra", 0), (*level, "progress", 0), (*level, "timer", 0)),
        ((*level, "owner", 0), (*level, "progress", 0), (*level, "timer", 0)),
        ((*level, "owner", 0), (*level, "extra", 0), (*level, "progress", 1), (*level, "timer", 0)),
        ((*level, "owner", 0), (*level, "extra", 0), (*level, "progress", 0), (*level, "timer", 1)),
        ((*level, "other", 7), (*level, "other_ticks", 1)),
    ]:
        with_changes(f"Rule Range {SECOND + 21}", *changes)
    with_changes(FINE, (*level, "owner", 0), (*level, "extra", 0), (*level, "progress", 0), (*level, "timer", 0))
    reserved = ("rooms", 0, "objects", 1)
    changed("Rule Range 1", *reserved, "other_ticks", to=0)
    changed("Rule Range 1", *reserved, "other_ticks", to=5001)
    changed(FINE, *reserved, "other_ticks", to=1)
    changed("Rule Range 1", *reserved, "other", to=0)


def rules():
    """Each rule, at its edge."""
    place = ("rooms", 1, "objects")
    objects = world()["rooms"][1]["objects"]
    changed("Rule Counts 0", "rooms", to=[])
    small = {"terrain": terrain(), "next": 1, "objects": []}
    names = [f"{side}{column}S{row}" for side in "EW" for column in range(20) for row in range(20)]
    for count, said in [(400, "start tick 0 rooms 400 objects 0 players 0"), (401, "Rule Counts 0")]:
        check(f"{count} rooms", {"version": 1, "tick": 0, "rooms": [{"name": names[n], **small} for n in range(count)]}, said)
    roads = [{"id": n + 1, "kind": "road", "x": 1 + n % 48, "y": 1 + n // 48, "timer": 1} for n in range(2304)]
    for count, said in [(20000, "start tick 0 rooms 9 objects 20000 players 0"), (20001, "Rule Counts 0")]:
        rooms = []
        for index in range(9):
            here = [dict(road, id=road["id"] + index * SECOND) for road in roads[: min(2304, count - 2304 * index)]]
            rooms.append({"name": f"E{index}S0", "terrain": terrain(), "next": 3000, "objects": here})
        check(f"{count} objects", {"version": 1, "tick": 0, "rooms": rooms}, said)
    for count, said in [(64, "start tick 0 rooms 1 objects 0 players 64"), (65, "Rule Counts 0")]:
        check(f"{count} players", {"version": 1, "tick": 0, "rooms": [{"name": "E0S0", **small}], "players": [{"player": 65 - n, "limit": 1} for n in range(count)]}, said)
    changed("Rule RoomTwice 1", "rooms", 1, "name", to="E0S0")
    for x, y in WALLS:
        changed("Rule Corner 1", "rooms", 1, "terrain", to=terrain(WALLS - {(x, y)}))
        changed("Rule Corner 1", "rooms", 1, "terrain", to=terrain(WALLS - {(x, y)}, {(x, y)}))
    for id_ in [2 * SECOND + 11, SECOND, SECOND + 100, 20]:
        changed(f"Rule Serial {id_}", *place, PILE, "id", to=id_)
    changed(FINE, *place, PILE, "id", to=SECOND + 99)
    changed(FINE, *place, PILE, "id", to=19)
    changed(f"Rule IdTwice {SECOND + 12}", *place, PILE, "id", to=SECOND + 12)
    changed("Rule IdTwice 3", *place, PILE, "id", to=3)
    # tiles: walls and borders
    for at in [CREEP, SPAWN, ROAD, PILE, SITE]:
        with_changes(f"Rule Tile {SECOND + 11 + at}", (*place, at, "x", 49), (*place, at, "y", 0))
    for at in [SPAWN, EXTENSION, STORAGE, CONTAINER, ROAD, SITE]:
        changed(f"Rule Tile {SECOND + 11 + at}", *place, at, "x", to=0)
        changed(f"Rule Tile {SECOND + 11 + at}", *place, at, "y", to=49)
    for at in [CREEP, PILE]:
        with_changes(FINE, (*place, at, "x", 49), (*place, at, "y", 48))
    changed(f"Rule Tile {SECOND + 11}", *place, SOURCE, "x", to=0)
    changed(f"Rule Tile {SECOND + 21}", *place, 10, "y", to=49)
    with_changes(FINE, (*place, 10, "x", 1), (*place, 10, "y", 48))
    # tiles that are shared
    for at, on, said in [
        (WOUNDED, CREEP, 20),
        (CREEP, SPAWN, 13),
        (CREEP, EXTENSION, 14),
        (WOUNDED, STORAGE, 20),
        (CREEP, 10, 21),
        (WOUNDED, SOURCE, None),
        (WOUNDED, CONTAINER, 0),
        (WOUNDED, ROAD, 0),
        (WOUNDED, PILE, 0),
        (WOUNDED, SITE, 0),
        (PILE, SPAWN, 0),
        (PILE, SITE, 0),
        (ROAD, CONTAINER, 17),
        (SITE, ROAD, 19),
        (EXTENSION, SPAWN, 14),
        (SITE, 10, 21),
    ]:
        x, y = objects[on]["x"], objects[on]["y"]
        if said is None:
            with_changes(f"Rule Tile {SECOND + 20}", (*place, at, "x", x), (*place, at, "y", y))
        else:
            with_changes(f"Rule Shared {SECOND + said}" if said else FINE, (*place, at, "x", x), (*place, at, "y", y))
    with_changes(f"Rule Shared {SECOND + 18}", (*place, SOURCE, "kind", "pile"), (*place, SOURCE, "x", 15), (*place, SOURCE, "y", 11), (*place, SOURCE, "energy", 1))
    # the same tile of another room is another one
    with_changes(FINE, ("rooms", 0, "objects", 0, "x", 11), ("rooms", 0, "objects", 0, "y", 11))
    # owners
    for at in [CREEP, SPAWN, EXTENSION, STORAGE, SITE, 10]:
        changed(f"Rule Owner {SECOND + 11 + at}", *place, at, "owner", to=8)
    for at in [SOURCE, CONTAINER, ROAD, PILE]:
        changed(f"Rule Owner {SECOND + 11 + at}", *place, at, "owner", to=7)
        changed(f"Rule Owner {SECOND + 11 + at}", *place, at, "other", to=7)
    changed(f"Rule Owner {SECOND + 12}", *place, CREEP, "other", to=7)
    changed("Rule Owner 1", "rooms", 0, "objects", 1, "other", to=8)
    # two controllers
    with_changes("Rule Controllers 1", (*place, SOURCE, "kind", "controller"))
    it = world()
    it["rooms"][1]["objects"][SOURCE] = thing(11, "source", 40, 41)
    check("a source beside the controller", it, FINE)
    it = world()
    it["players"].append({"player": 7, "limit": 3})
    check("a player twice", it, "Rule PlayerTwice 7")
    # (where he has another's number, what he held is nobody's before a player is twice)
    changed("Rule Owner 1", "players", 1, "player", to=9)
    # sites
    for count, said in [(100, "start tick 5 rooms 2 objects 112 players 2"), (101, "Rule Sites 9")]:
        it = world()
        it["rooms"][1]["next"] = 1000
        it["rooms"][1]["objects"] += [thing(200 + n, "site", 1 + n % 48, 1 + n // 48, owner=9, extra=8) for n in range(count - 1)]
        check(f"{count} sites", it, said)


def two_faults():
    """Files with two faults: the first from the top down is named, and of the rules the first that is broken."""
    objects = ("rooms", 1, "objects")
    for fault, changes in [
        ("BadValue Version 0", [("tick", -1), ("version", 2)]),
        ("BadValue Tick 0", [("rooms", None), ("tick", -1)]),
        ("BadValue Next 0", [("rooms", 1, "name", "X"), ("rooms", 0, "next", 0)]),
        ("BadValue Name 1", [("rooms", 1, "name", "X"), ("rooms", 1, "terrain", "")]),
        ("BadValue Terrain 1", [("rooms", 1, "next", 0), ("rooms", 1, "terrain", "")]),
        ("BadValue Next 1", [(*objects, 2, "id", 0), ("rooms", 1, "next", 0)]),
        ("BadValue Y 1", [(*objects, 2, "id", 0), (*objects, 1, "y", 50)]),
        ("BadValue Id 2", [(*objects, 2, "id", 0), (*objects, 2, "kind", "tower")]),
        ("NotBuilt Tower", [(*objects, 2, "kind", "tower"), (*objects, 2, "x", 50)]),
        ("BadValue Kind 2", [(*objects, 2, "kind", "nuke"), (*objects, 2, "x", 50)]),
        ("BadValue X 2", [(*objects, 2, "y", 50), (*objects, 2, "x", 50)]),
        ("BadValue Owner 2", [(*objects, 2, "body", None), (*objects, 2, "owner", -1)]),
        ("BadValue Body 2", [(*objects, 2, "body", None), (*objects, 2, "hits", -1)]),
        ("BadValue Hits 2", [(*objects, 2, "energy", -1), (*objects, 2, "hits", -1)]),
        ("BadValue Energy 2", [(*objects, 2, "energy", -1), (*objects, 2, "timer", -1)]),
        ("BadValue Timer 2", [(*objects, 2, "extra", -1), (*objects, 2, "timer", -1)]),
        ("BadValue Extra 2", [(*objects, 2, "extra", -1), (*objects, 2, "progress", -1)]),
        ("BadValue Progress 2", [(*objects, 2, "other", -1), (*objects, 2, "progress", -1)]),
        ("BadValue Other 2", [(*objects, 2, "other", -1), (*objects, 2, "other_ticks", -1)]),
        ("BadValue OtherTicks 2", [("players", 0, "player", 0), (*objects, 2, "other_ticks", -1)]),
        ("BadValue Memory 0", [("players", 1, "player", 0), ("players", 0, "memory", "x")]),
        ("BadValue Player 1", [("players", 1, "player", 0), ("players", 1, "token", " ")]),
        ("BadValue Token 1", [("players", 1, "limit", 501), ("players", 1, "token", " ")]),
        ("BadValue Limit 1", [("players", 1, "limit", 501), ("players", 1, "bucket", -1)]),
        ("BadValue Bucket 1", [("players", 1, "points", -1), ("players", 1, "bucket", -1)]),
        ("BadValue Points 1", [("players", 1, "points", -1), ("players", 1, "memory", "x")]),
        ("BadValue Points 1", [("rooms", 1, "name", "E0S0"), ("players", 1, "points", -1)]),
        ("Rule RoomTwice 1", [("rooms", 1, "name", "E0S0"), ("rooms", 0, "terrain", "0" * 2500)]),
        ("Rule Corner 0", [("rooms", 1, "terrain", "0" * 2500), ("rooms", 0, "terrain", "0" * 2500)]),
        ("Rule Corner 1", [("rooms", 1, "terrain", "0" * 2500), (*objects, 1, "id", 77)]),
        (f"Rule Serial {SECOND + 100}", [(*objects, 2, "id", SECOND + 101), (*objects, 3, "id", SECOND + 100)]),
        (f"Rule Serial {SECOND + 200}", [(*objects, 2, "id", SECOND + 11), (*objects, 3, "id", SECOND + 200)]),
        (f"Rule IdTwice {SECOND + 11}", [(*objects, 2, "id", SECOND + 11), (*objects, 3, "x", 0)]),
        (f"Rule Tile {SECOND + 14}", [(*objects, CREEP, "x", 13), (*objects, CREEP, "y", 11), (*objects, 3, "x", 0)]),
        (f"Rule Shared {SECOND + 15}", [(*objects, CREEP, "x", 13), (*objects, CREEP, "y", 11), (*objects, 3, "owner", 8)]),
        (f"Rule Owner {SECOND + 14}", [(*objects, 3, "owner", 8), (*objects, SOURCE, "kind", "controller")]),
        ("Rule Controllers 1", [(*objects, SOURCE, "kind", "controller"), (*objects, SPAWN, "hits", 0)]),
        (f"Rule Range {SECOND + 13}", [(*objects, EXTENSION, "hits", 0), (*objects, SPAWN, "hits", 0)]),
        ("Rule Range 1", [("rooms", 0, "objects", 1, "energy", 1), (*objects, SPAWN, "hits", 0)]),
    ]:
        with_changes(fault, *changes)
    it = world()
    it["players"].append({"player": 9, "limit": 3})
    it["rooms"][1]["objects"][SPAWN]["hits"] = 0
    check("a range before a player twice", it, f"Rule Range {SECOND + 13}")
    it = world()
    it["players"] += [{"player": 9, "limit": 3}, {"player": 7, "limit": 3}]
    check("the lesser of two players twice", it, "Rule PlayerTwice 7")


def texts():
    """Bytes that are no JSON text, and parts that are no JSON objects."""
    for text in [b"", b"{", b"\xff", b'{"version":1,}', b'"\\ud800"', b"[" * 200 + b"]" * 200]:
        check(f"{text[:20]!r}", text, "NotJson")
    for value in [5, [], None, "x"]:
        check(f"a top {value!r}", value, "Missing Version")
        changed("Missing Name", "rooms", 1, to=value)
        changed("Missing Id", "rooms", 1, "objects", 2, to=value)
        changed("Missing Player", "players", 1, to=value)
    check("a key twice", b'{"version":2,"tick":0,"rooms":[],"version":1}', "Rule Counts 0")
    small = {"version": 1, "tick": 0, "rooms": [{"name": "E0S0", "terrain": terrain(), "next": 1, "objects": []}]}
    text = json.dumps(small).encode()
    check("64 MiB", text + b" " * ((64 << 20) - len(text)), "start tick 0 rooms 1 objects 0 players 0")
    check("a byte more", text + b" " * ((64 << 20) - len(text) + 1), "TooLong")


forms()
ranges()
rules()
two_faults()
texts()
print(f"{passed} checks of world files passed, {failures} failed")
sys.exit(1 if failures else 0)
