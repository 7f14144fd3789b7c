#!/usr/bin/env python3
"""Runs players' modules in the built program, and compares each answer that the host gives them, each line and each byte of the journal.

It runs behind `rt ci`, which builds crates/world_server/out/world_server. What is compared with is worked out by
oracle/scripts.py, which has the table of the host's calls, and oracle/worlds.py, which has the formats and the tick. A row
is a call with its answer, or a run with all that it does. What creeps do to other objects is the subject of checks/creeps.py,
checks/fights.py and checks/controllers.py.
With --model no program is run, and it is only seen that the worlds keep the rules.
"""

import functools
import os
import random
import struct
import sys

TOP = os.path.dirname(os.path.dirname(os.path.abspath(__file__)))
sys.path[:0] = [os.path.join(TOP, it) for it in ("oracle", "checks/harness")]
import compared_runs  # noqa: E402
from checked_program import Checks, faults_of  # noqa: E402
from game import SECOND  # noqa: E402
from module_bytes import HOST_CALLS, I32, I64, OPENING, code_entry, func_type, leb, listed, name_bytes, player_module, section  # noqa: E402
from scripts import MOST_ENTRIES, PAGE, Desk, Script, Table, call, compared, kept, unkept  # noqa: E402
from worlds import (  # noqa: E402
    MIB,
    SMALL,
    Refused,
    Upload,
    account_of,
    bytes_of,
    full,
    grounds,
    objects_of,
    room,
    thing,
    upload_entry,
    world,
)

checks = Checks(__file__, "--model" not in sys.argv[1:])
LEAST, MOST = -(1 << 31), (1 << 31) - 1
LEAST_LONG, MOST_LONG = -(1 << 63), (1 << 63) - 1
LAST_ADDRESS = (1 << 32) - 1
MOST_NEXT = 2**32 - 2**20


# ---- runs

play = functools.partial(compared_runs.play, checks)


def refused_run(name, files, status, err, out=b"", journal=b""):
    words = ["run", "world.json", "uploads.bin", "journal.bin", "--ticks", "1"]
    if checks.has_program:
        checks.note(name, faults_of(words, files, status, out, f"fault {status} {err}\n".encode(), {"journal.bin": journal}))


def player(number, limit=20, **others):
    return {"player": number, "limit": limit, **others}


# ---- what the calls answer

FAR = SECOND - 1


def scattered(seed, objects):
    """Ground of all sorts, plain where objects stand."""
    draw = random.Random(seed)
    tiles = {tile: draw.choice("000112") for tile in range(2500)}
    tiles.update({50 * one["y"] + one["x"]: "0" for one in objects})
    tiles.update(dict.fromkeys((0, 49, 2450, 2499), "1"))
    return grounds(tiles)


def ground_room(name, next, *objects):
    return room(name, next, *objects, terrain=scattered(name, objects))


def born(index, serial):
    return index * SECOND + serial


# Rooms 0, 2, 3, 4, 5 and 8 are seen by player 1, each by one object of his; in 1 and 6 he and player 3 have only sites and reservations.
CROWD = world(
    ground_room(
        "W127N127",
        60,
        thing("source", 1, 3, 4, energy=700, timer=12),
        thing("creep", 2, 0, 7, owner=1, body=["work", "carry", "carry", "move", "tough"], hits=350, energy=77, timer=1500, extra=500),
        thing("creep", 3, 8, 8, owner=2, body=["move", "work", "carry", "attack", "ranged_attack", "tough", "heal", "claim"], hits=101, timer=600),
        thing("spawn", 4, 10, 10, owner=2, hits=1, energy=300, timer=6, body=["claim", "move", "heal"]),
        thing("extension", 5, 11, 10, owner=2, hits=999, energy=200),
        thing("storage", 6, 12, 10, owner=2, energy=1_000_000),
        thing("container", 7, 13, 10, hits=7, energy=2000, timer=500),
        thing("road", 8, 14, 10, hits=1, timer=1000),
        thing("pile", 9, 8, 8, energy=10**9),
        thing("site", 10, 15, 10, owner=2, extra=4, progress=14_999),
        thing("site", 11, 16, 10, owner=1, extra=8),
        thing("creep", 12, 20, 20, owner=1, body=["carry"] * 50, energy=2500, timer=1),
        thing("creep", 13, 21, 20, owner=1, body=["move"], hits=1, timer=77),
        thing("creep", born(3, 5), 30, 30, owner=1, body=["carry", "attack"], hits=101, energy=50, timer=9),
        thing("creep", 14, 22, 20, owner=1, body=["carry", "carry", "heal"], hits=200, energy=50, timer=3),
        thing("source", 15, 4, 3, energy=1500),
    ),
    ground_room(
        "E3S4",
        20,
        thing("controller", born(1, 1), 5, 5, other=1, other_ticks=5000),
        thing("source", born(1, 2), 6, 6, energy=10),
        thing("site", born(1, 3), 7, 7, owner=1, extra=5, progress=2999),
        thing("site", born(1, 4), 8, 7, owner=3, extra=6),
        thing("pile", born(1, 5), 9, 9, energy=1),
        thing("creep", born(1, 6), 6, 9, owner=2, body=["carry"], energy=50, timer=2),
    ),
    ground_room(
        "E127S127",
        20,
        thing("controller", born(2, 9), 5, 5, owner=1, extra=7, progress=10_934_999, timer=150_000),
        thing("source", born(2, 2), 6, 6, energy=3000),
        thing("source", born(2, 3), 7, 6, energy=2999, timer=300),
        thing("extension", born(2, 4), 8, 6, owner=2, energy=100),
        thing("spawn", born(2, 5), 9, 6, owner=2),
        thing("storage", born(2, 6), 9, 8, owner=2, hits=5),
    ),
    ground_room(
        "E0S0",
        20,
        thing("controller", born(3, 1), 5, 5, owner=2, extra=8, timer=200_000),
        thing("storage", 20, 6, 6, owner=1, hits=10_000, energy=3),
        thing("extension", born(3, 3), 7, 6, owner=2, hits=1),
    ),
    ground_room(
        "W0N0",
        20,
        thing("source", born(4, 1), 6, 6),
        thing("extension", born(4, 2), 7, 6, owner=1),
        thing("controller", born(4, 3), 5, 5, other=2, other_ticks=1),
    ),
    ground_room(
        "E0N5",
        20,
        thing("controller", born(5, 1), 5, 5),
        thing("spawn", born(5, 2), 7, 6, owner=1, energy=1),
        thing("source", born(5, 3), 6, 6, timer=1),
    ),
    ground_room(
        "W5S0",
        20,
        thing("controller", born(6, 1), 5, 5, other=3, other_ticks=2),
        thing("creep", born(6, 2), 49, 30, owner=FAR, body=["claim", "carry"], hits=199, energy=3, timer=600),
        thing("site", born(6, 3), 7, 6, owner=1, extra=7, progress=4999),
    ),
    ground_room("E10S10", 20),
    ground_room(
        "E11S10",
        20,
        thing("controller", born(8, 1), 5, 5, owner=1, extra=6, timer=120_000),
        thing("extension", born(8, 2), 7, 6, owner=1, energy=50),
    ),
    tick=2**53 - 7,
    players=[
        player(1, 20, bucket=10_000, points=2**53, memory="00ff7a"),
        player(2, 500, points=1_000_000),
        player(3, 3, bucket=7, points=999_999),
        player(FAR, 20, bucket=479, points=3_999_999, memory="01" * 65_536),
    ],
)
NUMBERS = ["tick", "me", "allowance", "bucket", "points", "level", "rooms", "count", "memory_length"]
INDICES = [LEAST, LEAST + 1, -2, -1, *range(11), 255, 256, 65_536, MOST - 1, MOST]


def overview(first):
    """Calls of all sorts but the fields of objects and all tiles of a room."""
    ids = [one["id"] for one in objects_of(first)]
    calls = [(name,) for name in NUMBERS]
    calls += [("room", at) for at in INDICES] + [("room_name", at) for at in INDICES]
    tiles = [(3, 4), (4, 3), (0, 0), (49, 0), (0, 49), (49, 49), (50, 0), (0, 50), (49, 50), (50, 49), (-1, 4), (4, -1), (1, 256), (256, 1), (MOST, 0), (0, MOST)]
    tiles += [(LEAST, 0), (0, LEAST), (25, 13), (13, 25)]
    calls += [("terrain", at, *tile) for at in INDICES for tile in tiles]
    wrong = [0, -1, 16, 61, 2**53, 2**53 - 1, MOST_LONG, LEAST_LONG, born(9, 1), born(400, 1), SECOND, SECOND - 1]
    calls += [("find", id) for id in [*ids, *wrong, *[-id for id in ids[:4]], *[id + SECOND for id in ids[:6]], *[id - 2**63 for id in ids[:3]]]]
    return calls


def fields(first):
    """The fields of all objects, and numbers that are none."""
    numbers = [LEAST, -100, -1, *range(18), 50, 98, 99, *range(100, 110), 149, 150, 200, 356, 65_636, MOST]
    count = len(objects_of(first))
    places = [LEAST, -1, *range(count + 1), 65_536, MOST]
    return [("get", place, number) for place in places for number in numbers]


def ground_of(index):
    return [("terrain", index, tile % 50, tile // 50) for tile in range(2500)]


def halves(calls, most=8000):
    return [calls[at : at + most] for at in range(0, len(calls), most)]


def check_answers():
    first = CROWD["tick"]
    tables = [overview(CROWD), *halves(fields(CROWD)), ground_of(0), ground_of(2)]
    uploads = [Upload(first + place, one, Table(calls)) for place, calls in enumerate(tables) for one in (1, 2, 3, FAR)]
    play("what four players see of nine rooms", CROWD, len(tables), uploads)
    # (in each tick the same, as things change)
    uploads = [Upload(first, one, Table([*halves(fields(CROWD))[0][:4000], *overview(CROWD)])) for one in (1, 2)]
    play("the same calls in three ticks", CROWD, 3, uploads)


def check_levels():
    points = [0, 1, 999_999, 1_000_000, 3_999_999, 4_000_000, 9_000_000, 8_999_999, 10**10 - 1, 10**10, 2**32 - 1, 2**32, 2**53 - 1, 2**53]
    points += [94_905**2 * 10**6, 94_906**2 * 10**6, 94_906**2 * 10**6 - 1]
    units = [(0, 0), (0, 1), (1, 0), (500, 0), (499, 0), (499, 1), (500, 1), (0, 10_000), (500, 10_000), (20, 479), (20, 480), (20, 481), (7, 9993)]
    players = [player(3 * n + 1, *units[n % len(units)][:1], bucket=units[n % len(units)][1], points=number) for n, number in enumerate(points)]
    uploads = [Upload(0, one["player"], Table([(name,) for name in NUMBERS])) for one in players]
    play("numbers of players who see nothing", world(room("E0S0", 1), players=players), 2, uploads)
    rooms = []
    timers = [0, 20_000, 10_000, 20_000, 40_000, 80_000, 120_000, 150_000, 200_000]
    for level in range(9):
        objects = [thing("extension", born(level, 2), 7, 6, owner=1, energy=9), thing("source", born(level, 3), 8, 6)]
        objects += [thing("storage", born(level, 4), 7, 8, owner=1), thing("spawn", born(level, 5), 7, 9, owner=1), thing("container", born(level, 6), 7, 10, timer=1)]
        if level:
            objects.append(thing("controller", born(level, 1), 5, 5, owner=2, extra=level, timer=timers[level]))
        rooms.append(room(f"E{level}S0", 9, *objects))
    first = world(*rooms, players=[player(1, 500), player(2)])
    calls = [("get", place, field) for place in range(len(objects_of(first))) for field in (0, 1, 2, 5, 7, 9, 10, 11, 13)]
    play("capacities at each level", first, 2, [Upload(0, one, Table(calls)) for one in (1, 2)])


def check_bodies():
    """Creeps of all hits from none lost to one left, and the fields of their parts."""
    objects, bodies = [], [["carry", "carry", "carry"], ["carry", "move", "carry"], ["work"], ["carry", "claim"], ["tough"] * 49 + ["carry"]]
    for parts in bodies:
        most = 100 * len(parts)
        for hits in sorted({1, 99, 100, 101, 199, 200, 201, most - 100, most - 99, most - 1, most} & set(range(1, most + 1))):
            serial = len(objects) + 1
            timer = 600 if "claim" in parts else 1500
            objects.append(thing("creep", serial, serial % 48 + 1, serial // 48 + 1, owner=1, body=parts, hits=hits, timer=timer))
    for serial, parts in ((901, ["move"] * 50), (902, ["heal", "tough"])):
        objects.append(thing("spawn", serial, serial - 895, 40, owner=1, body=parts, timer=3 * len(parts)))
    first = world(room("E0S0", 999, *objects), players=[player(1, 500)])
    numbers = [6, 7, 8, 9, 15, 99, *range(100, 104), 148, 149, 150]
    calls = [("get", place, number) for place in range(len(objects)) for number in numbers]
    play("parts and loads of creeps that were hurt", first, 1, [Upload(0, 1, Table(calls))])


# ---- memory texts


def check_memory():
    first = world(room("E0S0", 1), players=[player(1, 20, memory="00ff7a"), player(2, 20, memory="ab" * 65_536), player(3)])
    spans = [(0, 65_537), (1, 65_536), (0, 65_536), (65_535, 1), (65_535, 2), (65_536, 0), (65_536, 1), (65_537, 0), (65_537, 65_535), (65_536, 65_536), (65_537, 65_536)]
    spans += [(131_071, 1), (131_071, 2), (131_072, 0), (131_072, 1), (131_073, 0), (LAST_ADDRESS, 0), (LAST_ADDRESS, 1), (LAST_ADDRESS, 2), (LAST_ADDRESS, LAST_ADDRESS)]
    spans += [(0, LAST_ADDRESS), (1, LAST_ADDRESS), (65_536, LAST_ADDRESS), (0, 1 << 31), (1 << 31, 1 << 31), (1 << 31, 0), (4096, 3), (0, 0)]
    lengths = [("memory_length",)]
    calls = lengths[:]
    for at in (61_440, 65_533, 65_534, 65_536, 65_537, 131_069, 131_070, 131_072, LAST_ADDRESS, LAST_ADDRESS - 2, 1 << 31):
        calls.append(("memory_read", at))
    for span in spans:
        calls += [("memory_write", *span), *lengths]
    # (each text that was written is read at the end, past it and before)
    for at, length in ((60_000, 0), (60_000, 1), (60_000, 5536), (1000, 64_536), (0, 65_536)):
        calls += [("memory_write", at, length), *lengths]
        calls += [("memory_read", size * PAGE - length + more) for size in (1, 2, 3) for more in (0, 1)]
    for pages in (1, 2, 3, 256):
        data = (60_000, bytes(n * 7 % 256 for n in range(5000)))
        uploads = [Upload(0, one, Table(calls, pages=pages, data=data)) for one in (1, 2, 3)]
        play(f"spans in a memory of {pages} pages", first, 2, uploads)
    end = 256 * PAGE
    far = [("memory_read", end - 3), ("memory_read", end - 2), ("memory_write", end - 1, 1), ("memory_write", end, 1), ("memory_write", end, 0), ("memory_write", end + 1, 0)]
    play("spans at the end of 256 pages", first, 1, [Upload(0, 1, Table(far, pages=256))])


def check_memory_of_a_tick():
    """The text is what was written last, and the next tick reads it."""
    first = world(room("E0S0", 1), players=[player(1, 20, memory="0102"), player(2, 20, memory="77"), player(3, 20, memory="aa" * 65_536)])
    pattern = bytes(n * n % 251 for n in range(65_536))
    writes = Script(unkept("memory_write", 0, 65_536), pages=2, data=(0, pattern))
    back = Script([*unkept("memory_read", 65_536), *unkept("memory_write", 65_535, 65_536)], pages=2)
    nothing = Script(unkept("memory_write", 7, 0))
    again = Script([*unkept("memory_read", 100), *unkept("memory_write", 99, 20)])
    uploads = [Upload(0, 1, writes), Upload(0, 2, nothing), Upload(1, 1, back), Upload(1, 2, writes), Upload(1, 3, back), Upload(3, 2, again), Upload(4, 1, again)]
    play("texts that are written and read tick by tick", first, 6, uploads)
    # (a text that was written stands, whatever comes then)
    stands = [*unkept("memory_write", 0, 3), ("i32", 0), ("i64", -1), ("store",)]
    uploads = [
        Upload(0, 1, Script([*stands, ("unreachable",)], data=(0, b"abc"))),
        Upload(0, 2, Script([*stands, ("spin",)], data=(0, b"abc"))),
        Upload(0, 3, Script([*stands, *unkept("memory_write", 65_000, 537)], data=(0, b"abc"))),
    ]
    play("texts that stand after a trap, the end of the fuel and a refused write", first, 2, uploads)
    keeps = Script([("nop",)])
    play("texts that no module touches", first, 2, [Upload(0, 1, keeps), Upload(1, 3, keeps)])


def without_memory(first, number, calls, **others):
    """A module that traps at a wrong answer, where it has no memory to keep them in."""
    desk = Desk(full(first), number)
    code = []
    for name, *arguments in calls:
        code += compared(desk.answer(name, arguments, bytearray()), name, *arguments)
    return Script(code, **{"pages": None, **others})


def check_no_memory():
    first = world(
        room("E0S0", 9, thing("creep", 3, 5, 5, owner=1, body=["carry"], energy=20, timer=9), thing("pile", 4, 6, 6, energy=900)),
        players=[player(1), player(2, 20, memory="5a"), player(3, 20, memory="5a5b"), player(4), player(5, 20, memory="5a")],
    )
    spans = [(0, 1), (1, 0), (1, 1), (LAST_ADDRESS, 0), (LAST_ADDRESS, 1), (1, LAST_ADDRESS), (0, LAST_ADDRESS), (LAST_ADDRESS, LAST_ADDRESS), (0, 65_536), (0, 65_537)]
    calls = [("memory_length",), *[("memory_read", at) for at in (0, 1, 65_535, 65_536, LAST_ADDRESS)], *[("memory_write", *it) for it in spans]]
    calls += [(name,) for name in NUMBERS] + [("find", 3), ("find", 4), ("get", 0, 8), ("get", 1, 0), ("terrain", 0, 0, 0), ("drop", 3, 21), ("drop", 3, 5)]
    emptied = [*calls, ("memory_write", 0, 0), ("memory_length",), *[("memory_read", at) for at in (0, 1)]]
    uploads = [Upload(0, one, without_memory(first, one, calls)) for one in (1, 2)]
    uploads += [Upload(0, one, without_memory(first, one, emptied, pages=pages)) for one, pages in ((3, None), (4, 0), (5, 0))]
    play("modules without a memory, and with one of no pages", first, 1, uploads)
    # (a memory that grows is one from then on)
    grown = [("i32", 1), ("grow",), ("drop",), *kept(0, "memory_write", 0, 65_536), *kept(8, "memory_write", 1, 65_536), *kept(16, "memory_length")]
    grown += [("i32", 24), ("i32", -1), ("grow",), ("extend",), ("store",), ("i32", 32), ("size",), ("extend",), ("store",), *unkept("memory_write", 0, 64)]
    play("a memory that grows, in each tick from no page", first, 3, [Upload(0, 3, Script(grown, pages=0))])


# ---- drop

LOADED = world(
    room(
        "E0S0",
        40,
        thing("creep", 1, 10, 10, owner=1, body=["carry", "move"], energy=50, timer=9),
        thing("creep", 2, 11, 10, owner=1, body=["carry"], timer=9),
        thing("creep", 3, 12, 10, owner=2, body=["carry"], energy=50, timer=9),
        thing("creep", 4, 13, 10, owner=2, body=["carry"], timer=9),
        thing("spawn", 5, 14, 10, owner=1, energy=300),
        thing("spawn", 6, 15, 10, owner=2, energy=300),
        thing("pile", 7, 10, 10, energy=999_999_998),
        thing("container", 8, 16, 10, energy=9, timer=9),
        thing("creep", born(1, 7), 17, 10, owner=1, body=["carry", "carry"], energy=100, timer=9),
        thing("site", 9, 18, 10, owner=1, extra=8),
        thing("creep", 10, 19, 10, owner=1, body=["carry"], energy=1, timer=9),
        thing("pile", 11, 19, 10, energy=1),
        thing("creep", 12, 49, 10, owner=1, body=["carry"], energy=2, timer=9),
        thing("source", 13, 25, 25),
    ),
    room("E1S0", 40, thing("creep", born(1, 1), 5, 5, owner=2, body=["carry"], energy=50, timer=9), thing("site", born(1, 2), 6, 6, owner=1, extra=8)),
    players=[player(1, 20), player(2, 20), player(3, 20)],
)


def check_drops():
    ids = [0, *range(1, 15), born(1, 1), born(1, 2), born(1, 7), born(0, 40), born(2, 1), -1, -3, 1 - 2**63, MOST_LONG, LEAST_LONG, 1 + 2**53]
    amounts = [0, 1, 2, 49, 50, 51, 99, 100, 101, MOST, -1, LEAST]
    calls = [("drop", id, amount) for id in ids for amount in amounts]
    uploads = [Upload(0, one, Table(calls)) for one in (1, 2, 3)]
    play("each drop that is refused, and those that are not", LOADED, 2, uploads)
    last = [("drop", 1, 5), ("drop", 12, 0), ("drop", born(1, 7), 7), ("drop", 10, 1), ("drop", 12, 1), ("drop", 1, 6), ("drop", 10, 1), ("drop", 12, 3), ("drop", 1, 51)]
    uploads = [Upload(0, 1, Table(last)), Upload(0, 2, Table([("drop", 3, 9), ("drop", born(1, 1), 0), ("drop", 1, 1)]))]
    play("the last entry of a creep counts, and a refused one leaves it", LOADED, 4, uploads)
    # (new piles get their serials by player, then by creep)
    first = world(
        room("E0S0", 9, *[thing("creep", serial, serial, 10, owner=1 + serial % 3, body=["carry"], energy=40, timer=9) for serial in range(1, 9)]),
        room("E1S0", 9, *[thing("creep", born(1, serial), serial, 10, owner=1 + serial % 3, body=["carry"], energy=40, timer=9) for serial in range(1, 9)]),
        players=[player(one) for one in (1, 2, 3)],
    )
    every = [("drop", born(index, serial), 10 * serial % 41) for serial in (8, 3, 5, 1, 7, 2, 6, 4) for index in (1, 0)]
    play("piles of three players in two rooms", first, 5, [Upload(tick, one, Table(every)) for tick, one in ((0, 3), (0, 1), (1, 2))])


def check_full_record():
    """4,096 creeps with an entry each, and then one more."""
    count = 4100
    creeps = [[], []]
    ids = []
    for number in range(count):
        index, place = number % 2, number // 2
        ids.append(born(index, 5000 - place))
        creeps[index].append(thing("creep", ids[-1], 1 + place % 48, 1 + place // 48, owner=1, body=["carry"], energy=3, timer=9))
    creeps[0].append(thing("creep", 9, 1, 48, owner=2, body=["carry"], energy=3, timer=9))
    creeps[0].append(thing("creep", 10, 2, 48, owner=1, body=["carry"], timer=9))
    first = world(room("E0S0", 5001, *creeps[0]), room("E1S0", 5001, *creeps[1]), players=[player(1, 500), player(2)])
    calls = [("drop", id, place % 4) for place, id in enumerate(ids[:4096])]
    calls += [("drop", ids[4096], 1), ("drop", ids[4097], 0), ("drop", ids[0], 2), ("drop", ids[4095], 3), ("drop", ids[2000], 0), ("drop", ids[0], 1)]
    # (what is wrong besides is said first)
    calls += [("drop", 8, 1), ("drop", 9, 1), ("drop", ids[4096], -1), ("drop", ids[4096], 4), ("drop", 10, 0), ("drop", ids[4098], 3)]
    calls += [("drop", ids[7], -1), ("drop", ids[7], 4), ("drop", ids[7], 1), ("memory_length",)]
    steps = play("a record of 4,096 entries", first, 2, [Upload(0, 1, Table(calls))])
    checks.note("the record of the check is full", [] if len(steps[0].runs[0].entries) == MOST_ENTRIES else [f"{len(steps[0].runs[0].entries)} entries"])


# ---- uploads

LOOP = bytes.fromhex("0061736D01000000 01040160 0000 03020100 070801046C6F6F70 0000 0A09010700 03400C000B0B")
EMPTY = player_module(b"")


class Given(Script):
    """A module of these bytes, which does what a list of instructions says."""

    def __init__(self, content, code=(), **others):
        super().__init__(code, **others)
        self.content = content


def importing(name, desc, types=(), more=b"", count=1, loop=True):
    """A module that imports something from the host under this name."""
    content = OPENING + section(1, listed([func_type(b"", b""), *types]))
    content += section(2, leb(count) + name_bytes("screeps") + name_bytes(name) + desc + more)
    content += section(3, listed([b"\0"]))
    if loop:
        functions = sum(it[:1] == b"\0" for it in (desc,)) + (count - 1)
        content += section(7, listed([name_bytes("loop") + b"\0" + leb(functions)]))
    return content + section(10, listed([code_entry(b"")]))


def function_of(kind=1):
    return b"\0" + leb(kind)


def import_refusals():
    """Imports that name no call, and those that name one and are of another kind or type."""
    calls = list(HOST_CALLS.items())
    for name in ("", "Tick", "ticks", "tic", "memory", "loop", "claim", "create_sites", "spawn"):
        yield Refused("UnknownImport", importing(name, function_of(), [func_type(I64 + I64, I32)]))
    for name, (params, result) in calls:
        other = I64 if result == I32 else I32
        wrong = [(params, b""), (params, other), (params + I32, result), (params + I64, result)]
        if params:
            wrong += [(params[1:], result), (params[:-1], result), (params[:-1] + (I64 if params[-1:] == I32 else I32), result)]
            wrong += [((I64 if params[:1] == I32 else I32) + params[1:], result)]
        for it in wrong:
            yield Refused("ImportKind", importing(name, function_of(), [func_type(*it)]))
        yield Refused("ImportKind", importing(name, b"\2\0\1"))
        yield Refused("ImportKind", importing(name, b"\1\x70\0\1"))
        yield Refused("ImportKind", importing(name, b"\3\x7f\0"))
    unknown = name_bytes("env") + name_bytes("tick") + function_of(2)
    types = [func_type(I32, I32), func_type(b"", I64)]
    # (a name that is unknown comes before a type that is wrong, and both before a missing loop)
    yield Refused("UnknownImport", importing("tick", function_of(1), types, unknown, 2))
    yield Refused("UnknownImport", importing("nothing", function_of(1), types, name_bytes("screeps") + name_bytes("tick") + function_of(1), 2))
    yield Refused("UnknownImport", importing("tick", function_of(1), types, unknown, 2, loop=False))
    yield Refused("ImportKind", importing("tick", function_of(1), types, loop=False))
    yield Refused("ImportKind", importing("tick", function_of(2), types, name_bytes("screeps") + name_bytes("room") + function_of(2), 2))


def with_segment(at, count, exports=True):
    content = OPENING + section(1, listed([func_type(b"", b"")])) + section(3, listed([b"\0"])) + section(5, b"\1\0\1")
    content += section(7, listed([name_bytes("loop") + b"\0\0"])) if exports else b""
    return content + section(10, listed([code_entry(b"")])) + section(11, b"\1\0\x41" + at + b"\x0b" + leb(count) + bytes(count))


def long_leb(number):
    """A number in three bytes, though fewer might serve."""
    return bytes([number & 0x7F | 0x80, number >> 7 & 0x7F | 0x80, number >> 14])


def padded(length):
    """A module of so many bytes, which a custom section fills."""
    rest = length - len(EMPTY) - 4
    return EMPTY + b"\0" + long_leb(rest) + b"\1x" + bytes(rest - 2)


def refusals():
    yield Refused("TooLarge", bytes(MIB + 1))
    yield Refused("TooLarge", padded(MIB + 1))
    yield Refused("TooLarge", player_module(b"\2\x40" * 201 + b"\x0b" * 201))
    yield Refused("TooLarge", player_module(b"", pages=257))
    yield Refused("Malformed", b"")
    yield Refused("Malformed", LOOP[:-1])
    yield Refused("Malformed", LOOP + b"\0")
    yield Refused("Malformed", bytes(MIB))
    yield Refused("FloatRefused", player_module(b"\x43\0\0\0\0\x1a"))
    yield Refused("FloatRefused", bytes.fromhex("0061736D0100000001050160017D00"))
    yield Refused("Invalid", player_module(b"\x41\0"))
    yield Refused("Invalid", player_module(b"\x10\x05"))
    yield Refused("NoLoop", OPENING)
    yield Refused("NoLoop", with_segment(b"\x7f", 1, exports=False))
    yield Refused("Segment", with_segment(b"\x80\x80\x04", 1))
    yield Refused("Segment", with_segment(b"\x7f", 0))


def check_uploads():
    first = {**SMALL, "players": [player(1), player(2)]}
    one, other = Script([("nop",)]), Script([("nop",)] * 3)
    refused = [*refusals(), *import_refusals()]
    play("each refusal", first, 1, [Upload(0, 1, it) for it in refused])
    play("each refusal, of a player whom nobody knows", first, 1, [Upload(0, 9, it) for it in refusals()])
    play("a refused upload leaves the old module", first, 3, [Upload(0, 1, one), *[Upload(1, 1, it) for it in refusals()]])
    play("a refused upload behind an accepted one", first, 2, [Upload(0, 1, one), Upload(0, 1, refused[4])])
    play("an accepted upload behind a refused one", first, 2, [Upload(0, 1, refused[4]), Upload(0, 1, one)])
    play("of two modules for one tick the later runs", first, 2, [Upload(0, 1, one), Upload(0, 2, one), Upload(0, 1, other)])
    play("a module is replaced", first, 3, [Upload(0, 1, one), Upload(1, 1, other)])
    play("an upload for a later tick", first, 1, [Upload(1, 1, one)])
    play("an upload, and no tick", first, 0, [Upload(0, 1, one)])
    play("an upload for a later tick and the same in time", first, 3, [Upload(0, 2, other), Upload(2, 1, one), Upload(9, 2, one), Upload(2**64 - 1, 1, one)])
    late = {**first, "tick": 5}
    play("uploads of ticks before the world", late, 2, [*[Upload(tick, 1, other) for tick in range(5)], Upload(5, 2, one), Upload(6, 1, one), Upload(7, 1, one)])
    play("all calls are imported", first, 1, [Upload(0, 1, Script([it for name, types in HOST_CALLS.items() for it in unkept(name, *[0] * len(types[0]))]))])
    play("a module of one mebibyte", first, 2, [Upload(0, 1, Given(padded(MIB)))])
    many = [Upload(0, number, Given(padded(2000 + number))) for number in (2, 1) for _ in range(40)]
    play("many uploads in a tick", first, 2, many)
    strangers = [Upload(0, number, one) for number in (0, 3, 9, SECOND - 1)]
    said = ["start tick 0 rooms 1 objects 2 players 2", *[f"upload player {it.player} refused UnknownPlayer" for it in strangers], "tick 1 objects 2 intents 0 energy 2499"]
    play("uploads of players whom nobody knows", first, 1, strangers, said)
    check_streams(first, one)


def check_streams(first, module):
    """Streams with an entry that is none."""
    entry, good = upload_entry(0, 1, LOOP), upload_entry(0, 1, b"")
    streams = [
        (upload_entry(1, 1, b"") + upload_entry(0, 1, b""), 16),
        (b"\0", 0),
        (good[:-1], 0),
        (entry[:-1], 0),
        (entry + b"\0", len(entry)),
        (entry + good[:15], len(entry)),
        (entry + entry + entry[:-1], 2 * len(entry)),
        (upload_entry(5, 1, LOOP) + upload_entry(5, 1, LOOP) + upload_entry(4, 1, LOOP), 2 * len(entry)),
        (upload_entry(2**64 - 1, 1, b"") + upload_entry(2**64 - 2, 1, b""), 16),
        (struct.pack("<QII", 0, 1, 2**32 - 1) + bytes(100), 0),
        (good + struct.pack("<QII", 0, 1, 2**31) + bytes(100), 16),
        (upload_entry(9, 9, b"") + upload_entry(8, 9, b"") + b"\0", 16),
        (upload_entry(0, 1, bytes(16)) + b"\0", 32),
    ]
    for stream, at in streams:
        files = {"world.json": bytes_of(first), "uploads.bin": stream}
        refused_run(f"a stream of {len(stream)} bytes that is bad at {at}", files, 4, f"Uploads {at}")
    for length, front in ((2**28 + 1, b""), (2**28 + 1, struct.pack("<QII", 1, 1, 2**28 - 16))):
        files = {"world.json": bytes_of(first), "uploads.bin": (front, length)}
        refused_run("a stream of a byte more than 256 MiB", files, 4, f"Uploads {2**28}")
    play("a stream of 256 MiB", first, 1, [], stream=(struct.pack("<QII", 1, 1, 2**28 - 16), 2**28))


# ---- runs

TRAPS = [
    (1, b"\x00", 1),
    (2, b"\x41\1\x41\0\x6d\x1a", 3),
    (2, b"\x42\1\x42\0\x82\x1a", 3),
    (3, b"\x41\x80\x80\x80\x80\x78\x41\x7f\x6d\x1a", 3),
    (4, b"\x41\x7f\x28\2\0\x1a", 2),
    (5, b"\x41\2\x11\0\0", 2),
    (6, b"\x41\0\x11\0\0", 2),
    (7, b"\x41\1\x11\0\0", 2),
]


def trapping(number, code, count, before):
    """A module with a table of two entries, the second of which takes an argument."""
    calls = sorted({it[1] for it in before if it[0] == "call"})
    functions = len(calls) + 1
    helpers = [(1, b"\0", b""), (0, b"\0", b"\x10" + leb(functions + 1)), (0, b"\1" + leb(65_536) + b"\x7f", b"")]
    last = {8: b"\x10" + leb(functions + 1), 9: b"\x41\0\x10" + leb(functions + 2) + b"\x1a"}
    return Script(before, helpers=helpers, table=b"\x70\0\2", elements=b"\0\x41\1\x0b\1" + leb(functions), trap=(number, last.get(number, code), count))


def check_ends():
    traps = [*TRAPS, (8, b"", 1000), (9, b"", 2)]
    said = [*unkept("memory_write", 0, 5), *call("drop", 1, 3), ("drop",)]
    players = [player(one, 3) for one in range(1, len(traps) + 4)]
    creeps = [thing("creep", one, one, 5, owner=one, body=["carry"], energy=9, timer=9) for one in range(1, len(traps) + 4)]
    first = world(room("E0S0", 99, *creeps), players=players)

    def before(one):
        return [(word, one) if (word, *values) == ("i64", 1) else (word, *values) for word, *values in said]

    modules = [trapping(*trap, before(one)) for one, trap in enumerate(traps, 1)]
    modules += [Script([*before(len(traps) + 1), ("spin",)]), Script([*before(len(traps) + 2), ("return",), ("unreachable",)])]
    modules += [Script([("unreachable",), *before(len(traps) + 3)])]
    play("traps of each number, the end of the fuel and a return", first, 2, [Upload(0, one, it) for one, it in enumerate(modules, 1)])
    play("traps with nothing before them", first, 2, [Upload(0, one, trapping(*trap, [])) for one, trap in enumerate(traps, 1)])


def check_fuel():
    """The fuel to the instruction: what its last one did stands, and what comes behind it does not."""
    counts = [0, 1, 9_999, 10_000, 10_001, 19_999, 20_000, 20_001, 29_999, 30_000, 30_001, 50_000]
    players = [player(one, limit, bucket=bucket) for one, (limit, bucket) in enumerate([(1, 0), (1, 1), (0, 3), (2, 9_998), (2, 10_000), (0, 0)], 1)]
    for count in counts:
        module = Script([("nop",)] * count)
        play(f"{count} instructions", {**SMALL, "players": players}, 2, [Upload(0, one["player"], module) for one in players])
    creep = thing("creep", 3, 30, 30, owner=1, body=["carry"], energy=20, timer=1500)
    first = world(room("E0S0", 4, creep), players=[player(1, 1, memory="aa")])
    for count in range(9_994, 10_002):
        code = [("nop",)] * count + [*unkept("drop", 3, 5), *unkept("memory_write", 0, 2), *unkept("drop", 3, 6)]
        play(f"a drop behind {count} instructions", first, 2, [Upload(0, 1, Script(code))])
    # (a start that runs first is paid for, and what it did stands)
    nops = [("nop",)] * 4
    starts = [
        Script(nops, start=[*nops, *unkept("drop", 3, 5), *kept(0, "count"), *unkept("memory_write", 0, 8)]),
        Script(unkept("drop", 3, 6), start=unkept("drop", 3, 5)),
        Script(unkept("drop", 3, 6), start=[*unkept("drop", 3, 5), ("unreachable",)]),
        Script(unkept("drop", 3, 6), start=[*unkept("drop", 3, 5), ("spin",)]),
        Script([("nop",)] * 4_000, start=[("nop",)] * 6_000),
        Script([("nop",)] * 4_001, start=[("nop",)] * 6_000),
        Script([], start=[("nop",)] * 10_001),
        Script([*kept(0, "memory_length"), *unkept("memory_write", 0, 8)], start=unkept("memory_write", 0, 77)),
    ]
    for place, module in enumerate(starts):
        play(f"a start function, the {place}th", first, 2, [Upload(0, 1, module)])
    fuel = {**SMALL, "players": [player(1, 500, bucket=10_000), player(2, 500), player(3, 20, bucket=30), player(4, 0, bucket=10_000)]}
    play("loops that never end", fuel, 2, [Upload(0, one, Given(LOOP, [("spin",)])) for one in (1, 2, 3, 4)])
    grows = Script([("i32", 1), ("grow",), ("drop",), ("i32", 0), ("size",), ("extend",), ("store",), *unkept("memory_write", 0, 8)])
    play("a memory that grows in each tick", first, 3, [Upload(0, 1, grows)])
    code = [*unkept("memory_write", 0, 16), ("i32", 0), ("i64", -1), ("store",), ("i32", 8), ("i64", -1), ("store",)]
    play("a memory that is made anew in each tick", first, 3, [Upload(0, 1, Script(code, data=(8, b"anew")))])


def check_many_players():
    """64 players, each in a room of his own and in one for all."""
    rooms = [room(f"E{n}S0", 9, thing("creep", born(n, 1), 5, 5, owner=n + 1, body=["carry"], energy=30, timer=9)) for n in range(64)]
    rooms.append(room("W0N0", 99, *[thing("creep", born(64, 64 - n), 1 + n % 40, 1 + n // 40, owner=n + 1, body=["carry"], energy=30, timer=9) for n in range(64)]))
    first = world(*rooms, players=[player(64 - n, 1 + n) for n in range(64)])
    calls = [("rooms",), ("room", 0), ("room", 1), ("room", 2), ("count",), *[("room_name", n) for n in range(66)], *[("find", born(n, 1)) for n in range(66)]]
    calls += [("drop", born(n, 1), 7) for n in range(65)] + [("drop", born(64, n), n) for n in range(1, 65)]
    play("64 players", first, 3, [Upload(0, 64 - n, Table(calls)) for n in range(64)])


def check_full_world():
    """As many rooms, objects and players as a world may have: player 1 sees all of it, by a creep in each room."""
    rooms = []
    for n in range(400):
        # (each object stands in the room before that of its birth, so that the last ids are not in the last room)
        home = (n + 1) % 400
        roads = [thing("road", born(home, 3 + k), 1 + k, 1 + n % 48, timer=1000 - k) for k in range(48)]
        first, second = (thing("creep", born(home, 1 + k), 1 + k, 49, owner=owner, body=["carry"], energy=n % 51, timer=9) for k, owner in enumerate((1, 2 + n % 63)))
        rooms.append(room(f"E{n % 20}S{n // 20}", 51, second, *roads, first))
    first = world(*rooms, players=[player(64 - n, 500, points=n) for n in range(64)])
    last = max(one["id"] for one in objects_of(first))
    checks.note("a full world", [] if (len(objects_of(first)), last) == (20_000, born(399, 50)) else ["it is none"])
    calls = [("rooms",), ("count",), *[("room", at) for at in (0, 1, 398, 399, 400)], *[("room_name", at) for at in (0, 398, 399, 400)]]
    calls += [("find", id) for id in (1, born(200, 7), born(200, 51), born(398, 50), born(399, 1), last - 1, last, last + 1, born(400, 1))]
    calls += [("get", at, field) for at in (0, 1, 9_999, 19_998, 19_999, 20_000) for field in range(17)]
    calls += [("terrain", 399, 49, 49), ("terrain", 399, 48, 48), ("terrain", 400, 1, 1), ("drop", last, 1), ("drop", born(399, 1), 1)]
    table = Table(calls)
    steps = play("400 rooms, 20,000 objects and 64 players, of whom one sees all", first, 2, [Upload(0, 64 - n, table) for n in range(64)])
    # (what the first player gets, by hand)
    told = struct.unpack_from("<7q", bytes.fromhex(account_of(steps[0].world, 1)["memory"]))
    checks.note("what the first of 64 players counts", [] if told == (400, 20_000, 0, 1, 398, 399, -10) else [f"{told}"])


def check_rows():
    """Rows that are worked out by hand."""
    small = "start tick 0 rooms 1 objects 2 players 1"
    accepted, last = "upload player 1 accepted", "tick 1 objects 2 intents 0 energy 2499"
    spin = [Upload(0, 1, Given(LOOP, [("spin",)]))]
    steps = play("a loop that never ends", {**SMALL, "players": [player(1, 1)]}, 1, spin, [small, accepted, "player 1 spent 10000", last])
    bucket_is(steps, 0)
    said = [small, accepted, "player 1 trapped 1000", last, "player 1 trapped 1000", "tick 2 objects 2 intents 0 energy 2498"]
    steps = play("a loop that calls itself", {**SMALL, "players": [player(1, 1)]}, 2, [Upload(0, 1, trapping(8, b"", 1000, []))], said)
    bucket_is(steps, 0)
    first = {**SMALL, "players": [player(1, 20, bucket=9_990)]}
    steps = play("an empty loop", first, 1, [Upload(0, 1, Given(EMPTY))], [small, accepted, "player 1 finished 0", last])
    bucket_is(steps, 10_000)
    files = {"world.json": bytes_of(first), "uploads.bin": upload_entry(1, 1, b"") + upload_entry(0, 1, b"")}
    refused_run("an upload of a tick before the last", files, 4, "Uploads 16")
    nobody = "upload player 9 refused UnknownPlayer"
    play("an upload of nobody", SMALL, 1, [Upload(0, 9, Given(LOOP))], ["start tick 0 rooms 1 objects 2 players 0", nobody, last])
    creep = thing("creep", 3, 30, 30, owner=1, body=["carry", "move"], energy=20, timer=1500)
    first = world(room("E0S0", 4, *SMALL["rooms"][0]["objects"], creep), players=[player(1)])
    said = ["start tick 0 rooms 1 objects 3 players 1", accepted, "player 1 finished 4", "tick 1 objects 4 intents 1 energy 2518"]
    steps = play("a creep drops 5", first, 1, [Upload(0, 1, Script(unkept("drop", 3, 5), pages=None))], said)
    place = steps[0].world["rooms"][0]
    found = [(one["id"], one["energy"]) for one in place["objects"]], place["next"]
    checks.note("what a drop of 5 leaves", [] if found == ([(1, 1500), (2, 999), (3, 15), (4, 4)], 5) else [f"{found}"])
    check_harvests()


def check_harvests():
    """A creep between a source and a spawn, which gains 1 by itself in each tick."""
    owned = thing("controller", 1, 5, 5, owner=1, extra=1, timer=20_000)
    creep = thing("creep", 4, 11, 10, owner=1, body=["work", "carry", "move"], timer=1500)
    place = room("E0S0", 5, owned, thing("source", 2, 10, 10, energy=3000), thing("spawn", 3, 12, 10, owner=1, energy=100), creep)
    begin, harvest = ["start tick 0 rooms 1 objects 4 players 1", "upload player 1 accepted"], unkept("harvest", 4, 2)
    said = [*begin, "player 1 finished 9", "tick 1 objects 4 intents 1 energy 3101", "player 1 finished 9", "tick 2 objects 4 intents 2 energy 3102"]
    hands = Script([*harvest, *unkept("transfer", 4, 3, 0)], pages=None)
    steps = play("a creep harvests and hands over", world(place, players=[player(1, 20)]), 2, [Upload(0, 1, hands)], said)
    energies_are(steps, [0, 2996, 104, 2])
    bucket_is(steps, 38)
    said = [*begin, "player 1 spent 10000", "tick 1 objects 4 intents 1 energy 3101"]
    spins = Script([*harvest, ("spin",)], pages=None)
    steps = play("a budget that ends after a harvest", world(place, players=[player(1, 1)]), 1, [Upload(0, 1, spins)], said)
    energies_are(steps, [0, 2998, 101, 2])


def energies_are(steps, wanted):
    found = [one["energy"] for one in objects_of(steps[-1].world)]
    checks.note(f"energies of {wanted}", [] if found == wanted else [f"{found}"])


def bucket_is(steps, wanted):
    bucket = account_of(steps[-1].world, 1)["bucket"]
    checks.note(f"a bucket of {wanted}", [] if bucket == wanted else [f"{bucket}"])


def check_serials():
    """Rooms that have used up their serials."""
    err = b"fault 10 IdsExhausted %d\n"
    pile = thing("pile", 1, 20, 20, energy=1001)
    creeps = [thing("creep", 2, 30, 30, owner=1, body=["carry"], energy=20, timer=9), thing("creep", 3, 31, 30, owner=1, body=["carry"], energy=20, timer=9)]
    players = [player(1)]

    def first(*nexts):
        return world(*[room(f"E{n}S0", next, *([pile, *creeps] if n == 0 else [])) for n, next in enumerate(nexts)], players=players)

    play("a room at its last serials", first(MOST_NEXT), 2, [])
    play("a room past its last serials", first(MOST_NEXT + 1), 0, [], asked=1, status=10, err=err % 0)
    play("a room past its last serials, and no tick", first(MOST_NEXT + 1), 0, [])
    play("the first room that is past them", first(9, MOST_NEXT + 1, 2**32 - 1), 0, [], asked=1, status=10, err=err % 1)
    drops = [Upload(0, 1, Script([*unkept("drop", 2, 1), *unkept("drop", 3, 5)])), Upload(1, 9, Script([]))]
    play("a drop that takes the last serial", first(MOST_NEXT, 3), 1, drops, asked=2, status=10, err=err % 0)
    # (two piles in the first tick, one of which is gone at its end, and one anew in each further tick)
    play("drops up to the last serial", first(MOST_NEXT - 3), 3, drops)
    play("drops past the last serial", first(MOST_NEXT - 3), 3, drops, asked=4, status=10, err=err % 0)


def main():
    check_rows()
    check_answers()
    check_levels()
    check_bodies()
    check_memory()
    check_memory_of_a_tick()
    check_no_memory()
    check_drops()
    check_full_record()
    check_uploads()
    check_ends()
    check_fuel()
    check_many_players()
    check_full_world()
    check_serials()
    checks.finish()


if __name__ == "__main__":
    main()
