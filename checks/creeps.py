#!/usr/bin/env python3
"""What creeps do: the calls that want it, by every check that may refuse them, and what a tick makes of those that are recorded.

It runs behind `rt ci`, which builds crates/world_server/out/world_server. First come rooms whose tick is worked out by hand, which both
the program and oracle/game.py have to meet; then all calls over all sorts of objects; then random ones, of which every object is compared
after each tick. With --model no program is run, and oracle/game.py alone is held against the rooms that are worked out. Who steps where is
the subject of checks/moves.py, how creeps fight and die that of checks/fights.py, and what they do to controllers that of checks/controllers.py;
here creeps step and cross among all the other things that they do.
"""

import os
import random
import struct
import sys

TOP = os.path.dirname(os.path.dirname(os.path.abspath(__file__)))
sys.path[:0] = [os.path.join(TOP, it) for it in ("oracle", "checks/harness")]
import compared_runs  # noqa: E402
from checked_program import Checks  # noqa: E402
from drawn_runs import count_into, note_counts, play_drawn  # noqa: E402
from game import ACTIONS, DIRECTIONS, FULL, INVALID, INVALID_TARGET, NO_BODYPART, NOT_ENOUGH, NOT_FOUND, NOT_IN_RANGE, NOT_OWNER, SECOND, TIRED, distance, thing  # noqa: E402
from scripts import MOST_ENTRIES, Table  # noqa: E402
from worked_rooms import FIRST_NEW, Case, check_cases, with_ids  # noqa: E402
from worlds import Upload, account_of, grounds, objects_of, room, world  # noqa: E402

checks = Checks(__file__, "--model" not in sys.argv[1:])
WORKER = ["work", "carry"]


def play(name, first, ticks, uploads, **others):
    return compared_runs.play(checks, name, first, ticks, uploads, **others)


def player(number, limit=500, **others):
    return {"player": number, "limit": limit, **others}


def creep(serial, x, y, energy=0, owner=1, body=(*WORKER,), **fields):
    return thing("creep", serial, x, y, owner=owner, body=list(body), energy=energy, timer=1500, **fields)


def controller(serial, owner=0, level=0, **fields):
    return thing("controller", serial, 40, 40, owner=owner, extra=level, timer=20_000 if owner else 0, **fields)


def site(serial, x, y, kind, progress, owner=1):
    number = {"spawn": 4, "extension": 5, "storage": 6, "container": 7, "road": 8}[kind]
    return thing("site", serial, x, y, owner=owner, extra=number, progress=progress)


def pile(serial, x, y, energy):
    return thing("pile", serial, x, y, energy=energy)


# ---- rooms that are worked out by hand


def falls(number, one, energy):
    """A new pile on the tile of an object, the serial being counted from the first new one."""
    return pile(FIRST_NEW + number, one["x"], one["y"], energy)


def built(number, kind, at, timer=0, owner=0):
    """A building where a site was; of a container or a road the timer has run for a tick, and a spawn has gained its first energy."""
    x, y = at
    fields = {"owner": owner, "energy": int(kind == "spawn")} if owner else {}
    return thing(kind, FIRST_NEW + number, x, y, timer=timer, **fields)


EAST, WEST, NORTH, SOUTH = (11, 10), (9, 10), (10, 9), (10, 11)


def source(serial=1, energy=1500, timer=0, x=10, y=10):
    return thing("source", serial, x, y, energy=energy, timer=timer)


def of_harvest():
    yield Case(
        "two creeps of one WORK at a source of 3",
        [source(energy=3), creep(2, *WEST), creep(3, *EAST)],
        [(1, "harvest", 3, 1, 0), (1, "harvest", 2, 1, 0)],
        {1: {"energy": 0, "timer": 300}, 2: {"energy": 2}, 3: {"energy": 1}},
    )
    yield Case("a source that is emptied as it renews", [source(energy=1, timer=1), creep(2, *WEST)], [(1, "harvest", 2, 1, 0)], {1: {"energy": 1500, "timer": 0}, 2: {"energy": 1}})
    yield Case(
        "a source that the harvest before emptied",
        [source(energy=2), creep(2, *WEST), creep(3, *EAST)],
        [(1, "harvest", 2, 1, 0), (1, "harvest", 3, 1, 0)],
        {1: {"energy": 0, "timer": 300}, 2: {"energy": 2}},
    )
    # (6 fall, of which a thousandth is lost, rounded up)
    bare = creep(2, *WEST, body=["work"] * 3)
    yield Case("a harvest without CARRY falls", [source(), bare], [(1, "harvest", 2, 1, 0)], {1: {"energy": 1494, "timer": 300}}, new=[falls(0, bare, 5)])
    fat = creep(2, *WEST, energy=47, body=["work"] * 5 + ["carry"])
    yield Case(
        "a harvest of 10 with room for 3",
        [source(), fat],
        [(1, "harvest", 2, 1, 0)],
        {1: {"energy": 1490, "timer": 300}, 2: {"energy": 50}},
        new=[falls(0, fat, 6)],
    )
    yield Case(
        "what falls on a pile that is full is lost",
        [source(), creep(2, *WEST, body=["work"] * 10), pile(3, *WEST, 999_999_999)],
        [(1, "harvest", 2, 1, 0)],
        {1: {"energy": 1480, "timer": 300}, 3: {"energy": 999_000_000}},
    )
    # (of the hits 150 the last part has 100 and the one before it 50)
    wounded = creep(2, *WEST, body=["work", "work", "carry"], hits=150)
    dead = creep(3, *EAST, body=["work", "carry"], hits=100)
    yield Case("parts that are dead", [source(), wounded, dead], [(1, "harvest", 2, 1, 0), (1, "harvest", 3, 1, NO_BODYPART)], {1: {"energy": 1498, "timer": 300}, 2: {"energy": 2}})
    # (only where somebody owns or reserves the room a source of 2,998 is one that has to be renewed)
    rooms = [
        ("nobody's", controller(3), 0, 0),
        ("the player's", controller(3, 1, 1), 0, 300),
        ("another's", controller(3, 2, 1), NOT_OWNER, 0),
        ("reserved by the player", controller(3, other=1, other_ticks=9), 0, 300),
        ("reserved by another", controller(3, other=2, other_ticks=9), NOT_OWNER, 0),
    ]
    for whose, it, answer, timer in rooms:
        after = {} if answer else {1: {"energy": 2998, "timer": timer}, 2: {"energy": 2}}
        yield Case(f"a harvest in a room that is {whose}", [source(energy=3000), creep(2, *WEST), it], [(1, "harvest", 2, 1, answer)], after)


def of_handing():
    spawn = thing("spawn", 1, 10, 10, owner=1, energy=245)
    carriers = [creep(2, *WEST, 50), creep(3, *EAST, 50), creep(4, *NORTH, 50)]
    yield Case(
        "a spawn that the transfers before filled",
        [spawn, *carriers],
        [(1, "transfer", serial, 1, amount, 0) for serial, amount in ((4, 0), (3, 0), (2, 50))],
        {1: {"energy": 300}, 2: {"energy": 0}, 3: {"energy": 45}},
    )
    spawn = thing("spawn", 1, 10, 10, owner=1, energy=100)
    yield Case(
        "a load that is handed on, the giver having the lesser id",
        [spawn, creep(2, 12, 10, 50), creep(3, *EAST, 1)],
        [(1, "transfer", 3, 1, 0, 0), (1, "transfer", 2, 3, 0, 0)],
        # (a spawn that holds less than 300 gains 1 at the end of a tick)
        {1: {"energy": 151}, 2: {"energy": 1}, 3: {"energy": 0}},
    )
    yield Case(
        "a load that is handed on, the giver having the greater id",
        [spawn, creep(2, *EAST, 1), creep(3, 12, 10, 50)],
        [(1, "transfer", 3, 2, 0, 0), (1, "transfer", 2, 1, 0, 0)],
        {1: {"energy": 102}, 2: {"energy": 50}, 3: {"energy": 0}},
    )
    container = thing("container", 1, 10, 10, energy=30, timer=9)
    yield Case(
        "a container that the withdrawals before emptied",
        [container, creep(2, *WEST), creep(3, *EAST), creep(4, *NORTH)],
        [(1, "withdraw", 2, 1, 20, 0), (1, "withdraw", 3, 1, 20, 0), (1, "withdraw", 4, 1, 30, 0)],
        {1: {"energy": 0}, 2: {"energy": 20}, 3: {"energy": 10}},
    )
    yield Case(
        "another's spawn and storage, and a creep of his",
        [thing("spawn", 1, 10, 10, owner=2, energy=300), creep(2, *EAST, body=["carry"] * 3), creep(3, 12, 10, 7, owner=2), thing("storage", 4, 12, 11, owner=2, energy=9), creep(5, *SOUTH, 8)],
        [(1, "withdraw", 2, 1, 0, 0), (2, "transfer", 3, 2, 4, 0), (1, "transfer", 5, 3, 6, NOT_IN_RANGE), (1, "withdraw", 5, 4, 2, NOT_IN_RANGE), (1, "transfer", 2, 4, 1, NOT_ENOUGH)],
        # (4 come before 146 of the spawn's 300, and then it gains 1)
        {1: {"energy": 155}, 2: {"energy": 150}, 3: {"energy": 3}},
    )
    for level, energy, given, left in ((0, 45, 50, 45), (6, 45, 50, 45), (7, 45, 95, 0), (8, 190, 200, 40)):
        room_of = [controller(1, 1, level)] if level else []
        extensions = [thing("extension", 2, 10, 10, owner=1, energy=energy), thing("extension", 4, 12, 10, owner=1, energy=200)]
        above = (1, "transfer", 6, 4, 1, FULL)
        yield Case(
            f"extensions at level {level}",
            [*room_of, *extensions, creep(3, *WEST, 50), creep(5, 13, 10), creep(6, 12, 11, 1)],
            [(1, "transfer", 3, 2, 0, 0), (1, "withdraw", 5, 4, 0, 0), above],
            {2: {"energy": given}, 3: {"energy": left}, 4: {"energy": 150}, 5: {"energy": 50}},
        )
    # (the level counts, whoever owns the room)
    rooms = [("nobody's", controller(1), 50), *((f"another's, of level {level}", controller(1, 2, level), given) for level, given in ((6, 50), (7, 95), (8, 95)))]
    for whose, it, given in rooms:
        objects = [it, thing("extension", 2, 10, 10, owner=1, energy=45), creep(3, *WEST, 50)]
        yield Case(f"an extension in a room that is {whose}", objects, [(1, "transfer", 3, 2, 0, 0)], {2: {"energy": given}, 3: {"energy": 95 - given}})


def of_piles():
    yield Case(
        "a pile that a drop of the same tick made grow",
        [pile(1, *WEST, 5), creep(2, *WEST, 50), creep(3, 8, 9)],
        [(1, "pickup", 3, 1, 0), (1, "drop", 2, 20, 0)],
        {2: {"energy": 30}, 3: {"energy": 25}},
        gone=[1],
    )
    yield Case("a pile that is too much", [pile(1, *WEST, 100), creep(2, 8, 9, 20)], [(1, "pickup", 2, 1, 0)], {1: {"energy": 69}, 2: {"energy": 50}})
    yield Case("a creep picks up what it dropped", [pile(1, *WEST, 10), creep(2, *WEST, 49)], [(1, "pickup", 2, 1, 0), (1, "drop", 2, 0, 0)], {1: {"energy": 8}, 2: {"energy": 50}})
    bare = creep(4, *WEST, body=["work"])
    yield Case(
        "a pile that is gone, and a new one on its tile",
        [pile(1, *WEST, 30), creep(2, 8, 9), creep(3, 8, 11), bare, source(5)],
        [(1, "pickup", 2, 1, 0), (1, "pickup", 3, 1, 0), (1, "harvest", 4, 5, 0)],
        {2: {"energy": 30}, 5: {"energy": 1498, "timer": 300}},
        gone=[1],
        new=[falls(0, bare, 1)],
    )


def of_work():
    road = thing("road", 1, 12, 10, hits=4850, timer=7)
    yield Case(
        "a road that is mended",
        [road, creep(2, *WEST, 50), creep(3, *EAST, 50, body=["work", *WORKER]), creep(4, *NORTH, 50)],
        [(1, "repair", serial, 1, 0) for serial in (4, 3, 2)],
        {1: {"hits": 5000}, 2: {"energy": 49}, 3: {"energy": 49}},
    )
    strong = ["work"] * 3 + ["carry"]
    yield Case("a repair with a load of 1", [thing("container", 1, 10, 10, hits=1, timer=9), creep(2, 13, 13, 1, body=strong)], [(1, "repair", 2, 1, 0)], {1: {"hits": 101}, 2: {"energy": 0}})
    yield Case("a repair of 101 hits", [thing("extension", 1, 10, 10, owner=2, hits=899), creep(2, 7, 13, 9, body=strong)], [(1, "repair", 2, 1, 0)], {1: {"hits": 1000}, 2: {"energy": 7}})
    yield Case("work as far as the load pays", [site(1, 10, 10, "spawn", 100), creep(2, 7, 7, 7, body=strong)], [(1, "build", 2, 1, 0)], {1: {"progress": 107}, 2: {"energy": 0}})
    yield Case("work as far as the parts do", [site(1, 10, 10, "storage", 0), creep(2, 7, 7, 50, body=strong)], [(1, "build", 2, 1, 0)], {1: {"progress": 15}, 2: {"energy": 35}})
    both = [(1, "build", 3, 1, 0), (1, "build", 2, 1, 0)]
    for progress, after in ((295, {2: {"energy": 45}}), (293, {2: {"energy": 45}, 3: {"energy": 48}})):
        yield Case(
            f"a site that another finished in the same tick, from {progress}",
            [site(1, 10, 10, "road", progress), creep(2, *WEST, 50), creep(3, *EAST, 50)],
            both,
            after,
            gone=[1],
            new=[built(0, "road", (10, 10), timer=999)],
        )
    rooms = [("nobody's", controller(3), 99), ("another's", controller(3, 2, 8), 499), ("the player's", controller(3, 1, 1), 499), ("reserved", controller(3, other=1, other_ticks=2), 99)]
    for whose, it, timer in rooms:
        objects = [site(1, 10, 10, "container", 4999), creep(2, *WEST, 50), it]
        yield Case(f"a container in a room that is {whose}", objects, [(1, "build", 2, 1, 0)], {2: {"energy": 49}}, gone=[1], new=[built(0, "container", (10, 10), timer=timer)])
    for kind, total in (("spawn", 15_000), ("extension", 3000), ("storage", 30_000)):
        objects = [site(1, 10, 10, kind, total - 4, owner=2), creep(2, *WEST, 50, owner=2), creep(3, *EAST, 50)]
        calls = [(2, "build", 2, 1, 0), (1, "build", 3, 1, NOT_OWNER)]
        yield Case(f"a {kind} of another player", objects, calls, {2: {"energy": 46}}, gone=[1], new=[built(0, kind, (10, 10), owner=2)])


def of_several():
    """Entries of one creep, and of several players."""
    objects = [source(), thing("road", 2, 12, 10, hits=4000, timer=7), site(3, 10, 12, "road", 0)]
    objects += [creep(4, 9, 9, 10), creep(5, 10, 9, 10), creep(6, 11, 9, 10), creep(7, *WEST, 10), creep(8, 9, 11, 10)]
    calls = [(1, "harvest", 4, 1, 0), (1, "repair", 4, 2, 0), (1, "build", 5, 3, 0), (1, "harvest", 5, 1, 0), (1, "build", 6, 3, 0), (1, "repair", 6, 2, 0)]
    calls += [(1, "repair", 7, 2, 0), (1, "build", 7, 3, 0), (1, "harvest", 7, 1, 0), (1, "harvest", 8, 1, 0), (1, "drop", 8, 10, 0)]
    # (the last harvests, and what it dropped falls first: 10, of which 9 are left)
    yield Case(
        "repair drops build and harvest, and build drops harvest",
        objects,
        calls,
        {1: {"energy": 1498, "timer": 300}, 2: {"hits": 4300}, 3: {"progress": 5}, 4: {"energy": 9}, 5: {"energy": 5}, 6: {"energy": 9}, 7: {"energy": 9}, 8: {"energy": 2}},
        new=[falls(0, objects[-1], 9)],
    )
    yield Case(
        "a repair that does nothing drops a harvest too",
        [source(energy=1500), thing("road", 2, 12, 10, timer=7), creep(3, *WEST, 10)],
        [(1, "harvest", 3, 1, 0), (1, "repair", 3, 2, 0)],
    )
    all_of_it = creep(2, *WEST, 50, body=["work", "carry", "carry"])
    yield Case(
        "a creep that does all of it",
        [source(), all_of_it, thing("container", 3, 8, 9, timer=9), thing("storage", 4, 8, 10, owner=2, energy=100), pile(5, 8, 11, 7)],
        [(1, "harvest", 2, 1, 0), (1, "pickup", 2, 5, 0), (1, "withdraw", 2, 4, 20, 0), (1, "transfer", 2, 3, 5, 0), (1, "drop", 2, 10, 0)],
        {1: {"energy": 1498, "timer": 300}, 2: {"energy": 64}, 3: {"energy": 5}, 4: {"energy": 80}},
        gone=[5],
        new=[falls(0, all_of_it, 9)],
    )
    taker = creep(2, *WEST)
    yield Case(
        "a creep that a withdrawal filled harvests onto its tile",
        [source(), taker, thing("container", 3, 8, 9, energy=60, timer=9)],
        [(1, "harvest", 2, 1, 0), (1, "withdraw", 2, 3, 50, 0)],
        {1: {"energy": 1498, "timer": 300}, 2: {"energy": 50}, 3: {"energy": 10}},
        new=[falls(0, taker, 1)],
    )
    yield Case(
        "the last entry of an action and a creep counts, and a refused one leaves it",
        [source(), creep(2, *WEST, 40), thing("spawn", 3, 8, 9, owner=1, energy=100), thing("container", 4, 8, 10, timer=9), source(5, 1000, 0, 9, 11)],
        [
            *((1, "transfer", 2, target, amount, answer) for target, amount, answer in ((3, 30, 0), (4, 7, 0), (3, 41, NOT_ENOUGH), (1, 1, INVALID_TARGET))),
            *((1, "harvest", 2, target, answer) for target, answer in ((1, 0), (5, 0), (4, INVALID_TARGET))),
        ],
        {2: {"energy": 35}, 3: {"energy": 101}, 4: {"energy": 7}, 5: {"energy": 998, "timer": 300}},
    )
    # (by player, then by creep, and drops before harvests before works)
    first, second, third = creep(2, 8, 8, 9, owner=2), creep(3, 8, 12, 9), creep(4, *WEST, body=["work"])
    yield Case(
        "new ids in the order of the rules",
        [source(), first, second, third, site(5, 12, 12, "road", 299), creep(6, *EAST, 9)],
        [(1, "build", 6, 5, 0), (1, "harvest", 4, 1, 0), (2, "drop", 2, 0, 0), (1, "drop", 3, 5, 0)],
        {1: {"energy": 1498, "timer": 300}, 2: {"energy": 0}, 3: {"energy": 4}, 6: {"energy": 8}},
        gone=[5],
        new=[falls(0, second, 4), falls(1, first, 8), falls(2, third, 1), built(3, "road", (12, 12), timer=999)],
    )


def of_decay():
    """Containers and roads whose timers run out, and creeps that recover."""
    worn = [thing("container", 1, 8, 8, hits=5001, timer=1, energy=7), thing("container", 2, 9, 8, timer=1), thing("container", 3, 10, 8, hits=1, timer=2)]
    worn += [thing("road", 4, 8, 9, hits=101, timer=1), thing("road", 5, 9, 9, timer=1), thing("road", 6, 10, 9, hits=1, timer=2)]
    roads = {4: {"hits": 1, "timer": 1000}, 5: {"hits": 4900, "timer": 1000}}
    rooms = [("without a controller", [], 100), ("that is nobody's", [controller(7)], 100), ("that is reserved", [controller(7, other=2, other_ticks=9)], 100), ("that is another's", [controller(7, 2, 1)], 500)]
    for whose, of_room, timer in rooms:
        after = {1: {"hits": 1, "timer": timer}, 2: {"hits": 245_000, "timer": timer}, **roads}
        yield Case(f"what decays in a room {whose}", [*worn, *of_room], [], after)
    ruins = [thing("container", 1, 8, 8, hits=5000, timer=1, energy=30), thing("container", 2, 9, 8, hits=1, timer=1, energy=2000), thing("container", 3, 10, 8, hits=4999, timer=1)]
    ruins += [thing("road", 4, 8, 9, hits=100, timer=1), thing("road", 5, 9, 9, hits=1, timer=1)]
    # (30 fall, and 2,000, of which 1 and 2 are lost)
    yield Case("buildings that fall to pieces, in rising id", ruins, [], gone=[1, 2, 3, 4, 5], new=[falls(0, ruins[0], 29), falls(1, ruins[1], 1998)])
    ruins = [pile(1, 8, 8, 100), thing("container", 2, 8, 8, hits=5000, timer=1, energy=30), thing("container", 3, 9, 8, hits=7, timer=1, energy=30), pile(4, 9, 8, 999_999_990)]
    yield Case("piles on which a container falls to pieces", ruins, [], {1: {"energy": 129}, 4: {"energy": 999_000_000}}, gone=[2, 3])
    ruins = [thing("container", 1, 10, 10, hits=5000, timer=1, energy=60), creep(2, *WEST), thing("container", 3, 10, 12, hits=5000, timer=1, energy=5), creep(4, *SOUTH, 20), creep(5, 11, 12, 3)]
    yield Case(
        "containers that are used as they fall, and one that is mended in time",
        [*ruins, thing("container", 6, 12, 12, hits=5000, timer=1, energy=9)],
        [(1, "withdraw", 2, 1, 0, 0), (1, "transfer", 4, 3, 0, 0), (1, "repair", 5, 6, 0)],
        {2: {"energy": 50}, 4: {"energy": 0}, 5: {"energy": 2}, 6: {"hits": 100, "timer": 100}},
        gone=[1, 3],
        new=[falls(0, ruins[0], 9), falls(1, ruins[2], 24)],
    )
    tired = [creep(1, 8, 8, body=["move", "move", "work"], extra=5), creep(2, 9, 8, body=["move", "move"], extra=3), creep(3, 10, 8, body=["work"], extra=5)]
    tired += [creep(4, 8, 9, body=["move", "move", "work"], hits=200, extra=500), creep(5, 9, 9, body=["move", "carry"], hits=100, extra=1), creep(6, 10, 9, body=["move"] * 50, extra=101)]
    yield Case("creeps that recover by their move parts", tired, [], {1: {"extra": 1}, 2: {"extra": 0}, 4: {"extra": 498}, 6: {"extra": 1}})


def of_refusals():
    """Calls that fail two checks: the first gives the code."""
    objects = [source(1, 0, 77), creep(2, *WEST), creep(3, *EAST, body=["carry"]), creep(4, *NORTH, 5, owner=2, body=["carry"]), thing("road", 5, 10, 12, timer=9), thing("road", 6, 30, 30, timer=9)]
    objects += [source(7, 0, 9, 30, 10), thing("container", 8, 8, 10, energy=2000, timer=9), thing("container", 9, 8, 11, timer=9), creep(10, 8, 9, 50), pile(11, 31, 30, 8)]
    objects += [creep(17, 33, 33, body=["move"], extra=9), creep(18, 34, 33, body=["work"], extra=9), creep(19, 35, 33, body=["move", "work"], hits=100)]
    objects += [site(12, 30, 31, "road", 0, owner=2), site(13, 12, 11, "road", 0, owner=2), site(14, 11, 11, "container", 0), thing("container", 15, 31, 31, timer=9), pile(16, 8, 12, 3)]
    calls = [
        ("harvest", 99, 98, NOT_FOUND),
        ("harvest", 1, 98, NOT_FOUND),
        ("harvest", 4, 98, NOT_OWNER),
        ("harvest", 3, 5, NO_BODYPART),
        ("harvest", 2, 6, INVALID_TARGET),
        ("harvest", 2, 98, INVALID_TARGET),
        ("harvest", 2, 7, NOT_IN_RANGE),
        ("harvest", 2, 1, NOT_ENOUGH),
        ("transfer", 98, 8, -1, NOT_FOUND),
        ("transfer", 4, 2, -1, NOT_OWNER),
        ("transfer", 2, 2, -1, INVALID),
        ("transfer", 2, 2, 0, INVALID_TARGET),
        ("transfer", 2, 6, 0, INVALID_TARGET),
        ("transfer", 2, 15, 0, NOT_IN_RANGE),
        ("transfer", 2, 8, 0, NOT_ENOUGH),
        ("transfer", 10, 2, 51, NOT_ENOUGH),
        ("transfer", 10, 8, 0, FULL),
        ("withdraw", 4, 8, -1, NOT_OWNER),
        ("withdraw", 2, 3, -1, INVALID),
        ("withdraw", 2, 10, 0, INVALID_TARGET),
        ("withdraw", 2, 15, 1, NOT_IN_RANGE),
        ("withdraw", 2, 9, 51, NOT_ENOUGH),
        ("withdraw", 2, 8, 51, FULL),
        ("withdraw", 10, 8, 2001, NOT_ENOUGH),
        ("withdraw", 10, 8, 0, FULL),
        ("pickup", 4, 98, NOT_OWNER),
        ("pickup", 10, 8, INVALID_TARGET),
        ("pickup", 10, 11, NOT_IN_RANGE),
        ("repair", 4, 98, NOT_OWNER),
        ("repair", 3, 1, NO_BODYPART),
        ("repair", 2, 7, INVALID_TARGET),
        ("repair", 2, 6, NOT_IN_RANGE),
        ("repair", 2, 5, NOT_ENOUGH),
        ("build", 3, 98, NO_BODYPART),
        ("build", 2, 6, INVALID_TARGET),
        ("build", 2, 12, NOT_IN_RANGE),
        ("build", 2, 13, NOT_OWNER),
        ("build", 2, 14, NOT_ENOUGH),
        ("drop", 4, -1, NOT_OWNER),
        ("drop", 2, -1, INVALID),
        ("drop", 2, 0, NOT_ENOUGH),
        ("move", 99, 0, NOT_FOUND),
        ("move", 1, 3, NOT_FOUND),
        ("move", 4, 0, NOT_OWNER),
        ("move", 4, 3, NOT_OWNER),
        ("move", 2, 0, INVALID),
        ("move", 17, -1, INVALID),
        ("move", 17, 9, INVALID),
        ("move", 2, 3, NO_BODYPART),
        ("move", 18, 3, NO_BODYPART),
        ("move", 19, 3, NO_BODYPART),
        ("move", 17, 3, TIRED),
    ]
    yield Case("of two faults the first", objects, [(1, *it) for it in calls], {1: {"timer": 76}, 7: {"timer": 8}, 11: {"energy": 7}, 16: {"energy": 2}, 17: {"extra": 7}})
    crowded = [site(1, 10, 10, "extension", 0), creep(2, 10, 10), creep(3, *EAST, 5), site(4, 12, 10, "container", 0), creep(5, 12, 10, 5), site(6, 14, 10, "spawn", 0, owner=2), creep(7, 14, 10, owner=2)]
    calls = [(1, "build", 2, 1, NOT_ENOUGH), (1, "build", 3, 1, INVALID_TARGET), (1, "build", 5, 4, 0), (1, "build", 5, 6, NOT_OWNER), (1, "build", 5, 1, INVALID_TARGET)]
    yield Case("a creep where a building would obstruct", crowded, calls, {4: {"progress": 5}, 5: {"energy": 0}})
    taken = [source(energy=0, timer=9), creep(2, *WEST), controller(3, 2, 1)]
    yield Case("another's room, and an empty source", taken, [(1, "harvest", 2, 1, NOT_OWNER)], {1: {"timer": 8}})


def check_worked():
    """All rooms that are worked out by hand, in one run."""
    cases = [*of_harvest(), *of_handing(), *of_piles(), *of_work(), *of_several(), *of_decay(), *of_refusals()]
    check_cases(checks, "rooms that are worked out by hand", cases, [player(1), player(2)])


# ---- all calls over all sorts of objects


def crowd():
    """Two rooms that player 1 sees, and one that he doesn't, with objects of all sorts in and out of reach."""
    near = [
        source(1, 3000, 0, 10, 10),
        source(2, 0, 9, 10, 12),
        creep(3, 9, 10, 30, body=["work", "carry"]),
        creep(4, 11, 10, 50, body=["work", "carry"]),
        creep(5, 10, 9, 0, body=["work", "carry"]),
        creep(6, 10, 11, 30, body=["carry", "carry"]),
        creep(7, 9, 11, 0, body=["work"]),
        creep(8, 11, 11, 30, owner=2, body=["work", "carry"]),
        creep(9, 11, 9, 30, body=["work", "carry"], hits=100),
        thing("spawn", 10, 8, 10, owner=1, energy=290),
        thing("spawn", 11, 8, 11, owner=2, energy=300, hits=7),
        thing("extension", 12, 8, 9, owner=1, energy=20),
        thing("storage", 13, 12, 10, owner=2, energy=1_000_000),
        thing("container", 14, 12, 11, energy=0, timer=9, hits=1000),
        thing("road", 15, 12, 9, timer=9, hits=1),
        thing("road", 16, 15, 10, timer=9),
        pile(17, 10, 9, 5),
        pile(18, 10, 8, 3000),
        site(19, 9, 9, "container", 10),
        site(20, 11, 12, "extension", 0),
        site(21, 9, 12, "road", 299, owner=2),
        site(22, 40, 40, "road", 1),
        controller(23, 1, 3),
        pile(24, 40, 41, 9),
        thing("container", 25, 41, 40, energy=1000, timer=9),
    ]
    near[-3].update(x=30, y=30)
    near += [creep(27, 20, 10, body=["move", "work"]), creep(28, 22, 10, body=["carry", "move"], extra=500), creep(29, 24, 10, owner=2, body=["move"])]
    second = [source(1, 5), creep(2, *WEST, 20), creep(3, *EAST, 0, owner=2), thing("container", 4, 8, 10, energy=5, timer=3), pile(5, 8, 11, 9), site(6, 8, 9, "road", 0), controller(7, other=2, other_ticks=9)]
    unseen = [source(1, 5), creep(2, *WEST, 20, owner=2), thing("container", 3, 8, 10, energy=5, timer=3)]
    rooms = [[with_ids(index, one) for one in objects] for index, objects in enumerate((near, second, unseen))]
    return world(*[room(f"E{index}S0", 30, *objects) for index, objects in enumerate(rooms)], players=[player(1), player(2), player(3)])


HEADINGS = [-(1 << 31), -1, *range(10), 255, 256, 259, 1 << 16, (1 << 31) - 1]
AMOUNTS = [0, 1, 10, 11, 20, 21, 30, 31, 50, 51, (1 << 31) - 1, -1, -(1 << 31)]


def check_calls():
    """Every call of each creep with each object: each refusal, and those that are recorded."""
    first = crowd()
    ids = [one["id"] for one in objects_of(first)] + [0, -1, 1 << 53, 26, SECOND * 3 + 1]
    creeps = [one["id"] for one in objects_of(first) if one["kind"] == "creep"] + [0, 1, 10, -3, 3 - (1 << 63), 3 + (1 << 53), 2 * SECOND + 9]
    plain = [(name, actor, target) for name in ("pickup", "harvest", "repair", "build") for actor in creeps for target in ids]
    amounts = [(name, actor, target, amount) for name in ("transfer", "withdraw") for actor in creeps[:16] for target in ids for amount in AMOUNTS]
    random.Random(1).shuffle(amounts)
    calls = [*plain, *amounts]
    tables = [calls[at : at + 8000] for at in range(0, len(calls), 8000)]
    # (last, so that all stand where they stood)
    tables.append([("move", actor, heading) for heading in HEADINGS for actor in creeps])
    uploads = [Upload(tick, number, Table(table)) for tick, table in enumerate(tables) for number in (1, 2, 3)]
    steps = play("every call of each creep with each object", first, len(tables), uploads)
    seen = set()
    for step, table in zip(steps, tables):
        answers = struct.unpack(f"<{len(table)}q", bytes.fromhex(account_of(step.world, 1)["memory"]))
        seen |= {(name, answer) for (name, *_), answer in zip(table, answers)}
    common = {0, NOT_FOUND, NOT_OWNER, INVALID_TARGET, NOT_IN_RANGE}
    wanted = {
        "transfer": common | {INVALID, NOT_ENOUGH, FULL},
        "withdraw": common | {INVALID, NOT_ENOUGH, FULL},
        "pickup": common | {FULL},
        "harvest": common | {NO_BODYPART, NOT_ENOUGH},
        "repair": common | {NO_BODYPART, NOT_ENOUGH},
        "build": common | {NO_BODYPART, NOT_ENOUGH},
        "move": {0, NOT_FOUND, NOT_OWNER, INVALID, NO_BODYPART, TIRED},
    }
    for name, codes in wanted.items():
        found = {code for other, code in seen if other == name}
        checks.note(f"each answer of {name} came", [] if found == codes else [f"{sorted(found)} and not {sorted(codes)}"])


def check_full_record():
    """4,096 entries of several actions, and then more."""
    count = 1400
    objects = [creep(1 + place, 1 + place % 48, 1 + place // 48, 20) for place in range(count)]
    objects += [thing("road", 2001 + place, 1 + place % 48, 1 + place // 48, timer=9, hits=1) for place in range(count)]
    objects.append(source(4000, 1500, 0, 48, 48))
    objects += [creep(4001, 47, 48), creep(4002, 47, 47, owner=2)]
    first = world(room("E0S0", 5000, *objects), players=[player(1), player(2)])

    def beside(place):
        return 1 + (place + 1 if place % 48 < 47 and place + 1 < count else place - 1)

    calls = [("transfer", 1 + place, beside(place), 1 + place % 9) for place in range(count)]
    calls += [("repair", 1 + place, 2001 + place) for place in range(count)]
    calls += [("drop", 1 + place, place % 5) for place in range(MOST_ENTRIES - 2 * count)]
    last = MOST_ENTRIES - 2 * count
    calls += [("drop", 1 + last, 1), ("harvest", 4001, 4000), ("build", 4001, 4000), ("harvest", 4002, 4000), ("harvest", 4001, 1), ("drop", 4001, 1), ("drop", 4001, -1)]
    # (what has a place in the record may be replaced)
    calls += [("transfer", 1, 2, 20), ("transfer", 700, beside(699), 0), ("repair", 3, 2001), ("drop", 1, 3), ("transfer", 4001, 1, 0), ("pickup", 1, 1)]
    steps = play("a record of 4,096 entries of three actions", first, 2, [Upload(0, 1, Table(calls)), Upload(0, 2, Table([("harvest", 4002, 4000)]))])
    entries = steps[0].runs[0].entries
    checks.note("the record of the check is full", [] if len(entries) == MOST_ENTRIES else [f"{len(entries)} entries"])
    answers = struct.unpack(f"<{len(calls)}q", bytes.fromhex(account_of(steps[0].world, 1)["memory"]))[MOST_ENTRIES:]
    wanted = (FULL, FULL, INVALID_TARGET, NOT_OWNER, INVALID_TARGET, NOT_ENOUGH, INVALID, 0, 0, 0, 0, NOT_IN_RANGE, INVALID_TARGET)
    checks.note("what a full record answers", [] if answers == wanted else [f"{answers} and not {wanted}"])


# ---- random worlds and calls

# Where the crowd of a room is, by a letter of its name: along x and along y.
CROWDED = {"E": range(12), "W": range(38, 50), "S": range(12), "N": range(38, 50)}
WORKS = ["drop", "transfer", "withdraw", "pickup", "harvest", "repair", "build"]


class Draw:
    """Random worlds of four rooms around one corner and of two players, and random calls in them."""

    def __init__(self, seed):
        self.random = random.Random(seed)

    def chance(self, share):
        return self.random.random() < share

    def body(self):
        parts = [self.random.choice(["work", "carry", "carry", "work", "move", "tough", "heal"]) for _ in range(self.random.randrange(1, 12))]
        return parts + (["carry"] if self.chance(0.8) else []) + ["move"] * self.random.randrange(4)

    def creep(self, serial, x, y):
        body = self.body()
        hits = 100 * len(body) if self.chance(0.7) else self.random.randrange(1, 100 * len(body) + 1)
        live = [part for place, part in enumerate(body) if hits > 100 * (len(body) - 1 - place)]
        most = 50 * live.count("carry")
        return thing("creep", serial, x, y, owner=self.random.choice((1, 2)), body=body, hits=hits, energy=self.random.choice((0, most, self.random.randint(0, most))), timer=self.random.choice((self.random.randint(1, 70), 1500, 1500)), extra=self.random.choice((0, 0, 0, self.random.randint(1, 40))))

    def fixed(self, serial, x, y, kind):
        """A thing that obstructs or lies about."""
        owner, number = self.random.choice((1, 2)), self.random.randint
        made = {
            "source": lambda: {"energy": self.random.choice((number(1, 9), number(0, 40), number(0, 3000))), "timer": self.random.choice((1, number(0, 300), 300))},
            "spawn": lambda: {"owner": owner, "energy": number(0, 300), "hits": number(1, 5000)},
            "extension": lambda: {"owner": owner, "energy": number(0, 200), "hits": number(1, 1000)},
            "storage": lambda: {"owner": owner, "energy": self.random.choice((number(0, 99), number(0, 10**6), 999_990)), "hits": number(9000, 10_000)},
            "container": lambda: {"energy": number(0, 2000), "hits": self.random.choice((number(1, 250_000), number(1, 10_000), 249_950)), "timer": number(1, 99)},
            "road": lambda: {"hits": self.random.choice((number(1, 5000), number(1, 200), 4950)), "timer": self.random.choice((number(1, 99), number(1, 1000)))},
            "site": lambda: self.site(owner),
        }
        return thing(kind, serial, x, y, **made[kind]())

    def site(self, owner):
        kind, total = self.random.choice([("spawn", 15_000), ("extension", 3000), ("storage", 30_000), ("container", 5000), ("road", 300)])
        return {"owner": owner, "extra": {"spawn": 4, "extension": 5, "storage": 6, "container": 7, "road": 8}[kind], "progress": max(0, total - self.random.randrange(1, 400))}

    def room(self, index, name):
        """A crowd on 12 by 12 tiles in a corner of the room, so that much is in range of each creep. The corners of all rooms meet."""
        around = [(x, y) for x in CROWDED[name[0]] for y in CROWDED[name[-2]]]
        self.random.shuffle(around)
        # (only creeps stand on the border, and nothing in the very corner)
        tiles = [tile for tile in around if not {0, 49} & set(tile)]
        border = [tile for tile in around if {0, 49} & set(tile) and not set(tile) <= {0, 49}]
        kinds = ["source"] * 12 + ["spawn"] * 3 + ["extension"] * 5 + ["storage"] * 2 + ["container"] * 6 + ["road"] * 8 + ["site"] * 30
        serials = self.random.sample(range(1, 400), len(kinds) + 80)
        objects = [self.fixed(serials.pop(), *tiles.pop(), kind) for kind in kinds]
        objects += [self.creep(serials.pop(), *tiles.pop()) for _ in range(18)]
        objects += [self.creep(serials.pop(), *border.pop()) for _ in range(6)]
        # (creeps stand on piles, roads and sites as well as on plain ground)
        clear = [one for one in objects if one["kind"] in ("road", "container", "site")]
        objects += [self.creep(serials.pop(), one["x"], one["y"]) for one in self.random.sample(clear, 6)]
        under = self.random.sample([one for one in objects if one["kind"] != "source"], 20)
        under = {(one["x"], one["y"]) for one in under}
        objects += [pile(serials.pop(), *tile, self.random.choice((1, 5, 400, 10**9, 999_999_990))) for tile in sorted(under)]
        if self.chance(0.8):
            level = self.random.choice((0, 6, 7, 8))
            fields = {"owner": self.random.choice((1, 2)), "level": level} if level else self.random.choice(({}, {"other": 1, "other_ticks": 9}, {"other": 2, "other_ticks": 9}))
            objects.append({**controller(serials.pop(), **fields), "x": 25, "y": 25})
        swamps = {50 * y + x: "2" for x, y in around if self.chance(0.3) and not {x, y} <= {0, 49}}
        walls = {50 * y + x: "1" for x, y in (*tiles[:4], *border[:2])}
        return room(name, 400, *[with_ids(index, one) for one in objects], terrain=grounds({**swamps, **walls}))

    def world(self):
        names = ["E0N0", "W0S0", "W0N0", "E0S0"]
        return world(*[self.room(index, name) for index, name in enumerate(names)], players=[player(number, 200, bucket=5000) for number in (1, 2)])

    def heading(self, place, one):
        """A direction, which mostly leads to where the others are."""
        if self.chance(0.05):
            return self.random.choice((0, -1, 9))
        columns, rows = CROWDED[place["name"][0]], CROWDED[place["name"][-2]]
        ways = [number for number, (x, y) in DIRECTIONS.items() if one["x"] + x in columns and one["y"] + y in rows]
        return self.random.choice(ways if ways and self.chance(0.9) else list(DIRECTIONS))

    def amount(self):
        return self.random.choice((0, 0, 1, 2, 7, 10, 50, self.random.randint(0, 120)))

    def call(self, name, creep, target):
        amounts = {"drop": (self.amount(),), "transfer": (target, self.amount()), "withdraw": (target, self.amount()), "move": (self.random.randint(0, 9),)}
        return (name, creep, *amounts.get(name, (target,)))

    def near(self, name, creep, around):
        """A target that may do, where there is one."""
        action = ACTIONS[name]
        fit = [one["id"] for one in around if one["kind"] in action.targets and distance(one, creep) <= action.reach and one is not creep]
        return self.random.choice(fit) if fit else None

    def calls(self, it, number):
        """Calls of a player: most of them in range, some of anything."""
        found = []
        everything = [one["id"] for one in objects_of(it)]
        for place in it["rooms"]:
            for one in place["objects"]:
                if one["kind"] != "creep" or one["owner"] != number:
                    continue
                # (much of what a creep does is dropped by repairs and builds of its own)
                names = ["harvest"] if self.chance(0.2) else self.random.sample(WORKS, self.random.choice((1, 1, 2, 3, 7)))
                targets = [(name, self.near(name, one, place["objects"])) for name in names]
                found += [self.call(name, one["id"], target) for name, target in targets if target or name == "drop"]
                found += [("move", one["id"], self.heading(place, one))] if self.chance(0.6) else []
        for _ in range(5):
            found.append(self.call(self.random.choice([*WORKS, "move"]), self.random.choice(everything), self.random.choice(everything)))
        self.random.shuffle(found)
        return found


def crossings_between(before, after, _):
    """How many creeps crossed in a tick."""
    homes = [{one["id"]: index for index, place in enumerate(it["rooms"]) for one in place["objects"]} for it in (before, after)]
    return {"crossings": sum(homes[0].get(id, home) != home for id, home in homes[1].items())}


def check_randoms():
    done = {}
    for seed in (1, 2, 3):
        draw = Draw(seed)
        count_into(done, play_drawn(checks, f"random calls of seed {seed}", draw.world(), 70, (1, 2), draw.calls, crossings_between))
    # (a drop that was recorded always does something, and a source is seldom emptied before its last creep)
    least = {(name, effect): 20 for name in (*WORKS, "move") for effect in (True, False)} | {("drop", False): 0, ("harvest", False): 1, "crossings": 100}
    note_counts(checks, "random calls of each action do something, and nothing, often enough, and creeps cross", done, least)


def main():
    check_worked()
    check_calls()
    check_full_record()
    check_randoms()
    checks.finish()


if __name__ == "__main__":
    main()
