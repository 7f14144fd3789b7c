#!/usr/bin/env python3
"""How players found colonies: claims of controllers, sites that they make and remove, and creeps that spawns make. The calls by every check that may
refuse them, and what a tick makes of those that are recorded.

It runs behind `rt ci`, which builds crates/world_server/out/world_server. First come rooms whose tick is worked out by hand, which both the program
and oracle/game.py have to meet; then tables of calls with their answers (the numbers of each level, tiles, owners, 100 sites, what the record has,
claims by the global level, bodies and what they cost), all calls with all objects and tiles, a full record, and random worlds in which all actions
are drawn and every object and every account is compared after each tick. With --model no program is run, and oracle/game.py alone is held against the
rooms and the answers that are worked out.
"""

import os
import random
import sys

TOP = os.path.dirname(os.path.dirname(os.path.abspath(__file__)))
sys.path[:0] = [os.path.join(TOP, it) for it in ("oracle", "checks/harness")]
import compared_runs  # noqa: E402
import worked_rooms  # noqa: E402
from checked_program import Checks  # noqa: E402
from drawn_runs import call_of, count_into, note_counts, play_drawn  # noqa: E402
from game import (  # noqa: E402
    ACTIONS,
    BUILDINGS,
    BUSY,
    COSTS,
    COUNTS,
    DIRECTIONS,
    DOWNGRADES,
    FULL,
    GLOBAL_LEVEL_NOT_ENOUGH,
    INVALID,
    INVALID_TARGET,
    KINDS,
    LEVEL_NOT_ENOUGH,
    LEVELS,
    NO_BODYPART,
    NOT_ENOUGH,
    NOT_FOUND,
    NOT_IN_RANGE,
    NOT_OWNER,
    OBSTRUCTING,
    OF_OWNERS,
    PARTS,
    SECOND,
    TOTALS,
    full_timer,
    live,
    thing,
)
from scripts import MOST_ENTRIES, PAGE, Body, Script, Table, compared  # noqa: E402
from worked_rooms import (  # noqa: E402
    EAST,
    FIRST_NEW,
    MIDDLE,
    NORTH,
    SOUTH,
    WEST,
    Case,
    Turn,
    check_cases,
    container,
    controller,
    creep,
    parts,
    reserved,
    room_of,
    source,
)
from worlds import Upload, grounds, objects_of, room, world  # noqa: E402

checks = Checks(__file__, "--model" not in sys.argv[1:])
CALLS = ("claim_controller", "create_site", "remove_site", "spawn_creep")
SPAWN, EXTENSION, STORAGE, CONTAINER, ROAD = (1 + KINDS.index(kind) for kind in BUILDINGS)
# (of so many points that no claim is one too many)
PLAYERS = [{"player": number, "limit": 500, "points": 10**12} for number in (1, 2, 3)]
ROUND = list(DIRECTIONS.values())

# The answers that came, by call.
CODES = {}


def came(calls):
    for name, *_, code in calls:
        CODES.setdefault(name, set()).add(code)


def check_turns(name, first, *turns, **others):
    """Ticks in which players call, each call with its answer."""
    came(call for row in turns for turn in row for call in turn.calls)
    return worked_rooms.check_turns(checks, name, first, *turns, **others)


def site(serial, x, y, number, owner=1, **fields):
    return thing("site", serial, x, y, owner=owner, extra=number, **fields)


def spawn(serial, x, y, energy=300, owner=1, **fields):
    return thing("spawn", serial, x, y, owner=owner, energy=energy, **fields)


def extension(serial, x, y, energy=0, owner=1):
    return thing("extension", serial, x, y, owner=owner, energy=energy)


def busy(serial, x, y, body, timer, **fields):
    """A spawn that makes a creep, for so many ticks more."""
    return spawn(serial, x, y, body=parts(body), timer=timer, **fields)


def walls(*tiles):
    return grounds({50 * y + x: "1" for x, y in tiles})


# ---- rooms that are worked out by hand: sites


def of_new_sites():
    for kind in BUILDINGS:
        number = 1 + KINDS.index(kind)
        yield Case(f"a site for a {kind}", [controller(1, 8, 300)], [(1, "create_site", 20, 30, number, 0)], new=[site(20, 20, 30, number)])
    pair = [creep(2, 20, 20, "move"), creep(3, 22, 20, "move", 2)]
    # (rows come before columns, and players before both)
    tiles = [(1, 30, 30), (2, 4, 4), (1, 5, 31), (1, 29, 30), (1, 48, 48), (1, 1, 1)]
    calls = [(player, "create_site", *tile, ROAD, 0) for player, *tile in tiles]
    order = [(1, 1, 1), (1, 29, 30), (1, 30, 30), (1, 5, 31), (1, 48, 48), (2, 4, 4)]
    yield Case("new ids in the order of tiles", pair, calls, new=[site(20 + place, x, y, ROAD, player) for place, (player, x, y) in enumerate(order)])
    calls = [(1, "create_site", 30, 30, CONTAINER, 0), (1, "create_site", 30, 30, ROAD, 0)]
    yield Case("of two calls for a tile the later", pair, calls, new=[site(20, 30, 30, ROAD)])
    calls = [(2, "create_site", 30, 30, ROAD, 0), (1, "create_site", 30, 30, CONTAINER, 0)]
    yield Case("a tile that two players want", pair, calls, new=[site(20, 30, 30, CONTAINER)])
    four = [*pair, *[container(4 + place, 10 + place, 30) for place in range(3)], site(9, 13, 30, CONTAINER, 3)]
    calls = [(2, "create_site", 30, 30, CONTAINER, 0), (1, "create_site", 31, 31, CONTAINER, 0)]
    yield Case("the last container, which two players want", four, calls, new=[site(20, 31, 31, CONTAINER)])
    calls = [(1, "create_site", 20, 20, ROAD, 0), (1, "create_site", 22, 20, CONTAINER, 0), (2, "create_site", 24, 20, ROAD, 0)]
    under = [*pair, thing("pile", 4, 24, 20, energy=500)]
    yield Case("sites under creeps and a pile", under, calls, {4: {"energy": 499}}, new=[site(20, 20, 20, ROAD), site(21, 22, 20, CONTAINER), site(22, 24, 20, ROAD, 2)])
    calls = [(1, "create_site", 21, 20, EXTENSION, 0), (1, "move", 2, 3, 0)]
    yield Case("who steps onto a new site", [controller(1, 8, 300), pair[0]], calls, {2: {"x": 21}}, new=[site(20, 21, 20, EXTENSION)])
    calls = [(1, "create_site", 20, 20, EXTENSION, INVALID_TARGET), (1, "move", 2, 3, 0)]
    yield Case("who steps away from where a site is wanted", [controller(1, 8, 300), pair[0]], calls, {2: {"x": 21}})


def of_sites_and_controllers():
    """New sites in the tick in which something becomes of the room's controller."""
    near = [creep(2, *WEST, "claim"), creep(3, 20, 20, "move", 2)]
    calls = [(1, "claim_controller", 2, 1, 0), (1, "create_site", 30, 30, SPAWN, LEVEL_NOT_ENOUGH)]
    calls += [(1, "create_site", 32, 32, ROAD, 0), (2, "create_site", 31, 31, ROAD, 0)]
    claimed = {1: {"owner": 1, "extra": 1, "timer": 19_999}}
    yield Case("sites as another claims the controller", [controller(), *near], calls, claimed, new=[site(20, 32, 32, ROAD)])
    calls = [(1, "reserve", 2, 1, 0), (1, "create_site", 32, 32, ROAD, 0), (2, "create_site", 31, 31, ROAD, 0)]
    yield Case("sites as another reserves it", [controller(), *near], calls, {1: {"other": 1, "other_ticks": 1}}, new=[site(20, 32, 32, ROAD)])
    rising = [controller(1, 1, 300, progress=199), creep(2, *WEST, "work carry", energy=9)]
    calls = [(1, "upgrade", 2, 1, 0), (1, "create_site", 30, 30, EXTENSION, LEVEL_NOT_ENOUGH)]
    yield Case("an extension as its level is reached", rising, calls, {1: {"extra": 2, "progress": 0, "timer": 4999}, 2: {"energy": 8}}, gains={1: 1})
    lost = {"progress": 0, "extra": 1, "timer": 10_000}
    made = [site(20, 30, 30, EXTENSION)]
    yield Case("an extension as its level is lost", [controller(1, 2, 1)], [(1, "create_site", 30, 30, EXTENSION, 0)], {1: lost}, new=made)
    lost = {"owner": 0, "extra": 0, "timer": 0}
    yield Case("a spawn as its owner is lost", [controller(1, 1, 1)], [(1, "create_site", 30, 30, SPAWN, 0)], {1: lost}, new=[site(20, 30, 30, SPAWN)])


def of_removals():
    look = creep(2, 20, 20, "work carry", energy=9)
    yield Case("a site that is removed", [look, site(3, 5, 5, STORAGE, progress=29_999)], [(1, "remove_site", 3, 0)], gone=[3])
    several = [look, creep(7, 22, 22, "move", 2), site(3, 5, 5, ROAD), site(4, 6, 5, ROAD, 2), site(5, 7, 5, SPAWN), site(6, 8, 5, ROAD, 3)]
    calls = [(1, "remove_site", 5, 0), (2, "remove_site", 4, 0), (1, "remove_site", 3, 0), (1, "remove_site", 6, NOT_OWNER), (1, "remove_site", 3, 0)]
    yield Case("sites of two players that are removed", several, calls, gone=[3, 4, 5])
    calls = [(1, "remove_site", id, NOT_FOUND) for id in (2, 9, 99)] + [(1, "remove_site", 6, NOT_OWNER)]
    yield Case("what is no site", [look, container(9, 9, 9), site(6, 8, 5, ROAD, 3)], calls)
    calls = [(1, "build", 2, 3, 0), (1, "remove_site", 3, 0)]
    done = [thing("road", 20, 21, 20, timer=999, hits=5000)]
    yield Case("a site that is finished stays", [look, site(3, 21, 20, ROAD, progress=299)], calls, {2: {"energy": 8}}, gone=[3], new=done)
    yield Case("a site that was built on", [look, site(3, 21, 20, ROAD, progress=290)], calls, {2: {"energy": 4}}, gone=[3])
    calls = [(1, "remove_site", 3, 0), (1, "create_site", 21, 20, CONTAINER, INVALID_TARGET)]
    yield Case("a new site where one is removed", [look, site(3, 21, 20, ROAD)], calls, gone=[3])
    five = [look, *[site(3 + place, 5 + place, 5, CONTAINER) for place in range(5)]]
    calls = [(1, "remove_site", 3, 0), (1, "create_site", 21, 20, CONTAINER, LEVEL_NOT_ENOUGH)]
    yield Case("a new container as one of five is removed", five, calls, gone=[3])
    # (sites are made before others are removed)
    four = [*five[:5], creep(9, 22, 22, "move", 2)]
    calls = [(1, "remove_site", 3, 0), (1, "create_site", 30, 30, CONTAINER, 0), (2, "create_site", 31, 31, CONTAINER, 0)]
    yield Case("two new containers as one of four is removed", four, calls, gone=[3], new=[site(20, 30, 30, CONTAINER)])


# ---- claims

CLAIM = [(1, "claim_controller", 2, 1, 0)]
MINE = {"owner": 1, "extra": 1, "timer": 19_999}


def of_claims():
    claimer = creep(2, *WEST, "claim heal", hits=150)
    yield Case("a controller that is claimed", [controller(), claimer], CLAIM, {1: MINE})
    yield Case("one that the player reserves", [reserved(1, 77), claimer], CLAIM, {1: {**MINE, "other": 0, "other_ticks": 0}})
    refused = [(1, "claim_controller", 2, 1, INVALID_TARGET)]
    for whose, it in (("another reserves", reserved(2, 77)), ("another owns", controller(2, 1, 9)), ("the player owns", controller(1, 3, 9, progress=5))):
        yield Case(f"a claim of one that {whose}", [it, claimer], refused)
    rivals = [controller(), claimer, creep(3, *EAST, "claim", 2), creep(4, *NORTH, "claim", 3)]
    calls = [(3, "claim_controller", 4, 1, 0), (2, "claim_controller", 3, 1, 0), *CLAIM]
    yield Case("of three players the one of the least number", rivals, calls, {1: MINE})
    yield Case("of two players the one of the lesser number", rivals, calls[:2], {1: {**MINE, "owner": 2}})
    twice = [controller(), claimer, creep(3, *EAST, "claim")]
    yield Case("two creeps of a player", twice, [*CLAIM, (1, "claim_controller", 3, 1, 0)], {1: MINE})
    yield Case("who heals claims too", [controller(), claimer], [*CLAIM, (1, "heal", 2, 2, 0)], {1: MINE, 2: {"hits": 162}})
    yield Case("who ends himself claims nothing", [controller(), claimer], [*CLAIM, (1, "suicide", 2, 0)], gone=[2])
    killed = [controller(), {**claimer, "hits": 130}, creep(3, 8, 10, "attack*5", 2)]
    yield Case("who is killed has claimed", killed, [*CLAIM, (2, "attack", 3, 2, 0)], {1: MINE}, gone=[2])


def of_what_a_claim_does():
    able = creep(2, *WEST, "claim work carry", energy=9)
    others = [(1, "upgrade", 2, 1, NOT_OWNER), (1, "reserve", 2, 1, 0)]
    yield Case("who claims can't upgrade yet, and reserves nothing", [controller(), able], [*CLAIM, *others], {1: MINE})
    attacked = [reserved(1, 77), able, creep(3, *EAST, "claim", 2)]
    after = {1: {**MINE, "timer": 19_699, "other": 0, "other_ticks": 0}}
    yield Case("an attack behind a claim", attacked, [*CLAIM, (2, "attack_controller", 3, 1, 0)], after)
    hangs = [controller(), able, source(3, 30, 30), container(4, 32, 32, timer=1), spawn(5, 34, 34, 9, 2)]
    after = {1: MINE, 3: {"timer": 300}, 4: {"hits": 245_000, "timer": 500}, 5: {"energy": 10}}
    yield Case("what hangs on a claim", hangs, CLAIM, after)
    hurt = [controller(), creep(2, *WEST, "claim move", hits=100), creep(3, *EAST, "move claim", hits=100), creep(4, 12, 10, "claim"), creep(5, *SOUTH, "claim", 2)]
    calls = [(1, "claim_controller", 2, 1, NO_BODYPART), (1, "claim_controller", 4, 1, NOT_IN_RANGE), (1, "claim_controller", 5, 1, NOT_OWNER)]
    calls += [(1, "claim_controller", 3, target, INVALID_TARGET) for target in (3, 5, 99)] + [(1, "claim_controller", 1, 1, NOT_FOUND)]
    yield Case("claims that are refused", hurt, calls)
    yield Case("a claim by the last part", hurt, [*calls, (1, "claim_controller", 3, 1, 0)], {1: MINE})


# ---- spawns

WORKER = Body("work", "carry", "move")


def begun(name, objects, body, after, calls=(), **others):
    """What a spawn of the id 2 begins."""
    return Case(name, objects, [(1, "spawn_creep", 2, Body(*body), 0), *calls], after, **others)


def making(body, **fields):
    return {"body": body, "timer": 3 * len(body) - 1, **fields}


def of_begun_creeps():
    three = ["work", "carry", "move"]
    yield begun("a creep of three parts", [spawn(2, 20, 20)], three, {2: making(three, energy=101)})
    for part in ("move", "work", "carry", "attack", "ranged_attack", "tough", "heal"):
        yield begun(f"a part of {part}", [spawn(2, 20, 20)], [part], {2: making([part], energy=301 - COSTS[part])})
    many = ["tough"] * 49 + ["claim"]
    held = [spawn(2, 20, 20, 290), *[extension(3 + place, 30 + place, 30, 200) for place in range(4)]]
    yield begun("fifty parts for all there is", held, many, {2: making(many, energy=1), **{id: {"energy": 0} for id in range(3, 7)}})
    order = ["claim", "heal", "tough", "ranged_attack", "attack", "carry", "work", "move"]
    held = [spawn(2, 20, 20), *[extension(3 + place, 30 + place, 30, 200) for place in range(5)]]
    # (of 1,300 it costs 1,290)
    left = {2: making(order, energy=1), **{id: {"energy": 0} for id in range(3, 7)}, 7: {"energy": 10}}
    yield begun("each part once", held, order, left)
    again = [(1, "spawn_creep", 2, Body("tough"), 0), (1, "spawn_creep", 2, WORKER, 0), (1, "spawn_creep", 2, Body("heal"), 0)]
    yield Case("of three calls the last", [spawn(2, 20, 20)], again, {2: making(["heal"], energy=51)})
    calls = [(1, "spawn_creep", 2, WORKER, 0), (2, "spawn_creep", 3, WORKER, 0)]
    both = {2: making(three, energy=101), 3: making(three, energy=101)}
    yield Case("spawns of two players", [spawn(2, 20, 20), spawn(3, 22, 20, owner=2)], calls, both)


def of_payers():
    """Spawns pay first, then extensions, each in rising id, and other players' don't."""
    held = [extension(2, 30, 30, 50), spawn(3, 20, 20, 120), extension(4, 31, 30, 50), spawn(5, 22, 20, 200), spawn(6, 24, 20, 300, 2), extension(7, 32, 30, 50, 2)]
    body = ["work", "work", "work", "carry"]
    # (both spawns gain 1 again)
    after = {3: {"energy": 1}, 5: making(body, energy=1), 2: {"energy": 20}}
    yield Case("spawns and then extensions", held, [(1, "spawn_creep", 5, Body(*body), 0)], after)
    yield Case("another spawn pays", held, [(1, "spawn_creep", 5, Body("move"), 0)], {3: {"energy": 70}, 5: making(["move"])})
    calls = [(1, "spawn_creep", 5, Body("work", "work", "move"), 0), (1, "spawn_creep", 3, Body("work", "work", "carry"), 0)]
    # (the lesser id begins, and for the other too little is left)
    after = {3: making(["work", "work", "carry"], energy=1), 5: {"energy": 71}}
    yield Case("two spawns, of which one is paid for", held, calls, after)
    calls = [(1, "spawn_creep", 5, Body("work"), 0), (1, "spawn_creep", 3, Body("work", "work", "carry"), 0)]
    yield Case("two spawns that are paid for", held, calls, {3: making(["work", "work", "carry"], energy=1), 5: making(["work"], energy=1), 2: {"energy": 20}})
    calls = [(1, "spawn_creep", 5, Body("work", "work"), 0), (2, "spawn_creep", 6, Body("heal", "carry"), 0)]
    after = {3: {"energy": 1}, 5: making(["work", "work"], energy=121), 6: making(["heal", "carry"], energy=1)}
    yield Case("each player pays for his own", held, calls, after)
    taker = [spawn(2, 20, 20), creep(3, 21, 20, "carry*2")]
    calls = [(1, "spawn_creep", 2, Body("heal"), 0), (1, "withdraw", 3, 2, 51, 0)]
    yield Case("what is withdrawn pays for nothing", taker, calls, {2: {"energy": 250}, 3: {"energy": 51}})
    yield Case("what is left pays", taker, [calls[0], (1, "withdraw", 3, 2, 50, 0)], {2: making(["heal"], energy=1), 3: {"energy": 50}})
    giver = [spawn(2, 20, 20, 240), creep(3, 21, 20, "carry", energy=20)]
    calls = [(1, "spawn_creep", 2, Body("heal"), NOT_ENOUGH), (1, "transfer", 3, 2, 0, 0)]
    yield Case("what is handed over comes too late for the call", giver, calls, {2: {"energy": 261}, 3: {"energy": 0}})
    calls = [(1, "spawn_creep", 2, Body("work"), 0), (1, "transfer", 3, 2, 0, 0)]
    yield Case("what is handed over pays first", giver, calls, {2: making(["work"], energy=161), 3: {"energy": 0}})
    struck = [spawn(2, 20, 20, hits=30), creep(3, 21, 20, "attack", 2)]
    calls = [(1, "spawn_creep", 2, Body("work"), 0), (2, "attack", 3, 2, 0)]
    yield Case("a spawn that is lost after it began", struck, calls, gone=[2], new=[thing("pile", 20, 20, 20, energy=199)])


# ---- hatching

# What holds a tile, and what doesn't.
HOLDING = ["wall", "creep", "source", "extension", "storage", "spawn", "controller"]
LYING = {2: "road", 3: "container", 4: "site", 5: "pile", 6: "swamp"}


def standing(what, serial, x, y):
    made = {
        "creep": creep(serial, x, y, "move", 2),
        "source": source(serial, x, y),
        "extension": extension(serial, x, y, owner=2),
        "storage": thing("storage", serial, x, y, owner=2),
        "spawn": spawn(serial, x, y, owner=2),
        "controller": thing("controller", serial, x, y),
        "road": thing("road", serial, x, y, timer=9),
        "container": container(serial, x, y),
        "site": site(serial, x, y, SPAWN, 2),
        "pile": thing("pile", serial, x, y, energy=500),
    }
    return made.get(what)


def ringed(spawn_of_2, round_it, **others):
    """A room with a spawn of the id 2 and what is round it, by the directions from 1 on."""
    x, y = spawn_of_2["x"], spawn_of_2["y"]
    tiles = {direction: (x + dx, y + dy) for direction, (dx, dy) in DIRECTIONS.items()}
    found = [standing(what, 2 + direction, *tiles[direction]) for direction, what in round_it.items()]
    ground = {"wall": "1", "swamp": "2"}
    terrain = grounds({50 * tiles[direction][1] + tiles[direction][0]: ground[what] for direction, what in round_it.items() if what in ground})
    return {"objects": [spawn_of_2, *[it for it in found if it]], "terrain": terrain, **others}


def with_more(ring, *more):
    return {**ring, "objects": [*ring["objects"], *more]}


READY = busy(2, 20, 20, "work move", 1)
EMPTY = {2: {"timer": 0, "body": []}}
HELD = {direction: "wall" for direction in DIRECTIONS}


def of_timers():
    for timer in (2, 3, 6):
        yield Case(f"a spawn with {timer} ticks", [busy(2, 20, 20, "work move", timer)], [], {2: {"timer": timer - 1}})
    yield Case("a creep that comes", [READY], [], EMPTY, new=[creep(20, 20, 19, "work move")])
    yield Case("a creep with CLAIM lives shorter", [busy(2, 20, 20, "tough move claim", 1)], [], EMPTY, new=[creep(20, 20, 19, "tough move claim")])
    yield Case("fifty parts", [busy(2, 20, 20, "carry*50", 1)], [], EMPTY, new=[creep(20, 20, 19, "carry*50")])
    yield Case("another player's", [busy(2, 20, 20, "heal", 1, owner=3)], [], EMPTY, new=[creep(20, 20, 19, "heal", 3)])
    filled = {2: {"timer": 0, "body": [], "energy": 10}}
    yield Case("a spawn gains as its creep comes", [busy(2, 20, 20, "heal", 1, energy=9)], [], filled, new=[creep(20, 20, 19, "heal")])
    yield Case("a spawn that is idle", [spawn(2, 20, 20)], [])
    yield Case("a spawn that is lost", [{**READY, "hits": 30}, creep(3, 21, 20, "attack", 2)], [(2, "attack", 3, 2, 0)], gone=[2], new=[thing("pile", 20, 20, 20, energy=299)])


def of_tiles():
    """Where a creep comes, by what stands round the spawn."""
    for direction, (dx, dy) in DIRECTIONS.items():
        others = [other for other in DIRECTIONS if other != direction]
        held = {other: HOLDING[(place + direction) % 7] for place, other in enumerate(others)}
        after = dict(EMPTY)
        if direction in LYING:
            held[direction] = LYING[direction]
            after |= {2 + direction: {"energy": 499}} if LYING[direction] == "pile" else {}
        yield Case(f"one tile is free, in direction {direction}", calls=[], after=after, new=[creep(20, 20 + dx, 20 + dy, "work move")], **ringed(READY, held))
        later = {other: "creep" for other in DIRECTIONS if other < direction}
        yield Case(f"all from direction {direction} on are free", calls=[], after=EMPTY, new=[creep(20, 20 + dx, 20 + dy, "work move")], **ringed(READY, later))
    for what in HOLDING[:-1]:
        yield Case(f"{what} on each tile", calls=[], **ringed(READY, dict.fromkeys(DIRECTIONS, what)))
    mixed = {direction: (HOLDING + ["wall"])[direction - 1] for direction in DIRECTIONS}
    yield Case("all eight are held", calls=[], **ringed(READY, mixed))
    for what in ("road", "site", "pile", "swamp"):
        after = {**EMPTY, **({2 + direction: {"energy": 499} for direction in DIRECTIONS} if what == "pile" else {})}
        yield Case(f"{what} on each tile", calls=[], after=after, new=[creep(20, 20, 19, "work move")], **ringed(READY, dict.fromkeys(DIRECTIONS, what)))


def of_borders():
    """Creeps come onto tiles at the border too, and stay there. Corners are walls."""
    sides = [(1, 20, 7), (48, 20, 3), (20, 1, 1), (20, 48, 5), (1, 20, 6), (1, 20, 8), (48, 20, 2), (48, 20, 4)]
    for x, y, direction in (*sides, (1, 1, 1), (48, 48, 5), (1, 48, 7), (48, 1, 3)):
        held, (dx, dy) = {other: "wall" for other in DIRECTIONS if other != direction}, DIRECTIONS[direction]
        ring = ringed(busy(2, x, y, "work move", 1), held)
        yield Case(f"a spawn at {x}, {y}, and direction {direction} alone", calls=[], after=EMPTY, new=[creep(20, x + dx, y + dy, "work move")], **ring)
    for x, y, direction in ((1, 1, 8), (48, 1, 2), (48, 48, 4), (1, 48, 6)):
        held = {other: "wall" for other in DIRECTIONS if other != direction}
        yield Case(f"a spawn at {x}, {y}, beside the corner alone", calls=[], **ringed(busy(2, x, y, "work move", 1), held))
    yield Case("a spawn in the corner of all free tiles", [busy(2, 1, 1, "heal", 1)], [], EMPTY, new=[creep(20, 1, 0, "heal")])


def of_hatching_in_the_tick():
    """Tiles that are freed and taken in the same tick."""
    free = ringed(READY, {**HELD, 1: "road"})
    north = creep(4, 20, 19, "move carry", 2, energy=40)
    yield Case("a tile that a creep holds", calls=[], **with_more(free, north))
    # (the weight of a load of 40 is 1, and the MOVE part takes away what it tires)
    leaves = [(2, "move", 4, 1, 0)]
    yield Case("a tile that a creep leaves", calls=leaves, after={**EMPTY, 4: {"y": 18}}, new=[creep(20, 20, 19, "work move")], **with_more(free, north))
    new = [thing("pile", 20, 20, 19, energy=39), creep(21, 20, 19, "work move")]
    yield Case("a tile on which a creep dies", calls=[], after=EMPTY, gone=[4], new=new, **with_more(free, {**north, "timer": 1}))
    yield Case("a tile on which a creep ends itself", calls=[(2, "suicide", 4, 0)], after=EMPTY, gone=[4], new=new, **with_more(free, north))
    comes, after = [(2, "move", 4, 5, 0)], {4: {"y": 19}, 3: {"timer": 6}}
    yield Case("a tile to which a creep steps", calls=comes, after=after, **with_more(free, {**north, "y": 18, "energy": 0}))
    torn = with_more(ringed(READY, HELD | {1: "swamp"}), {**extension(3, 20, 19, owner=2), "hits": 30}, creep(4, 20, 18, "attack"))
    yield Case("a tile of a building that is torn", calls=[(1, "attack", 4, 3, 0)], after=EMPTY, gone=[3], new=[creep(20, 20, 19, "work move")], **torn)
    two = [READY, busy(3, 22, 20, "heal", 1, owner=2)]
    yield Case("two come, in rising id", two[::-1], [], {**EMPTY, 3: {"timer": 0, "body": []}}, new=[creep(20, 20, 19, "work move"), creep(21, 22, 19, "heal", 2)])
    shut = walls(*{(x + dx, y + dy) for x, y in ((20, 20), (22, 20)) for dx, dy in ROUND} - {(21, 20)})
    yield Case("one tile for two", two, [], EMPTY, new=[creep(20, 21, 20, "work move")], terrain=shut)
    ends = [creep(3, 30, 30, "tough carry", 2, energy=10, hits=30), creep(4, 31, 30, "attack"), creep(5, 34, 34, "carry", energy=20, timer=1)]
    ends.append(container(6, 36, 36, hits=100, timer=1, energy=50))
    calls = [(1, "attack", 4, 3, 0), (1, "create_site", 40, 40, ROAD, 0)]
    new = [site(20, 40, 40, ROAD), thing("pile", 21, 30, 30, energy=9), thing("pile", 22, 34, 34, energy=19)]
    new += [creep(23, 20, 19, "work move"), thing("pile", 24, 36, 36, energy=49)]
    yield Case("new ids, step by step", [READY, *ends], calls, EMPTY, gone=[3, 5, 6], new=new)
    calls = [(1, "spawn_creep", 2, WORKER, BUSY), (1, "create_site", 20, 19, ROAD, 0)]
    # (sites come first)
    yield Case("a creep that comes onto a new site", [READY], calls, EMPTY, new=[site(20, 20, 19, ROAD), creep(21, 20, 19, "work move")])


def of_refusals():
    """Calls that fail two checks: the first gives the code."""
    objects = [busy(2, 20, 20, "tough*9", 27), spawn(3, 22, 20, 9, 2), spawn(4, 24, 20, 9), creep(5, 26, 20, "move")]
    calls = [("spawn_creep", 2, Body(), BUSY), ("spawn_creep", 3, Body(0), NOT_OWNER), ("spawn_creep", 5, WORKER, NOT_FOUND), ("spawn_creep", 4, Body(9), INVALID)]
    calls += [("spawn_creep", 4, Body(*["claim"] * 50, "claim"), INVALID), ("spawn_creep", 4, Body(*["claim"] * 50), NOT_ENOUGH)]
    yield Case("spawns: of two faults the first", objects, [(1, *it) for it in calls], {2: {"timer": 26}, 3: {"energy": 10}})
    again = [spawn(2, 20, 20), spawn(3, 22, 20)]
    calls = [("spawn_creep", 2, Body("work"), 0), ("spawn_creep", 2, Body(0), INVALID), ("spawn_creep", 2, Body(*["claim"] * 2), NOT_ENOUGH)]
    yield Case("a refused call leaves the entry", again, [(1, *it) for it in calls], {2: making(["work"], energy=200)})


def check_worked():
    """All of them, in four runs, so that no player has too many sites in one world."""
    runs = {
        "sites": [*of_new_sites(), *of_sites_and_controllers(), *of_removals()],
        "claims": [*of_claims(), *of_what_a_claim_does()],
        "spawns": [*of_begun_creeps(), *of_payers(), *of_refusals()],
        "hatching": [*of_timers(), *of_tiles(), *of_borders(), *of_hatching_in_the_tick()],
    }
    for name, cases in runs.items():
        came(call for case in cases for _, *call in case.calls)
        check_cases(checks, f"rooms that are worked out by hand: {name}", cases, PLAYERS)


# ---- sites: the numbers of each level, tiles, owners, and 100 in the world


def inner_tiles():
    return [(x, y) for y in range(1, 49) for x in range(1, 49) if (x, y) != MIDDLE]


def of_kind(number, serial, x, y, owner=1, **fields):
    """A building of a kind that was just built."""
    kind = KINDS[number - 1]
    owned = {"owner": owner} if kind in OF_OWNERS else {}
    return thing(kind, serial, x, y, **{**owned, "timer": full_timer(kind, []), **fields})


def counted(level, number, count):
    """A room of this level with so many of a kind: buildings, of which there are more than sites, and sites of two players."""
    tiles = inner_tiles()
    objects = [controller(1, level, 300)] if level else [creep(1, *MIDDLE, "move")]
    for place in range(count):
        owner = {1: 3, 5: 2, 7: 3, 8: 2}.get((level + place) % 40)
        objects.append(site(2 + place, *tiles[place], number, owner) if owner else of_kind(number, 2 + place, *tiles[place]))
    return objects


def check_levels():
    """Of each level and kind, one less than there may be and as many. What the record has for other tiles counts, and the same tile doesn't."""
    rooms, calls = [], []
    for level in range(9):
        for number in (SPAWN, EXTENSION, STORAGE, CONTAINER):
            most = COUNTS[KINDS[number - 1]][level]
            index = len(rooms)
            # (as many, and one more, which is left of a level that was lost)
            rooms += [room_of(index + more, *counted(level, number, most + more), next=3000) for more in range(2)]
            calls += [("create_site", index + more, 40, 40, number, LEVEL_NOT_ENOUGH) for more in range(2)]
            if most == 0:
                continue
            rooms.append(room_of(index + 2, *counted(level, number, most - 1), next=3000))
            again = [(40, 0), (41, LEVEL_NOT_ENOUGH), (40, 0), (42, LEVEL_NOT_ENOUGH)]
            calls += [("create_site", index + 2, x, 40, number, code) for x, code in again]
    # (a room of level 0 has place for no more than 2,304 roads)
    tiles, index = inner_tiles(), len(rooms)
    roads = [of_kind(ROAD, 2 + place, *tile) for place, tile in enumerate(tiles[:-1])]
    rooms.append(room_of(index, *roads, creep(1, *tiles[0], "move"), next=3000))
    calls += [("create_site", index, *tiles[-1], ROAD, 0), ("create_site", index, *MIDDLE, ROAD, 0), ("create_site", index, *tiles[0], ROAD, INVALID_TARGET)]
    check_turns("the numbers of each level", world(*rooms, players=PLAYERS), [Turn(1, *calls)], [])


def check_recorded_levels():
    """Of each level and kind as many as there may be in one tick, and then one more."""
    for level in range(9):
        calls, tiles = [], iter(inner_tiles())
        for number in (CONTAINER, SPAWN, STORAGE, EXTENSION):
            calls += [("create_site", 0, *next(tiles), number, 0) for _ in range(COUNTS[KINDS[number - 1]][level])]
            calls.append(("create_site", 0, *next(tiles), number, LEVEL_NOT_ENOUGH))
        first = world(room_of(0, creep(1, 40, 40, "move"), controller(min(level, 1), level, 300 * min(level, 1), 2), next=50), players=PLAYERS)
        check_turns(f"a record of all that level {level} allows", first, [Turn(1, *calls)], [Turn(1, *[call for call in calls if call[-1]])], [])


# What may stand on the tile of a site, with the answer for a kind that lets no creep by, and for another.
ON_IT = {
    "nothing": (0, 0),
    "wall": (INVALID_TARGET, INVALID_TARGET),
    "swamp": (0, 0),
    "creep": (INVALID_TARGET, 0),
    "pile": (0, 0),
    **{what: (INVALID_TARGET, INVALID_TARGET) for what in ("source", *BUILDINGS, "site")},
}
BORDERS = [(0, 20), (49, 20), (20, 0), (20, 49), (0, 0), (-1, 20), (20, -1), (50, 20), (20, 50), (1 << 31, 20), (20, (1 << 31) - 1), (2520, 20), (20, 1 << 31)]
NO_KINDS = (0, 1, 2, 3, 9, 10, 11, 14, 255, 260, -1, -4, 1 << 31, (1 << 31) + 8)


def check_tiles():
    """Each kind on each sort of tile, in a room of its own."""
    rooms, calls = [], []
    for number in range(SPAWN, ROAD + 1):
        for what, (hard, soft) in ON_IT.items():
            # (another's, so that there may be one of the player's too; of a storage there is only one)
            index, at = len(rooms), standing(what, 5, 30, 30)
            if what == "site" or KINDS[number - 1] == what:
                at = site(5, 30, 30, ROAD if number != ROAD else CONTAINER, 2)
            objects = [controller(1, 8, 300), *([at] if at else [])]
            ground = {"wall": "1", "swamp": "2"}.get(what, "0")
            rooms.append(room_of(index, *objects, terrain=grounds({50 * 30 + 30: ground})))
            calls.append(("create_site", index, 30, 30, number, hard if KINDS[number - 1] in OBSTRUCTING else soft))
            calls.append(("create_site", index, *MIDDLE, number, INVALID_TARGET if calls[-1][-1] or number != STORAGE else LEVEL_NOT_ENOUGH))
    own = len(rooms)
    rooms.append(room_of(own, controller(1, 8, 300)))
    calls += [("create_site", own, *tile, ROAD, INVALID) for tile in BORDERS]
    calls += [("create_site", own, *tile, ROAD, 0) for tile in ((1, 1), (1, 48), (48, 1), (48, 48))]
    calls += [("create_site", own, 20, 20, kind, INVALID) for kind in NO_KINDS]
    # (a room that isn't seen, and numbers of none)
    rooms.append(room_of(own + 1, controller(2, 8, 300), site(2, 30, 30, ROAD)))
    calls += [("create_site", index, 20, 20, ROAD, NOT_FOUND) for index in (own + 1, own + 2, -1, 1 << 31, (1 << 31) - 1)]
    calls += [("create_site", own + 1, 0, 99, 99, NOT_FOUND), ("create_site", own, 0, 20, 99, INVALID)]
    check_turns("each sort of tile", world(*rooms, players=PLAYERS), [Turn(1, *calls)], [])


def check_rooms():
    """Each kind in a room of each sort of controller. Behind the first fault no other is looked for."""
    look = creep(2, *WEST, "move")
    free = [(kind, LEVEL_NOT_ENOUGH if kind in OF_OWNERS else 0) for kind in BUILDINGS]
    others = [(kind, NOT_OWNER) for kind in BUILDINGS]
    sorts = [
        ([controller(1, 8, 300)], [(kind, 0) for kind in BUILDINGS]),
        ([controller(1, 4, 300)], [(kind, 0) for kind in BUILDINGS]),
        ([controller(1, 2, 300)], [(kind, LEVEL_NOT_ENOUGH if kind == "storage" else 0) for kind in BUILDINGS]),
        ([controller(1, 1, 300)], [(kind, LEVEL_NOT_ENOUGH if kind in ("extension", "storage") else 0) for kind in BUILDINGS]),
        ([controller()], free),
        ([reserved(1, 9)], free),
        ([], free),
        ([reserved(2, 9)], others),
        ([controller(2, 1, 300)], others),
        ([controller(2, 8, 300)], others),
    ]
    rooms, calls = [], []
    for index, (objects, answers) in enumerate(sorts):
        rooms.append(room_of(index, *objects, look))
        for place, (kind, code) in enumerate(answers):
            number = 1 + KINDS.index(kind)
            # (a tile at the border, one that holds a creep, and one that is free)
            calls.append(("create_site", index, 0, 20, number, INVALID))
            calls.append(("create_site", index, *WEST, number, code or (INVALID_TARGET if kind in OBSTRUCTING else 0)))
            calls.append(("create_site", index, 20 + place, 20, number, code))
    check_turns("each sort of room", world(*rooms, players=PLAYERS), [Turn(1, *calls)], [])


def check_hundred():
    """100 sites of a player in the world, of which he doesn't see some. One that is wanted for the same tile again doesn't count twice."""

    def first_of(count):
        homes = [[] for _ in range(4)]
        for place in range(count):
            homes[place % 4].append(site(5 + place, 1 + place % 40, 1 + place // 40, ROAD))
        # (each has another's sites too, which don't count for him)
        homes = [[*home, *[site(200 + place, 1 + place, 30, ROAD, 2) for place in range(25)]] for home in homes]
        homes[0] += [creep(1, 30, 30, "move"), creep(2, 40, 40, "move", 2)]
        homes[1] += [controller(1, 8, 300)]
        return world(*[room_of(index, *home, next=500) for index, home in enumerate(homes)], players=PLAYERS)

    road, other = ("create_site", 0, 20, 20, ROAD), ("create_site", 1, 21, 21, SPAWN)
    last = [(*road, 0), (*other, FULL), (*road, 0), ("create_site", 0, 20, 20, CONTAINER, 0), ("create_site", 0, 30, 30, ROAD, FULL), ("remove_site", 5, 0), (*other, FULL)]
    last += [("create_site", 1, *MIDDLE, ROAD, INVALID_TARGET), ("create_site", 2, 20, 20, ROAD, NOT_FOUND)]
    theirs = Turn(2, ("create_site", 0, 31, 31, ROAD, FULL))
    check_turns("99 sites in the world and one more", first_of(99), [Turn(1, *last), theirs], [Turn(1, (*other, 0), ("create_site", 1, 22, 22, ROAD, FULL))], [])
    full_turn = Turn(1, (*road, FULL), (*other, FULL), ("remove_site", 5, 0), ("remove_site", SECOND + 6, 0), (*road, FULL))
    check_turns("100 sites in the world", first_of(100), [full_turn], [Turn(1, (*road, 0), (*other, 0), ("create_site", 1, 22, 22, ROAD, FULL))], [])
    many = [("create_site", 1, 1 + place % 40, 30 + place // 40, ROAD, 0 if place < 98 else FULL) for place in range(25, 125)]
    check_turns("100 sites in one tick", first_of(27), [Turn(1, *many)], [Turn(1, (*road, FULL))], [])


def check_recorded():
    """What the record has for other tiles counts with the kind and the room for which it stands last."""
    a, b, c, d = (20, 20), (21, 20), (22, 20), (23, 20)
    # (of five containers three are there)
    objects = [creep(1, 30, 30, "move"), container(2, 5, 5), container(3, 6, 5), site(4, 7, 5, CONTAINER, 2), site(5, 8, 5, ROAD), thing("road", 6, 9, 5, timer=9)]
    rooms = [room_of(index, *objects, next=50) for index in range(2)]
    calls = [(0, a, CONTAINER, 0), (0, b, CONTAINER, 0), (0, c, CONTAINER, LEVEL_NOT_ENOUGH), (0, b, CONTAINER, 0), (0, a, CONTAINER, 0)]
    calls += [(0, c, ROAD, 0), (1, c, CONTAINER, 0)]
    calls += [(0, a, ROAD, 0), (0, c, CONTAINER, 0), (0, a, CONTAINER, LEVEL_NOT_ENOUGH), (0, d, CONTAINER, LEVEL_NOT_ENOUGH), (0, d, ROAD, 0)]
    calls += [(1, a, CONTAINER, 0), (1, b, CONTAINER, LEVEL_NOT_ENOUGH), (1, b, ROAD, 0), (0, b, SPAWN, LEVEL_NOT_ENOUGH), (0, c, 9, INVALID)]
    turn = Turn(1, *[("create_site", index, *tile, kind, code) for index, tile, kind, code in calls])
    steps = check_turns("what is recorded for other tiles", world(*rooms, players=PLAYERS), [turn], [])
    got = {(one["id"] // SECOND, one["x"], one["extra"]) for one in objects_of(steps[0].world) if one["kind"] == "site" and one["y"] == 20}
    wanted = {(0, 20, ROAD), (0, 21, CONTAINER), (0, 22, CONTAINER), (0, 23, ROAD), (1, 20, CONTAINER), (1, 21, ROAD), (1, 22, CONTAINER)}
    checks.note("the sites of the last calls", [] if got == wanted else [f"{sorted(got)} and not {sorted(wanted)}"])
    own = [controller(1, 7, 300), spawn(2, 5, 5), site(3, 30, 30, EXTENSION)]
    calls = [(a, SPAWN, 0), (b, SPAWN, LEVEL_NOT_ENOUGH), (a, EXTENSION, 0), (b, SPAWN, 0), (a, SPAWN, LEVEL_NOT_ENOUGH)]
    calls += [(b, STORAGE, 0), (a, SPAWN, 0), (c, STORAGE, LEVEL_NOT_ENOUGH)]
    turn = Turn(1, *[("create_site", 0, *tile, kind, code) for tile, kind, code in calls])
    check_turns("what is recorded of other kinds", world(room_of(0, *own), players=PLAYERS), [turn], [])


def check_removals():
    look, theirs = creep(1, 30, 30, "move"), creep(2, 31, 31, "move", 2)
    home = [look, theirs, site(3, 5, 5, ROAD), site(4, 6, 5, ROAD, 2), container(5, 7, 5), site(6, 8, 5, SPAWN), thing("pile", 7, 9, 9, energy=9)]
    hidden = [site(3, 5, 5, ROAD), creep(4, 9, 9, "move", 2)]
    ids = [1, 2, 5, 7, 9, 0, -1, 1 << 53, SECOND + 3, SECOND + 4, 1 - (1 << 63)]
    calls = [("remove_site", id, NOT_FOUND) for id in ids] + [("remove_site", 4, NOT_OWNER), ("remove_site", 3, 0), ("remove_site", 3, 0)]
    gone = [("remove_site", 3, NOT_FOUND), ("find", 6, 3), ("remove_site", 6, 0)]
    other = Turn(2, ("remove_site", 3, NOT_OWNER), ("remove_site", SECOND + 3, NOT_OWNER), ("remove_site", 4, 0))
    first = world(room_of(0, *home), room_of(1, *hidden), players=PLAYERS)
    check_turns("sites that are removed, and what is none", first, [Turn(1, *calls), other], [Turn(1, *gone)], [])


# ---- claims, by the global level


SHORT = GLOBAL_LEVEL_NOT_ENOUGH
BEGINNERS = [{"player": number, "limit": 500, "points": 0} for number in (1, 2)]


def claim(index, serial, code):
    """A claim of a room's controller by a creep."""
    return ("claim_controller", index * SECOND + serial, index * SECOND + 1, code)


def frontier(points, owned, free):
    """Rooms with controllers that the player owns, and with some that nobody does, beside which his creeps stand."""
    rooms = [room_of(index, controller(1, 1, 300)) for index in range(owned)]
    rooms += [room_of(owned + place, controller(), creep(2, *WEST, "claim"), creep(3, *EAST, "claim")) for place in range(free)]
    return world(*rooms, players=[{"player": 1, "limit": 500, "points": points}])


def check_claims():
    """Claims of a player by his points, and by how many controllers he owns."""
    # (of one player two claimers beside free controllers in two rooms)
    turn = Turn(1, claim(0, 2, 0), claim(1, 2, SHORT))
    after = {1: {"owner": 1, "extra": 1, "timer": 19_998}, SECOND + 1: {"owner": 0, "extra": 0, "timer": 0}}
    check_turns("two claimers of one player", frontier(0, 0, 2), [turn], [Turn(1, claim(1, 2, SHORT), claim(0, 2, INVALID_TARGET))], fields=after)
    turn = Turn(1, claim(0, 2, 0), claim(0, 2, 0), claim(0, 3, SHORT), claim(1, 3, SHORT), claim(0, 2, 0))
    check_turns("the same claimer again, and another at the same controller", frontier(999_999, 0, 2), [turn], [])
    rows = [(0, 0, 1), (0, 1, 0), (999_999, 1, 0), (1_000_000, 1, 1), (1_000_000, 0, 2), (1_000_000, 2, 0), (3_999_999, 1, 1), (3_999_999, 2, 0)]
    rows += [(4_000_000, 1, 2), (4_000_000, 0, 3), (9_000_000, 3, 1), (8_999_999, 3, 0), (100_000_000, 5, 4)]
    for points, owned, able in rows:
        turn = Turn(1, *[claim(owned + place, 2, 0 if place < able else SHORT) for place in range(4)])
        # (the last is his, or one too many still)
        then = Turn(1, claim(owned + 3, 2, SHORT if able < 4 else INVALID_TARGET))
        check_turns(f"claims with {points} points and {owned} controllers, of which {able} are left", frontier(points, owned, 4), [turn], [then], [])
    # (one who loses his controller may claim again in the next tick)
    rooms = [room_of(0, controller(1, 1, 1)), room_of(1, controller(), creep(2, *WEST, "claim"))]
    again = [[Turn(1, claim(1, 2, SHORT))], [Turn(1, claim(1, 2, 0))], []]
    check_turns("a claim after a controller was lost", world(*rooms, players=BEGINNERS), *again, fields={SECOND + 1: {"owner": 1, "timer": 19_998}})


def check_claims_of_others():
    """Claims that fail two checks, of which the first gives the code, and what of another player's counts for nobody else."""
    rooms = [room_of(0, controller(1, 1, 300), creep(2, *WEST, "claim")), room_of(1, reserved(2, 9), creep(2, *WEST, "claim"), creep(3, 30, 30, "claim"))]
    rooms += [room_of(2, reserved(1, 9), creep(2, *WEST, "claim"), creep(3, *EAST, "work")), room_of(3, controller(2, 1, 9), creep(2, *WEST, "claim", 2))]
    calls = [claim(0, 2, INVALID_TARGET), claim(1, 2, INVALID_TARGET), claim(1, 3, NOT_IN_RANGE)]
    calls += [claim(2, 2, SHORT), claim(2, 3, NO_BODYPART), claim(3, 2, NOT_FOUND)]
    theirs = Turn(2, claim(3, 2, INVALID_TARGET), claim(2, 2, NOT_FOUND))
    check_turns("claims that fail two checks", world(*rooms, players=BEGINNERS), [Turn(1, *calls), theirs], [])
    # (what a player reserves doesn't count either)
    look = creep(2, 30, 30, "move")
    rooms = [room_of(0, controller(2, 8, 300), look), room_of(1, reserved(1, 9), look)]
    rooms += [room_of(index, controller(), creep(2, *WEST, "claim"), creep(3, *EAST, "claim", 2)) for index in (2, 3)]
    turns = [Turn(1, claim(2, 2, 0), claim(3, 2, SHORT)), Turn(2, claim(2, 3, SHORT), claim(3, 3, SHORT))]
    check_turns("controllers that others own", world(*rooms, players=BEGINNERS), turns, [])
    rooms[0] = room_of(0, look)
    turns = [turns[0], Turn(2, claim(2, 3, 0), claim(3, 3, SHORT))]
    check_turns("claims of two players", world(*rooms, players=BEGINNERS), turns, [])


# ---- spawns: bodies, costs and actors


def rich(energy=300, *more):
    """A room with an idle spawn and 40 full extensions."""
    extensions = [extension(100 + place, 1 + place, 40, 200) for place in range(40)]
    return world(room_of(0, controller(1, 8, 300), spawn(2, 20, 20, energy), *extensions, *more, next=200), players=PLAYERS)


def check_bodies():
    """Bodies of each length, of each part and of what is none, and spans of all sorts."""
    bodies = [(Body(), INVALID), *[(Body(part), 0) for part in PARTS], (Body(*PARTS), 0), (Body(*["tough"] * 50), 0), (Body(*["tough"] * 51), INVALID)]
    bodies += [(Body(*["tough"] * 49), 0), (Body(*["tough"] * 255), INVALID)]
    bodies += [(Body(*["claim"] * 50), NOT_ENOUGH), (Body(*["claim"] * 13), 0), (Body(*["claim"] * 14), NOT_ENOUGH)]
    bodies += [(Body(wrong), INVALID) for wrong in (0, 9, 10, 128, 129, 255)]
    for wrong in (0, 9, 255):
        bodies += [(Body("move", wrong), INVALID), (Body(wrong, "move"), INVALID), (Body(*["tough"] * 49, wrong), INVALID), (Body("move", wrong, "move"), INVALID)]
    bodies.append((Body("carry", "move"), 0))
    check_turns("bodies of all sorts", rich(), [Turn(1, *[("spawn_creep", 2, body, code) for body, code in bodies])], [])
    # (fifty parts at the end of the memory, before which there is one more, and a byte that is no part before that)
    data = (PAGE - 52, b"\0" + b"\6" * 51)
    spans = [(PAGE - 50, 50, 0), (PAGE - 51, 50, 0), (PAGE - 51, 51, INVALID), (PAGE - 52, 50, INVALID), (PAGE - 49, 50, INVALID), (PAGE - 1, 1, 0), (PAGE - 1, 2, INVALID)]
    spans += [(PAGE, 0, INVALID), (PAGE, 1, INVALID), (0, 0, INVALID), (-1, 0, INVALID), (-1, 1, INVALID), (-1, 2, INVALID), (-50, 50, INVALID), (-20, 10, INVALID), (1 << 31, 1, INVALID)]
    spans += [(PAGE - 50, -1, INVALID), (PAGE - 50, 1 << 31, INVALID), (PAGE - 50, SECOND - 50, INVALID), (PAGE - 20, 20, 0)]
    steps = check_turns("spans of all sorts", rich(), [Turn(1, *[("spawn_creep", 2, *span) for span in spans], data=data)], [])
    got = next(len(one["body"]) for one in objects_of(steps[0].world) if one["kind"] == "spawn")
    checks.note("the last span is the body", [] if got == 20 else [f"{got} parts"])


def check_memories():
    """Modules without a memory, with one of no pages, and with one that grows."""
    none = [("spawn_creep", 2, 0, 0), ("spawn_creep", 2, 0, 1), ("spawn_creep", 2, 1, 0)]
    refused = [instruction for call in none for instruction in compared(INVALID, *call)]
    busy_first = compared(NOT_FOUND, "spawn_creep", 3, 0, 0)
    uploads = [Upload(0, 1, Script([*busy_first, *refused], pages=None)), Upload(1, 1, Script([*busy_first, *refused], pages=0))]
    written = [("i32", PAGE), ("i64", 0x0108060504030201), ("store",)]
    grown = [*compared(INVALID, "spawn_creep", 2, PAGE, 8), ("i32", 1), ("grow",), ("drop",), *compared(INVALID, "spawn_creep", 2, PAGE, 8), *written]
    grown += [*compared(0, "spawn_creep", 2, PAGE, 8), *compared(INVALID, "spawn_creep", 2, 2 * PAGE - 7, 8)]
    uploads.append(Upload(2, 1, Script(grown)))
    steps = compared_runs.play(checks, "memories of all sorts", rich(), 4, uploads)
    ended = [step.runs[0].outcome for step in steps]
    checks.note("what modules answer of bodies", [] if ended == ["finished"] * 3 + ["trapped"] else [f"{ended}"])
    line = "start tick 0 rooms 1 objects 1 players 1"
    said = [line, "upload player 1 accepted", "player 1 finished 11", "tick 1 objects 1 intents 1 energy 101", "player 1 finished 11", "tick 2 objects 1 intents 0 energy 102"]
    first = world(room_of(0, spawn(2, 20, 20)), players=[{"player": 1, "limit": 20}])
    call = ("spawn_creep", 2, WORKER)
    compared_runs.play(checks, "the lines of a spawn", first, 2, [Upload(0, 1, Table([call]))], said)


def check_costs():
    """Each part for what there is, and for one less."""
    rooms, calls = [], []
    bodies = [[part] for part in PARTS] + [["work", "carry", "move"], ["tough"] * 50, PARTS]
    for body in bodies:
        cost = sum(COSTS[part] for part in body)
        for held, code in ((cost, 0), (cost - 1, NOT_ENOUGH)):
            # (what is above a spawn's 300 is in extensions, and what others have and what a storage has doesn't count)
            of_spawn, rest, index = min(held, 300), max(0, held - 300), len(rooms)
            objects = [spawn(2, 20, 20, of_spawn), spawn(3, 22, 20, 300, 2), extension(4, 24, 20, 200, 2)]
            objects += [thing("storage", 5, 26, 20, owner=1, energy=900), container(6, 28, 20, energy=900)]
            objects += [extension(7 + place, 30 + place, 20, min(200, rest - 200 * place)) for place in range(-(-rest // 200))]
            rooms.append(room_of(index, *objects))
            calls.append(("spawn_creep", index * SECOND + 2, Body(*body), code))
    check_turns("what bodies cost", world(*rooms, players=PLAYERS), [Turn(1, *calls)], [])


def check_actors():
    """What is no spawn, another's, and one that is busy."""
    more = [busy(3, 22, 20, "move", 3), busy(4, 24, 20, "move", 1), spawn(5, 26, 20, 300, 2), creep(6, 28, 20, "move"), site(7, 30, 20, SPAWN), container(8, 32, 20)]
    first = rich(300, *more)
    first["rooms"].append(room_of(1, spawn(2, 20, 20, 300, 2)))
    calls = [("spawn_creep", id, WORKER, NOT_FOUND) for id in (1, 6, 7, 8, 100, 9, 0, -1, 1 << 53, SECOND + 2, SECOND + 1, 1 - (1 << 63))]
    calls += [("spawn_creep", 5, WORKER, NOT_OWNER), ("spawn_creep", 3, WORKER, BUSY), ("spawn_creep", 4, WORKER, BUSY), ("spawn_creep", 2, WORKER, 0)]
    theirs = Turn(2, ("spawn_creep", 5, WORKER, 0), ("spawn_creep", SECOND + 2, WORKER, 0), ("spawn_creep", 2, WORKER, NOT_OWNER))
    check_turns("spawns of all sorts", first, [Turn(1, *calls), theirs], [])
    # (a creep of one part comes in the third tick, and acts from the fourth on; the spawn begins again as soon as it has come)
    one = world(room_of(0, spawn(2, 20, 20)), players=PLAYERS)
    part = Body("move")
    ticks = [[Turn(1, ("spawn_creep", 2, part, code), ("find", 20, NOT_FOUND), ("get", 0, 10, timer))] for code, timer in ((0, 0), (BUSY, 2), (BUSY, 1))]
    fields = {0: 20, 1: 3, 3: 20, 4: 19, 5: 1, 6: 100, 7: 100, 8: 0, 10: 1500, 11: 0, 14: 0, 15: 1, 100: 1100}
    looks = [("get", 1, field, value) for field, value in fields.items()]
    ticks.append([Turn(1, ("find", 20, 1), ("spawn_creep", 2, part, 0), *looks, ("move", 20, 1, 0))])
    check_turns("the life of a creep from its spawn on", one, *ticks, [], fields={20: {"y": 17, "timer": 1498}, 2: {"timer": 1}})


# ---- every reason, all calls, and a full record


def check_codes():
    """Each answer that a call may give came."""
    wanted = {
        "claim_controller": {0, NOT_FOUND, NOT_OWNER, NO_BODYPART, INVALID_TARGET, NOT_IN_RANGE, GLOBAL_LEVEL_NOT_ENOUGH, FULL},
        "create_site": {0, NOT_FOUND, INVALID, NOT_OWNER, LEVEL_NOT_ENOUGH, INVALID_TARGET, FULL},
        "remove_site": {0, NOT_FOUND, NOT_OWNER, FULL},
        "spawn_creep": {0, NOT_FOUND, NOT_OWNER, BUSY, INVALID, NOT_ENOUGH, FULL},
    }
    for name in CALLS:
        got = CODES.get(name, set())
        checks.note(f"each answer of {name} came", [] if got == wanted[name] else [f"{sorted(got)} and not {sorted(wanted[name])}"])


def crowd():
    """Rooms with controllers of all sorts, and things of three players close together."""
    able = "work carry claim move"
    owners = [controller(owner, level, 900) for owner, level in ((1, 1), (1, 8), (2, 1), (2, 7), (3, 4))]
    owners += [controller(), reserved(1, 9), reserved(2, 5000)]
    near = [creep(2, *WEST, able, energy=20), creep(3, *EAST, able, 2, energy=20), creep(4, 13, 13, able), creep(5, *NORTH, able, 2), creep(6, *SOUTH, able, 3)]
    near += [creep(7, 9, 9, "work carry"), creep(8, 11, 9, "claim"), creep(9, 7, 10, "claim*2", 2), creep(10, 9, 11, able, hits=100)]
    near += [source(13, 8, 8), spawn(14, 12, 8), spawn(15, 12, 7, 99, 2), busy(16, 13, 7, able, 2), busy(17, 13, 8, "heal", 1, owner=2)]
    near += [extension(18, 8, 12, 50), extension(19, 8, 13, 50, 2), container(20, 11, 12), thing("road", 21, 12, 12, timer=9), creep(22, 12, 12, "move", 3)]
    near += [site(23, 13, 10, ROAD), site(24, 13, 11, SPAWN, 2), site(25, 14, 11, STORAGE, 3), thing("pile", 26, 14, 14, energy=40), thing("storage", 27, 14, 8, owner=1)]
    rooms = [[it, *near] for it in owners]
    rooms.append([one for one in near if one["kind"] in ("creep", "site")])
    # (one that player 1 doesn't see)
    rooms.append([one for one in [owners[3], *near] if one.get("owner") != 1])
    terrain = walls((7, 7), (14, 13), (10, 12))
    players = [{"player": number, "limit": 500, "points": points} for number, points in ((1, 4_000_000), (2, 0), (3, 10**12))]
    return world(*[room_of(index, *objects, next=90, terrain=terrain) for index, objects in enumerate(rooms)], players=players)


def check_calls():
    """Every call with each object of its room, each tile near the controller, and some others, in an order that is drawn."""
    first = crowd()
    strangers = [0, -1, 1 << 53, 89, SECOND * 99 + 1, 1 - (1 << 63), 1, SECOND + 23, SECOND + 14]
    bodies = [WORKER, Body("move"), Body(*["tough"] * 20), Body(), Body("claim"), Body(3, 9), Body(*["move"] * 51)]
    calls = []
    for index, place in enumerate(first["rooms"]):
        ids = [one["id"] for one in place["objects"]]
        creeps = [one["id"] for one in place["objects"] if one["kind"] == "creep"]
        calls += [("claim_controller", id, target) for id in (*creeps, ids[-1]) for target in (*ids, *strangers[:4])]
        calls += [("remove_site", id) for id in ids] + [("spawn_creep", id, body) for id in ids for body in bodies]
        tiles = [(x, y) for x in range(6, 16, 2) for y in range(7, 15)] + [(0, 9), (9, 49), (1, 1), (48, 48), (50, 3)]
        calls += [("create_site", index, x, y, kind) for x, y in tiles for kind in range(3, 10)]
    calls += [(name, id, *more) for id in strangers for name, *more in (("claim_controller", 1), ("remove_site",), ("spawn_creep", WORKER))]
    calls += [("create_site", index, 20, 20, ROAD) for index in (-1, 10, 99, 1 << 31)]
    random.Random(5).shuffle(calls)
    tables = [Table(calls[at : at + 4000]) for at in range(0, len(calls), 4000)]
    uploads = [Upload(tick, number, table) for tick, table in enumerate(tables) for number in (1, 2, 3)]
    compared_runs.play(checks, "every call with each object and tile", first, len(tables), uploads)


def check_full_record():
    """4,096 entries with one of each call among them, then more of each, and those again."""
    tiles = inner_tiles()[:2050]
    rooms = [room_of(index, *[creep(1 + place, *tile, "move") for place, tile in enumerate(tiles)], next=3000) for index in range(2)]
    home = [controller(), creep(2, *WEST, "claim"), creep(3, *EAST, "claim"), creep(4, 30, 30, "claim"), site(5, 30, 20, ROAD), site(6, 31, 20, ROAD)]
    home += [spawn(7, 20, 20), spawn(8, 22, 20)]
    rooms.append(room_of(2, *home))
    at = 2 * SECOND
    first = [("claim_controller", at + 2, at + 1), ("create_site", 2, 40, 40, ROAD), ("remove_site", at + 5), ("spawn_creep", at + 7, WORKER)]
    more = [("claim_controller", at + 3, at + 1), ("create_site", 2, 41, 40, ROAD), ("remove_site", at + 6), ("spawn_creep", at + 8, WORKER)]
    again = [first[0], ("create_site", 2, 40, 40, CONTAINER), first[2], ("spawn_creep", at + 7, Body("heal"))]
    # (what is wrong besides is said first)
    wrong = [("claim_controller", at + 4, at + 1, NOT_IN_RANGE), ("create_site", 2, 42, 40, SPAWN, LEVEL_NOT_ENOUGH), ("create_site", 2, 30, 20, ROAD, INVALID_TARGET)]
    wrong += [("remove_site", at + 8, NOT_FOUND), ("spawn_creep", at + 8, Body(0), INVALID), ("spawn_creep", at + 8, Body("claim", "tough"), NOT_ENOUGH)]
    filling = [("suicide", index * SECOND + 1 + place) for index in range(2) for place in range(2050)][: MOST_ENTRIES - len(first)]
    calls = [*[(*call, 0) for call in (*first, *filling)], *[(*call, FULL) for call in more], *[(*call, 0) for call in again], *[(*call, FULL) for call in more], *wrong]
    steps = check_turns("a full record and each call", world(*rooms, players=PLAYERS), [Turn(1, *calls)])
    left = {one["id"] - at: one for one in steps[0].world["rooms"][2]["objects"]}
    got = (left[1]["owner"], 5 in left, 6 in left, left[7]["body"], left[8]["body"], left[20]["extra"], len(objects_of(steps[0].world)))
    wanted = (1, False, True, ["heal"], [], CONTAINER, 8 + 2 * 2050 - len(filling))
    checks.note("what the entries of a full record did", [] if got == wanted else [f"{got} and not {wanted}"])


# ---- random worlds of colonies


class Draw:
    """Random worlds of rooms in which things of players stand close together, and random calls of all actions in them."""

    def __init__(self, seed, players=(1, 2, 3)):
        self.random, self.players = random.Random(seed), players

    def chance(self, share):
        return self.random.random() < share

    def some(self, *values):
        return self.random.choice(values)

    def body(self):
        kinds = self.some(["work", "carry"], ["work", "carry", "move"], PARTS, PARTS, ["claim", "move"])
        return [self.random.choice(kinds) for _ in range(self.some(1, 1, 2, 3, 6))]

    def controller(self, serial, tile, home):
        level = self.some(0, 0, 0, 0, 0, 1, 2, 3, 4, 5, 6, 7, 8, 8)
        if level == 0:
            ticks = self.random.randint(1, 30) if self.chance(0.4) else 0
            return thing("controller", serial, *tile, other=home if ticks else 0, other_ticks=ticks)
        timer = self.some(1, self.random.randint(1, 9), self.random.randint(1, 700), DOWNGRADES[level] - self.random.randint(0, 300))
        below = self.some(1, self.random.randint(1, 30), LEVELS[level]) if LEVELS[level] else 0
        return thing("controller", serial, *tile, owner=home, extra=level, timer=timer, progress=LEVELS[level] - below)

    def building(self, serial, tile, number, owner):
        """Hurt or whole, with energy where it holds some. Two of three spawns are about to make a creep."""
        one = of_kind(number, serial, *tile, owner)
        most = {SPAWN: 300, EXTENSION: 50, STORAGE: 9000, CONTAINER: 2000, ROAD: 0}[number]
        more = {"energy": self.some(most, self.random.randint(0, most)), "hits": self.some(100, 5000) if number == ROAD else self.some(30, 900, 1000)}
        if one["timer"]:
            more["timer"] = self.random.randint(1, 12)
        if number == SPAWN and self.chance(0.67):
            body = self.body()
            more |= {"body": body, "timer": self.some(1, 1, self.random.randint(1, 3 * len(body)))}
        return {**one, **more}

    def site(self, serial, tile, owner):
        number = self.random.randint(SPAWN, ROAD)
        total = TOTALS[KINDS[number - 1]]
        return site(serial, *tile, number, owner, progress=self.some(0, total - 1, total - self.random.randint(1, 20)))

    def creep(self, serial, tile, owner, *more):
        body = [*self.body(), *more, *self.body()]
        one = creep(serial, *tile, " ".join(body), owner, hits=self.some(100 * len(body), self.random.randint(1, 100 * len(body))))
        most = 50 * live(one, "carry")
        return {**one, "timer": self.some(self.random.randint(1, 9), 600, 600), "energy": self.some(most, self.random.randint(0, most))}

    def ground(self, around, beside):
        """Walls and swamp among these tiles; all round some spawns there are walls but for a tile or none."""
        walls_there = set(self.random.sample(around, 6))
        if self.chance(0.4):
            walls_there |= set(self.random.sample(beside, self.some(7, 8, 8)))
        swamp = set(self.random.sample(around, 6)) - walls_there
        return walls_there, grounds({**{50 * y + x: "2" for x, y in swamp}, **{50 * y + x: "1" for x, y in walls_there}})

    def fixed(self, tiles, serials, home):
        """What stands in a room for good, but for its first spawn."""
        whose = [home, home, *self.players]
        numbers = [SPAWN] * self.some(0, 1, 1) + [EXTENSION] * self.random.randrange(4) + [STORAGE] * self.some(0, 1) + [CONTAINER] * self.random.randrange(1, 4) + [ROAD] * 4
        found = [self.controller(serials.pop(), tiles.pop(), home)] if self.chance(0.85) else []
        found += [source(serials.pop(), *tiles.pop(), energy=self.random.randint(0, 3000), timer=self.some(0, 1, 40)) for _ in range(2)]
        found += [self.building(serials.pop(), tiles.pop(), number, self.random.choice(whose)) for number in numbers]
        return found + [self.site(serials.pop(), tiles.pop(), self.random.choice(whose)) for _ in range(self.random.randrange(2, 6))]

    def creeps(self, tiles, serials, home, at):
        """16 creeps, of which some stand beside the controller, and can mostly claim it."""
        owners, tiles = [home] * 4 + [*self.players], self.random.sample(tiles, len(tiles))
        near = [tile for tile in tiles if at and max(abs(tile[0] - at[0]), abs(tile[1] - at[1])) == 1][:4]
        found = [self.creep(serials.pop(), tile, self.random.choice(owners), *["claim"] * self.chance(0.8)) for tile in near]
        rest = [tile for tile in tiles if tile not in near]
        return found + [self.creep(serials.pop(), tile, self.random.choice(owners)) for tile in rest[: 16 - len(found)]]

    def name(self, index):
        return f"E{index % 6}S{index // 6}"

    def room(self, index):
        home, serials = self.some(*self.players), self.random.sample(range(1, 150), 60)
        left, top = self.some(1, 20, 40), self.some(1, 20, 40)
        around = [(x, y) for x in range(left, left + 9) for y in range(top, top + 9)]
        at = self.random.choice(around)
        beside = [(at[0] + dx, at[1] + dy) for dx, dy in ROUND]
        shut, terrain = self.ground([tile for tile in around if tile != at], beside)
        free = [tile for tile in around if tile not in shut and tile != at]
        tiles = self.random.sample(free, len(free))
        objects = [self.building(serials.pop(), at, SPAWN, home), *self.fixed(tiles, serials, home)]
        taken = {(one["x"], one["y"]) for one in objects if one["kind"] in OBSTRUCTING}
        open_tiles = [tile for tile in free if tile not in taken]
        objects += self.creeps(open_tiles, serials, home, next(((one["x"], one["y"]) for one in objects if one["kind"] == "controller"), None))
        objects += [thing("pile", serials.pop(), *tile, energy=self.random.randint(1, 200)) for tile in self.random.sample(open_tiles, 4)]
        return room(self.name(index), 200, *[worked_rooms.with_ids(index, one) for one in objects], terrain=terrain)

    def world(self, rooms):
        points = {1: 10**12, 2: 16_000_000, 3: 10**12}
        players = [{"player": number, "limit": 500, "points": most} for number, most in points.items()]
        return world(*[self.room(index) for index in range(rooms)], players=players)

    def names(self, one):
        able = [name for name, action in ACTIONS.items() if action.actor == "creep" and name != "suicide" and (not action.part or live(one, action.part))]
        names = self.random.sample(able, min(len(able), self.some(1, 2, 3, 4)))
        names += [name for name in ("claim_controller", "reserve", "attack_controller") if name in able and self.chance(0.6)]
        return names + ["suicide"] * self.chance(0.01)

    def calls_near(self, index, one, around):
        """What an object of the player gives cause for."""
        found = []
        if one["kind"] == "creep":
            found += [call for call in (call_of(self.random, name, one, around) for name in self.names(one)) if call]
        if one["kind"] == "spawn" and self.chance(0.8):
            found.append(("spawn_creep", one["id"], Body(*self.body())))
        if one["kind"] == "site" and self.chance(0.1):
            found.append(("remove_site", one["id"]))
        if self.chance(0.15):
            x, y = one["x"] + self.random.randint(-2, 2), one["y"] + self.random.randint(-2, 2)
            found.append(("create_site", index, x, y, self.some(SPAWN, EXTENSION, EXTENSION, STORAGE, CONTAINER, CONTAINER, ROAD, ROAD)))
        return found

    def calls(self, it, number):
        found, everything = [], [one["id"] for one in objects_of(it)]
        for index, place in enumerate(it["rooms"]):
            for one in place["objects"]:
                if one["owner"] == number:
                    found += self.calls_near(index, one, place["objects"])
        for _ in range(10):
            one, other = self.random.choice(everything), self.random.choice(everything)
            found += [self.some(("claim_controller", one, other), ("remove_site", one), ("spawn_creep", one, Body(self.random.randrange(10))))]
            found.append(("create_site", self.random.randrange(-1, len(it["rooms"])), *[self.random.randrange(-1, 51) for _ in range(2)], self.random.randrange(3, 10)))
        self.random.shuffle(found)
        return found


def changes_between(before, after, _):
    """What came of spawns and of the players' sites in a tick."""
    done, was = [], {one["id"]: one for one in objects_of(before)}
    for one in objects_of(after):
        old = was.get(one["id"])
        if one["kind"] == "creep" and old is None:
            done += ["a creep came"] + ["a creep came to the border"] * bool({0, 49} & {one["x"], one["y"]})
        if one["kind"] == "spawn" and old:
            done += ["a spawn waits"] * (one["timer"] == old["timer"] == 1)
        if one["kind"] == "controller" and old:
            done += ["a controller was claimed"] * (one["owner"] > 0 and old["owner"] == 0)
        if one["kind"] == "extension" and old:
            done += ["an extension paid"] * (one["energy"] < old["energy"])
    return {name: done.count(name) for name in done}


def check_randoms():
    done = {}
    for seed in range(1, 10):
        draw = Draw(seed)
        count_into(done, play_drawn(checks, f"random colonies of seed {seed}", draw.world(36), 10, (1, 2, 3), draw.calls, changes_between))
    least = {(name, True): 50 for name in ACTIONS} | {(name, False): 5 for name in CALLS}
    least |= {"a creep came": 300, "a creep came to the border": 20, "a spawn waits": 300, "a controller was claimed": 50, "an extension paid": 100}
    note_counts(checks, "of all that colonies do there is enough", done, least)


def main():
    check_worked()
    check_levels()
    check_recorded_levels()
    check_tiles()
    check_rooms()
    check_hundred()
    check_recorded()
    check_removals()
    check_claims()
    check_claims_of_others()
    check_bodies()
    check_memories()
    check_costs()
    check_actors()
    check_calls()
    check_full_record()
    check_codes()
    check_randoms()
    checks.finish()


if __name__ == "__main__":
    main()
