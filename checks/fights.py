#!/usr/bin/env python3
"""How creeps fight, heal and die, and what becomes of buildings that are attacked: the calls by every check that may refuse them, which of
several count, and what a tick makes of those that do.

It runs behind `rt ci`, which builds crates/world_server/out/world_server. First come rooms whose tick is worked out by hand, which both
the program and oracle/game.py have to meet; then all sets of actions that overrule each other, all calls over all sorts of objects, rooms that
are full of fighters or of those who die, and random fights of three players, of which every object is compared after each tick. With
--model no program is run, and oracle/game.py alone is held against the rooms that are worked out.
"""

import itertools
import os
import random
import struct
import sys

TOP = os.path.dirname(os.path.dirname(os.path.abspath(__file__)))
sys.path[:0] = [os.path.join(TOP, it) for it in ("oracle", "checks/harness", "checks/inputs")]
import compared_runs  # noqa: E402
from checked_program import Checks  # noqa: E402
from drawn_runs import count_into, note_counts, play_drawn  # noqa: E402
from fighting_worlds import SHAPES, Fight, dying  # noqa: E402
from game import (  # noqa: E402
    ACTIONS,
    BUILDINGS,
    DIRECTIONS,
    FULL,
    INVALID_TARGET,
    NO_BODYPART,
    NOT_FOUND,
    NOT_IN_RANGE,
    NOT_OWNER,
    SECOND,
    counting,
    distance,
    live,
    thing,
)
from scripts import MOST_ENTRIES, Table  # noqa: E402
from worked_rooms import FIRST_NEW, Case, check_cases, container, creep, with_ids  # noqa: E402
from worlds import Upload, account_of, objects_of, room, world  # noqa: E402

checks = Checks(__file__, "--model" not in sys.argv[1:])
FIGHTS = ["heal", "ranged_heal", "dismantle", "attack", "ranged_mass_attack", "ranged_attack", "suicide"]
PLAYERS = [{"player": number, "limit": 500} for number in (1, 2, 3)]
MIDDLE, EAST, WEST, NORTH, SOUTH = (10, 10), (11, 10), (9, 10), (10, 9), (10, 11)


def play(name, first, ticks, uploads, said=None, **others):
    return compared_runs.play(checks, name, first, ticks, uploads, said, **others)


def spawn(serial, x, y, energy, owner=1, **fields):
    return thing("spawn", serial, x, y, owner=owner, energy=energy, **fields)


def extension(serial, x, y, owner=1, **fields):
    return thing("extension", serial, x, y, **{"owner": owner, "energy": 0, **fields})


def road(serial, x, y, **fields):
    return thing("road", serial, x, y, **{"timer": 9, **fields})


def pile(serial, x, y, energy):
    return thing("pile", serial, x, y, energy=energy)


def falls(number, at, energy):
    """A new pile on a tile, the serial being counted from the first new one."""
    return pile(FIRST_NEW + number, *at, energy)


# ---- rooms that are worked out by hand


def of_attacks():
    """Blows at creeps, who strike back."""
    pair = [creep(1, *MIDDLE, "attack move"), creep(2, *EAST, "tough attack move", 2)]
    yield Case("an attack, and the strike back", pair, [(1, "attack", 1, 2, 0)], {1: {"hits": 170}, 2: {"hits": 270}})
    yield Case("two who attack each other", pair, [(1, "attack", 1, 2, 0), (2, "attack", 2, 1, 0)], {1: {"hits": 140}, 2: {"hits": 240}})
    three = [creep(1, *WEST, "attack move"), creep(2, *NORTH, "attack move"), creep(3, *EAST, "attack move"), creep(4, *MIDDLE, "attack*2", 2)]
    yield Case("three attack one", three, [(1, "attack", serial, 4, 0) for serial in (3, 1, 2)], {**{serial: {"hits": 140} for serial in (1, 2, 3)}, 4: {"hits": 110}})
    friends = [creep(1, *MIDDLE, "attack move"), creep(2, *EAST, "attack move")]
    yield Case("an own creep strikes back too", friends, [(1, "attack", 1, 2, 0)], {1: {"hits": 170}, 2: {"hits": 170}})
    # (of the hits 150 the last part has 100 and the one before it 50, and of the hits 100 the last alone has some)
    hurt = [creep(1, *MIDDLE, "attack*2 move", hits=150), creep(2, *EAST, "attack move", 2, hits=100)]
    yield Case("parts that are dead", hurt, [(1, "attack", 1, 2, 0), (2, "attack", 2, 1, NO_BODYPART)], {2: {"hits": 70}})
    dying = [creep(1, *MIDDLE, "attack move"), creep(2, *EAST, "attack", 2, hits=30)]
    yield Case("one who dies strikes as hard as before", dying, [(1, "attack", 1, 2, 0), (2, "attack", 2, 1, 0)], {1: {"hits": 140}}, gone=[2])
    dead = [creep(1, *MIDDLE, "attack", hits=60), creep(2, *EAST, "attack", 2, hits=60)]
    yield Case("both are dead", dead, [(1, "attack", 1, 2, 0), (2, "attack", 2, 1, 0)], gone=[1, 2])
    healer = [creep(1, *MIDDLE, "attack move"), creep(2, *EAST, "heal attack move", 2)]
    yield Case("who heals himself strikes back too", healer, [(1, "attack", 1, 2, 0), (2, "heal", 2, 2, 0)], {1: {"hits": 170}, 2: {"hits": 282}})
    far = [creep(1, *MIDDLE, "ranged_attack*2 move"), creep(2, 13, 7, "attack move", 2), creep(3, 14, 10, "move", 2)]
    yield Case("nobody strikes back at one who shoots", far, [(1, "ranged_attack", 1, 2, 0), (1, "ranged_attack", 1, 3, NOT_IN_RANGE)], {2: {"hits": 180}})


def of_deaths():
    for hits, left in ((29, 0), (30, 0), (31, 1)):
        pair = [creep(1, *MIDDLE, "attack"), creep(2, *EAST, "move", 2, hits=hits)]
        yield Case(f"30 damage to {hits} hits", pair, [(1, "attack", 1, 2, 0)], {2: {"hits": left}}, gone=[] if left else [2])
    for hits, left in ((18, 0), (19, 1), (30, 12), (100, 82)):
        three = [creep(1, *MIDDLE, "attack"), creep(2, *EAST, "move", 2, hits=hits), creep(3, 12, 10, "heal", 2)]
        yield Case(f"30 damage and 12 healing to {hits} hits", three, [(1, "attack", 1, 2, 0), (2, "heal", 3, 2, 0)], {2: {"hits": left}}, gone=[] if left else [2])
    for hits, left in ((95, 97), (98, 100), (99, 100), (100, 100)):
        three = [creep(1, *MIDDLE, "ranged_attack"), creep(2, *EAST, "move", 2, hits=hits), creep(3, 12, 10, "heal", 2)]
        yield Case(f"10 damage and 12 healing to {hits} hits of 100", three, [(1, "ranged_attack", 1, 2, 0), (2, "heal", 3, 2, 0)], {2: {"hits": left}})
    for hits in (1, 50, 100):
        three = [creep(1, *MIDDLE, "attack*2"), creep(2, *EAST, "move", 2, hits=hits), creep(3, 12, 10, "heal*5", 2)]
        yield Case(f"60 damage and 60 healing to {hits} hits", three, [(1, "attack", 1, 2, 0), (2, "heal", 3, 2, 0)])
    loaded, shot = creep(2, *EAST, "carry", 2, hits=10, energy=40), [(1, "ranged_attack", 1, 2, 0)]
    shooter = creep(1, *MIDDLE, "ranged_attack")
    # (40 fall, of which 1 is lost in the same tick)
    yield Case("the load of one who is killed", [shooter, loaded], shot, gone=[2], new=[falls(0, EAST, 39)])
    yield Case("one who is killed in his last tick", [shooter, {**loaded, "timer": 1}], shot, gone=[2], new=[falls(0, EAST, 39)])
    yield Case("a pile at its bound where one dies", [shooter, loaded, pile(3, *EAST, 10**9)], shot, {3: {"energy": 999_000_000}}, gone=[2])
    yield Case("a pile that comes to its bound where one dies", [shooter, loaded, pile(3, *EAST, 999_999_961)], shot, {3: {"energy": 999_000_000}}, gone=[2])
    yield Case("a pile that grows where one dies", [shooter, loaded, pile(3, *EAST, 60)], shot, {3: {"energy": 99}}, gone=[2])
    runner = creep(2, *MIDDLE, "carry move", 2, hits=110, energy=40)
    guard = creep(1, *WEST, "ranged_attack*11")
    yield Case("one who steps and is killed", [guard, runner], [*shot, (2, "move", 2, 3, 0)], gone=[2], new=[falls(0, EAST, 39)])
    # (where he stands after his step the next room would be across from him)
    runner, guard = creep(2, 48, 20, "carry move", 2, hits=110, energy=40), creep(1, 46, 20, "ranged_attack*11")
    yield Case("one who steps onto the border and is killed", [guard, runner], [*shot, (2, "move", 2, 3, 0)], gone=[2], new=[falls(0, (49, 20), 39)])


def of_ends():
    """Age, and creeps that end themselves."""
    yield Case("the last tick of a creep", [creep(1, *MIDDLE, "carry move", energy=40, timer=1)], [], gone=[1], new=[falls(0, MIDDLE, 39)])
    yield Case("the last but one", [creep(1, *MIDDLE, "carry move", energy=40, timer=2)], [], {1: {"timer": 1}})
    yield Case("one who carries nothing in his last tick", [creep(1, *MIDDLE, "carry move", timer=1)], [], gone=[1])
    yield Case("who is healed in his last tick", [creep(1, *MIDDLE, "heal carry", hits=120, timer=1)], [(1, "heal", 1, 1, 0)], gone=[1])
    last = [creep(1, *MIDDLE, "attack move", timer=1), creep(2, *EAST, "move", 2)]
    yield Case("a blow in his last tick", last, [(1, "attack", 1, 2, 0)], {2: {"hits": 70}}, gone=[1])
    carrier = creep(1, *MIDDLE, "carry move", energy=40)
    yield Case("the load of one who ends himself", [carrier], [(1, "suicide", 1, 0)], gone=[1], new=[falls(0, MIDDLE, 39)])
    yield Case("who drops, and ends himself", [carrier], [(1, "suicide", 1, 0), (1, "drop", 1, 15, 0)], gone=[1], new=[falls(0, MIDDLE, 39)])
    yield Case("who ends himself in his last tick", [{**carrier, "timer": 1}], [(1, "suicide", 1, 0)], gone=[1], new=[falls(0, MIDDLE, 39)])
    healers = [creep(1, *MIDDLE, "heal move", hits=150), creep(2, *EAST, "move", hits=50), creep(3, *WEST, "heal*9")]
    yield Case("who ends himself heals, and isn't healed", healers, [(1, "suicide", 1, 0), (1, "heal", 1, 2, 0), (1, "heal", 3, 1, 0)], {2: {"hits": 62}}, gone=[1])
    fighters = [creep(1, *MIDDLE, "attack ranged_attack move"), creep(2, *EAST, "attack move", 2)]
    blows = [(1, "suicide", 1, 0), (1, "attack", 1, 2, 0), (1, "ranged_attack", 1, 2, 0), (2, "attack", 2, 1, 0)]
    # (30 and 10, and 30 that he strikes back)
    yield Case("who ends himself strikes, shoots and strikes back", fighters, blows, {2: {"hits": 130}}, gone=[1])
    movers = [creep(1, *MIDDLE, "move"), creep(2, *WEST, "move"), creep(3, 11, 11, "move")]
    calls = [(1, "suicide", 1, 0), (1, "move", 1, 3, 0), (1, "move", 2, 3, 0), (1, "move", 3, 1, 0)]
    yield Case("the tile of one who ends himself is held", movers, calls, {3: {"y": 10}}, gone=[1])


def of_parts():
    """Parts that are lost and come back."""
    shot = [(1, "ranged_attack", 1, 2, 0)]
    ten, nine = (creep(1, *MIDDLE, f"ranged_attack*{count}") for count in (10, 9))
    full_load = creep(2, *EAST, "carry*2 move", 2, energy=100)
    yield Case("a carry part that is lost with a full load", [ten, full_load], shot, {2: {"hits": 200, "energy": 50}}, new=[falls(0, EAST, 49)])
    yield Case("a carry part that has one hit left", [nine, {**full_load, "hits": 291}], shot, {2: {"hits": 201}})
    yield Case("a carry part that is lost with half a load", [ten, {**full_load, "energy": 50}], shot, {2: {"hits": 200}})
    only = creep(2, *EAST, "carry move", 2, energy=50)
    yield Case("the only carry part", [ten, only], shot, {2: {"hits": 100, "energy": 0}}, new=[falls(0, EAST, 49)])
    yield Case("the only carry part, over a pile at its bound", [ten, only, pile(3, *EAST, 999_999_999)], shot, {2: {"hits": 100, "energy": 0}, 3: {"energy": 999_000_000}})
    yield Case("a carry part that is lost in the last tick", [ten, {**full_load, "timer": 1}], shot, gone=[2], new=[falls(0, EAST, 99)])
    tired = creep(2, *EAST, "move*2 work", 2, extra=10)
    yield Case("a move part that is lost", [ten, tired], shot, {2: {"hits": 200, "extra": 8}})
    healed = [creep(1, *MIDDLE, "heal"), creep(2, *EAST, "move work", hits=100, extra=10)]
    yield Case("a move part that comes back", healed, [(1, "heal", 1, 2, 0)], {2: {"hits": 112, "extra": 8}})
    # (its one step is that of a tough part on plain ground)
    runner = creep(2, *EAST, "move tough", 2)
    yield Case("a step with a move part that is lost", [ten, runner], [*shot, (2, "move", 2, 3, 0)], {2: {"x": 12, "hits": 100, "extra": 2}})
    taker = [ten, creep(2, *EAST, "carry move", 2), container(3, 12, 10, energy=60)]
    yield Case("a load that came before the part was lost", taker, [*shot, (2, "withdraw", 2, 3, 0, 0)], {2: {"hits": 100}, 3: {"energy": 10}}, new=[falls(0, EAST, 49)])


def of_healing():
    hurt = [creep(1, *MIDDLE, "heal*2 move", hits=170), creep(2, *EAST, "move*5", 2, hits=90), creep(3, 13, 13, "move*5", hits=90)]
    yield Case("a heal of another's creep", hurt, [(1, "heal", 1, 2, 0)], {2: {"hits": 90 + 12}})
    # (of the hits 170 of three parts the second has 70, and the first none)
    yield Case("a heal of oneself", hurt, [(1, "heal", 1, 1, 0)], {1: {"hits": 182}})
    yield Case("a heal over three tiles", hurt, [(1, "heal", 1, 3, NOT_IN_RANGE), (1, "ranged_heal", 1, 3, 0)], {3: {"hits": 94}})
    yield Case("a heal of oneself as over three tiles", hurt, [(1, "ranged_heal", 1, 1, 0)], {1: {"hits": 174}})
    yield Case("three heal one", [creep(1, *WEST, "heal"), creep(2, *EAST, "heal"), creep(3, 13, 10, "heal"), creep(4, *MIDDLE, "move", hits=1)], [(1, "heal", 1, 4, 0), (1, "heal", 2, 4, 0), (1, "ranged_heal", 3, 4, 0)], {4: {"hits": 29}})
    # (healing is reckoned from the parts that stood before the damage of the tick)
    both = [creep(1, *MIDDLE, "heal move"), creep(2, *EAST, "heal move"), creep(3, 12, 10, "ranged_attack*15", 2)]
    calls = [(1, "heal", 1, 2, 0), (1, "heal", 2, 1, 0), (2, "ranged_attack", 3, 1, 0)]
    yield Case("who is hurt heals as well as before", both, calls, {1: {"hits": 62}})


def of_buildings():
    attack, fighter = [(1, "attack", 1, 2, 0)], creep(1, *MIDDLE, "attack")
    # (a spawn that is gone gains nothing)
    yield Case("a spawn that falls", [fighter, spawn(2, *EAST, 120, 2, hits=30)], attack, gone=[2], new=[falls(0, EAST, 119)])
    yield Case("a spawn that stands", [fighter, spawn(2, *EAST, 120, 2, hits=31)], attack, {2: {"hits": 1, "energy": 121}})
    yield Case("a container that falls", [fighter, container(2, *EAST, hits=30, energy=50)], attack, gone=[2], new=[falls(0, EAST, 49)])
    yield Case("a container that stands", [fighter, container(2, *EAST, hits=31, energy=50)], attack, {2: {"hits": 1}})
    yield Case("a road", [fighter, road(2, *EAST, hits=30)], attack, gone=[2])
    yield Case("an own building", [fighter, extension(2, *EAST, hits=60, energy=7)], attack, {2: {"hits": 30}})
    yield Case("a storage that falls", [fighter, thing("storage", 2, *EAST, owner=3, hits=25, energy=10**6)], attack, gone=[2], new=[falls(0, EAST, 999_000)])
    far = [creep(1, *MIDDLE, "ranged_attack*2"), road(2, 13, 13, hits=21), extension(3, 7, 10, hits=20, energy=50)]
    yield Case("a road over three tiles", far, [(1, "ranged_attack", 1, 2, 0)], {2: {"hits": 1}})
    yield Case("an own extension over three tiles", far, [(1, "ranged_attack", 1, 3, 0)], gone=[3], new=[falls(0, (7, 10), 49)])
    mended = [fighter, road(2, *EAST, hits=4950), creep(3, 12, 10, "work carry", 2, energy=5)]
    # (it lacks 50 when it is mended, before the damage)
    yield Case("a road that is mended as it is attacked", mended, [*attack, (2, "repair", 3, 2, 0)], {2: {"hits": 4970}, 3: {"energy": 4}})
    saved = [fighter, road(2, *EAST, hits=30), creep(3, 12, 10, "work carry", 2, energy=5)]
    yield Case("a road that is mended in time", [*saved], [*attack, (2, "repair", 3, 2, 0)], {2: {"hits": 100}, 3: {"energy": 4}})
    for hits, left in ((5030, 0), (5031, 1)):
        after, new = ({2: {"hits": left, "timer": 100}}, []) if left else ({}, [falls(0, EAST, 19)])
        yield Case(f"a container of {hits} that decays after the blow", [fighter, container(2, *EAST, hits=hits, energy=20, timer=1)], attack, after, gone=[] if left else [2], new=new)
    filled = [fighter, container(2, *EAST, hits=30, energy=20), creep(3, 12, 10, "carry", energy=10)]
    yield Case("a container that is filled as it falls", filled, [*attack, (1, "transfer", 3, 2, 0, 0)], {3: {"energy": 0}}, gone=[2], new=[falls(0, EAST, 29)])


def of_dismantling():
    tear = [(1, "dismantle", serial, 4, 0) for serial in (1, 2, 3)]

    def three(body):
        return [creep(serial, *at, body) for serial, at in ((1, WEST), (2, NORTH), (3, EAST))]

    yield Case("a container of 100 hits that three tear down", [*three("work carry"), container(4, *MIDDLE, hits=100, energy=9)], tear, gone=[4], new=[falls(0, MIDDLE, 8)])
    strong = [*three("work*8 carry"), extension(4, *MIDDLE, 2, hits=400)]
    # (each reckons from the 400 hits that stood before)
    yield Case("an extension of 400 hits that three tear down", strong, tear, {serial: {"energy": 2} for serial in (1, 2, 3)}, gone=[4])
    yield Case("an extension of 399 hits", [creep(1, *WEST, "work*8 carry"), extension(4, *MIDDLE, hits=399)], tear[:1], {1: {"energy": 1}}, gone=[4])
    yield Case("a part of 200", [creep(1, *WEST, "work*3 carry"), extension(4, *MIDDLE, hits=399)], tear[:1], {4: {"hits": 249}})
    yield Case("a road of nobody's", [creep(1, *WEST, "work*4 carry"), road(4, *MIDDLE)], tear[:1], {1: {"energy": 1}, 4: {"hits": 4800}})
    yield Case("a creep without carry parts", [creep(1, *WEST, "work*12"), road(4, *MIDDLE)], tear[:1], {4: {"hits": 4400}}, new=[falls(0, WEST, 2)])
    # (1 falls, and is lost in the same tick)
    yield Case("a creep with room for 1", [creep(1, *WEST, "work*8 carry", energy=49), road(4, *MIDDLE)], tear[:1], {1: {"energy": 50}, 4: {"hits": 4600}}, made=1)
    hurt = creep(1, *WEST, "work*8 carry", hits=500)
    yield Case("work parts that are dead", [hurt, road(4, *MIDDLE)], tear[:1], {1: {"energy": 1}, 4: {"hits": 4800}})
    worn = [creep(1, *WEST, "work*4 carry"), creep(2, *EAST, "work carry", energy=9), road(4, *MIDDLE, hits=50)]
    # (there are 50 hits to tear down before the road is mended)
    yield Case("a road that is torn and mended", worn, [*tear[:1], (1, "repair", 2, 4, 0)], {2: {"energy": 8}}, gone=[4])


def of_mass_attacks():
    shooter = creep(1, *MIDDLE, "ranged_attack*3")
    friends = [road(2, *MIDDLE), creep(3, *WEST, "move"), extension(4, 11, 9), container(5, 9, 11), thing("source", 6, 7, 10, energy=3000)]
    foes = [creep(7, *EAST, "attack", 2), creep(8, 12, 12, "move", 3), creep(9, 13, 7, "move", 2), creep(10, 14, 10, "move", 2), creep(11, 10, 14, "move", 3)]
    foes += [spawn(12, 8, 10, 300, 2), extension(13, 10, 7, 2), thing("storage", 14, 9, 9, owner=3, energy=5), thing("site", 15, 11, 11, owner=2, extra=8), extension(16, 6, 6, 2)]
    others = [pile(17, *EAST, 10), thing("controller", 18, 12, 8, owner=2, extra=1, timer=20_000)]
    after = {7: {"hits": 70}, 8: {"hits": 88}, 9: {"hits": 97}, 12: {"hits": 4988}, 13: {"hits": 997}, 14: {"hits": 9970}, 17: {"energy": 9}}
    yield Case("a mass attack", [shooter, *friends, *foes, *others], [(1, "ranged_mass_attack", 1, 0)], after)
    yield Case("a mass attack of one live part", [{**shooter, "hits": 100}, creep(2, *EAST, "move", 2)], [(1, "ranged_mass_attack", 1, 0)], {2: {"hits": 90}})
    yield Case("a mass attack with nobody around", [shooter, *friends], [(1, "ranged_mass_attack", 1, 0)])
    pair = [creep(1, *MIDDLE, "ranged_attack"), creep(2, *EAST, "ranged_attack", 2)]
    yield Case("two mass attacks", pair, [(1, "ranged_mass_attack", 1, 0), (2, "ranged_mass_attack", 2, 0)], {1: {"hits": 90}, 2: {"hits": 90}})
    ruins = [creep(1, *MIDDLE, "ranged_attack"), spawn(2, *EAST, 300, 2, hits=10), creep(3, 12, 12, "carry", 2, hits=4, energy=7), creep(4, 13, 10, "move", 3, hits=1)]
    yield Case("what falls by a mass attack, in rising id", ruins, [(1, "ranged_mass_attack", 1, 0)], gone=[2, 3, 4], new=[falls(0, EAST, 299), falls(1, (12, 12), 6)])


def of_overruling():
    """Entries of one creep: which of them count."""
    able = creep(1, *MIDDLE, "work carry attack ranged_attack heal move", energy=20)
    friend, foe = creep(2, *WEST, "move*2", hits=100), creep(3, *EAST, "tough", 2)
    source, worn = thing("source", 4, 9, 9, energy=1500), road(5, 11, 11, hits=1000)
    site, far = thing("site", 6, 9, 11, owner=1, extra=5), creep(7, 13, 10, "tough", 2)
    objects = [able, friend, foe, source, worn, site, far]
    calls = {"heal": 2, "ranged_heal": 2, "dismantle": 5, "attack": 3, "harvest": 4, "repair": 5, "build": 6, "ranged_attack": 7}

    def case(names, after):
        wanted = [(1, name, 1, *([calls[name]] if name in calls else []), 0) for name in names.split()]
        return Case(f"{names} of one creep", objects, wanted, after)

    mass = {3: {"hits": 90}, 7: {"hits": 99}}
    struck, shot, healed, torn = {3: {"hits": 70}}, {7: {"hits": 90}}, {2: {"hits": 112}}, {5: {"hits": 950}}
    mended, worked = {1: {"energy": 19}, 5: {"hits": 1100}}, {1: {"energy": 15}, 6: {"progress": 5}}
    yield case("harvest attack heal", healed)
    yield case("heal attack harvest", healed)
    yield case("ranged_heal heal", healed)
    yield case("ranged_heal attack dismantle", {2: {"hits": 104}})
    yield case("dismantle attack harvest repair build", torn)
    yield case("attack harvest", struck)
    yield case("attack repair", mended)
    yield case("attack build repair", mended)
    yield case("attack build", worked)
    yield case("ranged_mass_attack ranged_attack", mass)
    yield case("attack ranged_attack", {**struck, **shot})
    yield case("attack ranged_mass_attack harvest", {3: {"hits": 60}, 7: {"hits": 99}})
    yield case("dismantle ranged_attack", {**torn, **shot})
    yield case("heal ranged_attack", {**healed, **shot})
    yield case("heal ranged_mass_attack", {**healed, **mass})
    # (a heal over tiles that doesn't count overrules all the same)
    yield case("heal ranged_heal ranged_mass_attack", healed)
    yield case("heal ranged_heal ranged_attack", healed)
    yield case("ranged_heal ranged_attack", {2: {"hits": 104}})
    yield case("repair ranged_attack ranged_mass_attack", mended)
    yield case("build ranged_attack", worked)
    yield case("build ranged_mass_attack", worked)
    yield case("dismantle repair ranged_attack", torn)
    yield case("harvest ranged_attack", {1: {"energy": 22}, 4: {"energy": 1498, "timer": 300}, **shot})
    whole = [able, friend, foe, road(5, 11, 11)]
    yield Case("a repair that does nothing overrules too", whole, [(1, "ranged_mass_attack", 1, 0), (1, "repair", 1, 5, 0)])
    again = [(1, "attack", 1, 3, 0), (1, "attack", 1, 5, 0), (1, "attack", 1, 1, INVALID_TARGET), (1, "attack", 1, 7, NOT_IN_RANGE)]
    yield Case("the last entry counts, and a refused one leaves it", objects, again, {5: {"hits": 970}})


def of_spawns():
    """Energies of spawns and extensions before and after a tick: a letter, whose they are, and energies."""
    rows = {
        "S1:299": "300",
        "S1:300": "300",
        "S1:0 S1:0 S1:0": "1 1 1",
        "S1:100 S1:199": "101 199",
        "S1:199 S1:100": "200 100",
        "S1:100 S1:198": "101 199",
        "S1:100 S1:200": "100 200",
        "S1:0 S1:300": "0 300",
        "S1:249 E1:50": "250 50",
        "S1:250 E1:50": "250 50",
        "E1:50 S1:200 E1:50": "50 200 50",
        "S1:299 E2:50": "300 50",
        "S1:200 S2:299": "201 300",
        "S2:298 S1:298 E1:1 E2:2": "298 299 1 2",
        "S1:10 T1:1000": "11 1000",
        "E1:0": "0",
    }
    kinds = {"S": "spawn", "E": "extension", "T": "storage"}
    for before, after in rows.items():
        objects = []
        for serial, word in enumerate(before.split(), 1):
            owner, energy = map(int, word[1:].split(":"))
            objects.append(thing(kinds[word[0]], serial, 2 * serial, 10, owner=owner, energy=energy))
        yield Case(f"what {before} gain", objects, [], {serial: {"energy": int(it)} for serial, it in enumerate(after.split(), 1)})
    near = [spawn(1, *MIDDLE, 299), creep(2, *EAST, "carry", energy=1)]
    yield Case("a spawn that is filled up before", near, [(1, "transfer", 2, 1, 0, 0)], {1: {"energy": 300}, 2: {"energy": 0}})
    near = [spawn(1, *MIDDLE, 300), creep(2, *EAST, "carry")]
    yield Case("a spawn from which is taken before", near, [(1, "withdraw", 2, 1, 0, 0)], {1: {"energy": 251}, 2: {"energy": 50}})
    ruin = [spawn(1, *MIDDLE, 200, hits=30), spawn(2, 20, 20, 150), creep(3, *EAST, "attack", 2)]
    yield Case("a spawn beside one that falls", ruin, [(2, "attack", 3, 1, 0)], {2: {"energy": 151}}, gone=[1], new=[falls(0, MIDDLE, 199)])


def of_order():
    """New ids: first those of the entries by action, then those of upkeep step by step, each in rising id."""
    aged, overloaded = creep(1, 5, 5, "carry", energy=30, timer=1), creep(2, 7, 5, "carry*2 move", energy=100)
    killed, worn = creep(3, 9, 5, "carry", hits=10, energy=40), container(4, 11, 5, hits=5000, timer=1, energy=60)
    fallen, tearer = extension(5, 9, 7, hits=20, energy=50), creep(6, 13, 5, "work*12")
    shooters = [creep(7, 7, 6, "ranged_attack*10", 2), creep(8, 9, 6, "ranged_attack", 2), creep(9, 8, 8, "ranged_attack*2", 2)]
    calls = [(2, "ranged_attack", 7, 2, 0), (2, "ranged_attack", 8, 3, 0), (2, "ranged_attack", 9, 5, 0), (1, "dismantle", 6, 10, 0), (1, "harvest", 12, 11, 0)]
    objects = [aged, overloaded, killed, worn, fallen, tearer, *shooters, road(10, 14, 5), thing("source", 11, 20, 20, energy=9), creep(12, 20, 21, "work*5")]
    new = [falls(0, (13, 5), 2), falls(1, (20, 21), 8), falls(2, (9, 5), 39), falls(3, (9, 7), 49), falls(4, (7, 5), 49), falls(5, (5, 5), 29), falls(6, (11, 5), 59)]
    after = {2: {"hits": 200, "energy": 50}, 10: {"hits": 4400}, 11: {"energy": 0, "timer": 300}}
    yield Case("new ids in their order", objects, calls, after, gone=[1, 3, 4, 5], new=new)


def of_refusals():
    """Calls that fail two checks: the first gives the code."""
    objects = [thing("source", 1, *MIDDLE, energy=0, timer=77), creep(2, *WEST, "work"), creep(3, *EAST, "heal attack ranged_attack work"), creep(4, *NORTH, "move", 2)]
    objects += [creep(5, 12, 10, "heal attack move", hits=100), spawn(6, 14, 14, 300, 2), container(7, 12, 11), thing("site", 8, 12, 9, owner=2, extra=8), pile(9, 9, 9, 9)]
    objects += [creep(10, 15, 10, "move", 2), thing("controller", 11, 13, 13, owner=1, extra=1, timer=20_000), creep(12, 20, 20, "move"), container(13, 16, 10)]
    calls = [
        ("heal", 99, 98, NOT_FOUND),
        ("heal", 1, 98, NOT_FOUND),
        ("heal", 4, 98, NOT_OWNER),
        ("heal", 2, 98, NO_BODYPART),
        ("heal", 5, 5, NO_BODYPART),
        ("heal", 3, 98, INVALID_TARGET),
        ("heal", 3, 7, INVALID_TARGET),
        ("heal", 3, 13, INVALID_TARGET),
        ("heal", 3, 10, NOT_IN_RANGE),
        ("heal", 3, 3, 0),
        ("ranged_heal", 4, 98, NOT_OWNER),
        ("ranged_heal", 2, 10, NO_BODYPART),
        ("ranged_heal", 3, 6, INVALID_TARGET),
        ("ranged_heal", 3, 10, NOT_IN_RANGE),
        ("ranged_heal", 3, 3, 0),
        ("dismantle", 98, 7, NOT_FOUND),
        ("dismantle", 4, 7, NOT_OWNER),
        ("dismantle", 5, 4, NO_BODYPART),
        ("dismantle", 3, 4, INVALID_TARGET),
        ("dismantle", 3, 3, INVALID_TARGET),
        ("dismantle", 3, 8, INVALID_TARGET),
        ("dismantle", 3, 11, INVALID_TARGET),
        ("dismantle", 3, 6, NOT_IN_RANGE),
        ("dismantle", 3, 7, 0),
        ("attack", 98, 98, NOT_FOUND),
        ("attack", 4, 4, NOT_OWNER),
        ("attack", 2, 2, NO_BODYPART),
        ("attack", 5, 5, NO_BODYPART),
        ("attack", 3, 3, INVALID_TARGET),
        ("attack", 3, 1, INVALID_TARGET),
        ("attack", 3, 8, INVALID_TARGET),
        ("attack", 3, 9, INVALID_TARGET),
        ("attack", 3, 11, INVALID_TARGET),
        ("attack", 3, 98, INVALID_TARGET),
        ("attack", 3, 6, NOT_IN_RANGE),
        ("attack", 3, 10, NOT_IN_RANGE),
        ("attack", 3, 4, 0),
        ("ranged_mass_attack", 98, NOT_FOUND),
        ("ranged_mass_attack", 6, NOT_FOUND),
        ("ranged_mass_attack", 4, NOT_OWNER),
        ("ranged_mass_attack", 2, NO_BODYPART),
        ("ranged_mass_attack", 3, 0),
        ("ranged_attack", 1, 3, NOT_FOUND),
        ("ranged_attack", 10, 10, NOT_OWNER),
        ("ranged_attack", 2, 2, NO_BODYPART),
        ("ranged_attack", 3, 3, INVALID_TARGET),
        ("ranged_attack", 3, 1, INVALID_TARGET),
        ("ranged_attack", 3, 10, NOT_IN_RANGE),
        ("ranged_attack", 3, 13, NOT_IN_RANGE),
        ("ranged_attack", 3, 7, 0),
        ("suicide", 98, NOT_FOUND),
        ("suicide", 7, NOT_FOUND),
        ("suicide", 4, NOT_OWNER),
        ("suicide", 12, 0),
    ]
    # (of all that was recorded for it the creep heals itself, and it has all its hits)
    yield Case("of two faults the first", objects, [(1, *it) for it in calls], {1: {"timer": 76}, 9: {"energy": 8}}, gone=[12])


def check_worked():
    cases = [*of_attacks(), *of_deaths(), *of_ends(), *of_parts(), *of_healing(), *of_buildings(), *of_dismantling(), *of_mass_attacks()]
    cases += [*of_overruling(), *of_spawns(), *of_order(), *of_refusals()]
    check_cases(checks, "rooms that are worked out by hand", cases, PLAYERS)


def check_lines():
    """What the program prints of a creep that harvests, attacks and heals, of one that ends itself, and what a player sees of a blow."""
    source = thing("source", 1, *MIDDLE, energy=1500)
    able = creep(2, *WEST, "work carry attack heal")
    first = world(room("E0S0", 9, source, able, creep(3, 9, 9, "move", 2), creep(4, 8, 9, "move", hits=50)), players=[{"player": 1, "limit": 20}, {"player": 2, "limit": 20}])
    calls = [("harvest", 2, 1), ("attack", 2, 3), ("heal", 2, 4)]
    begin = ["start tick 0 rooms 1 objects 4 players 2", "upload player 1 accepted"]
    steps = play("a creep that harvests, attacks and heals", first, 1, [Upload(0, 1, Table(calls))], [*begin, "player 1 finished 22", "tick 1 objects 4 intents 3 energy 1500"])
    hits = [one["hits"] for one in objects_of(steps[0].world)]
    checks.note("of the three the heal alone counts", [] if hits == [0, 400, 100, 62] else [f"{hits}"])
    first = world(room("E0S0", 9, creep(1, *MIDDLE, "carry", energy=40)), players=PLAYERS[:1])
    said = ["start tick 0 rooms 1 objects 1 players 1", "upload player 1 accepted", "player 1 finished 9", "tick 1 objects 1 intents 1 energy 39"]
    play("a creep that ends itself", first, 1, [Upload(0, 1, Table([("suicide", 1)]))], said)
    first = world(room("E0S0", 9, creep(1, *MIDDLE, "attack move"), creep(2, *EAST, "tough attack move", 2)), players=PLAYERS[:2])
    looks = [("get", index, field) for index in (0, 1) for field in (6, 100, 101, 102)]
    steps = play("what is seen of a blow", first, 2, [Upload(0, 1, Table([("attack", 1, 2)])), Upload(1, 1, Table(looks)), Upload(1, 2, Table(looks[4:]))])
    seen = struct.unpack("<8q", bytes.fromhex(account_of(steps[1].world, 1)["memory"]))
    # (an attack part has the number 4, a move part 1 and a tough part 6)
    checks.note("the parts of both after a blow", [] if seen == (170, 4070, 1100, -10, 270, 6070, 4100, 1100) else [f"{seen}"])


# ---- all sets of actions that overrule each other

# Each of these is overruled by those before it, and all by the two heals.
CHAIN = ["dismantle", "repair", "build", "attack", "harvest"]
SETS = ["heal", "ranged_heal", *CHAIN, "ranged_mass_attack", "ranged_attack"]


def kept(names):
    """Those of a set of actions that count."""
    found = names & {"heal"} or names & {"ranged_heal"} or set([it for it in CHAIN if it in names][:1])
    is_busy = names & {"ranged_heal", "repair", "build"}
    return found | (set() if is_busy else names & {"ranged_mass_attack"} or names & {"ranged_attack"})


def check_sets():
    """Each set of nine actions of one creep, in a room of its own."""
    sets = [set(it) for count in range(len(SETS) + 1) for it in itertools.combinations(SETS, count)]
    for names in sets:
        got = {name for name, _ in counting({(name, 1): None for name in names})}
        checks.note(f"what counts of {sorted(names)}", [] if got == kept(names) else [f"{sorted(got)} and not {sorted(kept(names))}"])
    targets = {"heal": 2, "ranged_heal": 3, "dismantle": 4, "repair": 5, "build": 6, "attack": 7, "harvest": 8, "ranged_attack": 9}
    objects = [creep(1, *MIDDLE, "work carry attack ranged_attack heal move", energy=20), creep(2, *WEST, "move*2", hits=50), creep(3, 8, 8, "move*2", hits=50)]
    objects += [road(4, *NORTH, hits=4000), road(5, 11, 9, hits=4000), thing("site", 6, 9, 9, owner=1, extra=5), creep(7, *EAST, "tough", 2), thing("source", 8, *SOUTH, energy=900)]
    objects += [creep(9, 13, 10, "tough", 2), extension(10, 12, 12, 2)]
    # (a player may have 100 sites)
    for at in range(0, len(sets), 100):
        some = sets[at : at + 100]
        rooms = [room(f"E{index}S0", FIRST_NEW, *[with_ids(index, one) for one in objects]) for index in range(len(some))]
        calls = []
        for index, names in enumerate(some):
            calls += [(name, index * SECOND + 1, *([index * SECOND + targets[name]] if name in targets else [])) for name in sorted(names)]
        play("each set of actions of one creep", world(*rooms, players=PLAYERS[:2]), 1, [Upload(0, 1, Table(calls))])


# ---- all calls over all sorts of objects


def crowd():
    """Two rooms that player 1 sees, and one that he doesn't, with objects of all sorts in and out of reach."""
    able = "work carry attack ranged_attack heal move"
    near = [creep(1, *MIDDLE, able, energy=20), creep(2, *EAST, able, 2), creep(3, 12, 10, able, hits=100), creep(4, 14, 10, able, 2, hits=250), creep(5, *NORTH, "heal"), creep(6, *WEST, "attack")]
    near += [creep(7, *SOUTH, "ranged_attack tough"), creep(8, 9, 9, "work"), creep(9, 11, 9, "claim move", 3, timer=600), creep(10, 13, 13, "move"), creep(11, 13, 7, able, hits=301)]
    near += [spawn(12, 11, 11, 200), spawn(13, 8, 10, 250, 2, hits=7), extension(14, 12, 12), thing("storage", 15, 8, 12, owner=3, energy=99), container(16, 9, 11), road(17, *MIDDLE), road(18, 10, 12, hits=9)]
    near += [pile(19, *EAST, 500), thing("site", 20, 12, 9, owner=2, extra=8), thing("site", 21, 12, 8, owner=1, extra=5), thing("source", 22, 8, 8, energy=9), thing("controller", 23, 14, 14, owner=2, extra=2, timer=9)]
    near += [container(24, 30, 30), extension(25, 31, 30, 2), creep(26, 30, 31, "work attack", 2)]
    second = [creep(1, *MIDDLE, able), creep(2, *EAST, able, 2), road(3, *WEST), spawn(4, *NORTH, 10, 3), creep(5, 10, 12, "tough", 3)]
    unseen = [creep(1, *MIDDLE, able, 2), road(2, *WEST), spawn(3, *EAST, 10, 2), creep(4, *SOUTH, "tough", 3)]
    rooms = [[with_ids(index, one) for one in objects] for index, objects in enumerate((near, second, unseen))]
    return world(*[room(f"E{index}S0", 30, *objects) for index, objects in enumerate(rooms)], players=PLAYERS)


def check_calls():
    """Every call of each creep with each object: each refusal, and those that are recorded."""
    first = crowd()
    ids = [one["id"] for one in objects_of(first)] + [0, -1, 1 << 53, 29, SECOND * 3 + 1, 2 - (1 << 63)]
    creeps = [one["id"] for one in objects_of(first) if one["kind"] == "creep"] + [0, 12, -1, 1 - (1 << 63), 1 + (1 << 53), 2 * SECOND + 9]
    calls = [(name, actor, target) for name in FIGHTS if ACTIONS[name].targets for actor in creeps for target in ids]
    calls += [(name, actor) for name in ("ranged_mass_attack", "suicide") for actor in creeps]
    steps = play("every call of each creep with each object", first, 2, [Upload(0, number, Table(calls)) for number in (1, 2, 3)])
    seen = set()
    for number in (1, 2, 3):
        answers = struct.unpack(f"<{len(calls)}q", bytes.fromhex(account_of(steps[0].world, number)["memory"]))
        seen |= {(name, answer) for (name, *_), answer in zip(calls, answers)}
    for name in FIGHTS:
        wanted = {0, NOT_FOUND, NOT_OWNER} | ({NO_BODYPART} if ACTIONS[name].part else set()) | ({INVALID_TARGET, NOT_IN_RANGE} if ACTIONS[name].targets else set())
        found = {code for other, code in seen if other == name}
        checks.note(f"each answer of {name} came", [] if found == wanted else [f"{sorted(found)} and not {sorted(wanted)}"])


def check_full_record():
    """4,096 entries of the seven actions, and then more of each."""
    count = 600
    objects = [creep(1 + place, 1 + place % 48, 1 + place // 48, "work attack ranged_attack heal") for place in range(count)]
    objects += [road(1001 + place, 1 + place % 48, 1 + place // 48) for place in range(count)]
    first = world(room("E0S0", 5000, *objects), players=PLAYERS[:1])
    targets = {"heal": 0, "ranged_heal": 0, "dismantle": 1000, "attack": 1000, "ranged_attack": 1000}
    listed = [(name, 1 + place, *([1 + place + targets[name]] if name in targets else [])) for name in FIGHTS for place in range(count)]
    calls, left = listed[:MOST_ENTRIES], listed[MOST_ENTRIES:]
    rest = [("suicide", count), *left[:3], ("heal", count, count), ("attack", 9, 9), ("heal", 1, 2999), ("ranged_attack", 2, 1001), ("suicide", 1), ("suicide", 4999), *left[-2:]]
    steps = play("a record of 4,096 fights", first, 1, [Upload(0, 1, Table([*calls, *rest]))])
    answers = struct.unpack(f"<{len(calls) + len(rest)}q", bytes.fromhex(account_of(steps[0].world, 1)["memory"]))
    # (what has a place in the record may be replaced)
    wanted = (*[0] * MOST_ENTRIES, FULL, FULL, FULL, FULL, 0, INVALID_TARGET, INVALID_TARGET, 0, 0, NOT_FOUND, FULL, FULL)
    checks.note("what a full record answers", [] if answers == wanted else [f"{answers[MOST_ENTRIES:]} and not {wanted[MOST_ENTRIES:]}"])


# ---- rooms that are full


def check_large():
    """The worlds of checks/inputs/fighting_worlds.py: rooms full of creeps that all shoot, that heal one, and that all die."""
    for shape in SHAPES:
        fight = Fight(shape)
        steps = play(shape.name, fight.as_world(), 1, [Upload(0, number, Table(calls)) for number, calls in fight.calls.items()])
        left = len(objects_of(steps[0].world))
        checks.note(f"all are left where {shape.name}", [] if left == fight.objects() else [f"{left} objects and not {fight.objects()}"])
    for name, first, left in (("one room", dying([1]), 2304), ("a room of creeps of another room's birth", dying([1], [1]), 2304), ("two rooms", dying([1, 2]), 4608)):
        steps = play(f"{name} of creeps that come to their age", first, 2, [])
        energies = {(one["kind"], one["energy"]) for one in objects_of(steps[1].world)}
        count = len(objects_of(steps[1].world))
        # (each leaves its 100, of which 1 is lost in the same tick, and 1 in the next)
        wanted = {("pile", 98)} if name != "two rooms" else {("pile", 98), ("pile", 99)}
        checks.note(f"what they leave in {name}", [] if (energies, count) == (wanted, left) else [f"{count} objects, {energies}"])


# ---- random fights


class Draw:
    """Random worlds of rooms in fours around a corner each, in which three players fight, and random calls in them."""

    def __init__(self, seed):
        self.random = random.Random(seed)

    def chance(self, share):
        return self.random.random() < share

    def creep(self, serial, x, y):
        body = [self.random.choice(["work", "carry", "attack", "ranged_attack", "heal", "tough", "carry", "move"]) for _ in range(self.random.choice((1, 2, 4, 8, 20)))]
        body = ["carry"] * self.random.choice((0, 0, 3)) + body + ["move"] * self.random.randrange(3)
        # (some have many hits, some few, and some lose a part soon)
        hits = 100 * self.random.randrange(len(body)) + self.random.randint(1, 20)
        hits = self.random.choice((100 * len(body), self.random.randint(1, 100 * len(body)), self.random.randint(1, 60), hits, hits))
        one = thing("creep", serial, x, y, owner=self.random.choice((1, 1, 2, 2, 3)), body=body, hits=hits, timer=self.random.choice((1, 2, 3, 5, 1500, 1500, 1500, 1500)))
        most = 50 * live(one, "carry")
        return {**one, "energy": self.random.choice((0, most, self.random.randint(0, most))), "extra": self.random.choice((0, 0, 0, self.random.randint(1, 40)))}

    def fixed(self, serial, x, y, kind):
        owner, number = self.random.choice((1, 2, 3)), self.random.randint
        few = number(1, 250)
        made = {
            "source": lambda: {"energy": number(0, 3000), "timer": number(0, 300)},
            "spawn": lambda: {"owner": owner, "energy": self.random.choice((number(0, 300), number(0, 150), 300)), "hits": self.random.choice((few, number(1, 5000)))},
            "extension": lambda: {"owner": owner, "energy": number(0, 50), "hits": self.random.choice((few, number(1, 1000)))},
            "storage": lambda: {"owner": owner, "energy": number(0, 10**6), "hits": self.random.choice((few, number(1, 10_000)))},
            "container": lambda: {"energy": number(0, 2000), "hits": self.random.choice((few, number(1, 250_000), 5000 + few)), "timer": number(1, 5)},
            "road": lambda: {"hits": self.random.choice((few, number(1, 5000))), "timer": self.random.choice((number(1, 9), number(1, 1000)))},
            "site": lambda: {"owner": owner, "extra": self.random.choice((4, 5, 7, 8)), "progress": number(0, 200)},
        }
        return thing(kind, serial, x, y, **made[kind]())

    def room(self, index, name, columns, rows):
        """A crowd on 10 by 10 tiles in a corner of the room."""
        around = [(x, y) for x in columns for y in rows]
        self.random.shuffle(around)
        tiles = [tile for tile in around if not {0, 49} & set(tile)]
        border = [tile for tile in around if {0, 49} & set(tile) and not set(tile) <= {0, 49}]
        kinds = ["source"] * 2 + ["spawn"] * 4 + ["extension"] * 5 + ["storage"] + ["container"] * 4 + ["road"] * 8 + ["site"] * 3
        serials = self.random.sample(range(1, 200), len(kinds) + 60)
        objects = [self.fixed(serials.pop(), *tiles.pop(), kind) for kind in kinds]
        clear = [(one["x"], one["y"]) for one in objects if one["kind"] in ("road", "container", "site")]
        places = [*tiles[:26], *border[:4], *self.random.sample(clear, 5)]
        objects += [self.creep(serials.pop(), *tile) for tile in places]
        objects += [pile(serials.pop(), *tile, self.random.choice((1, 300, 10**9, 999_999_990))) for tile in self.random.sample(places, 9)]
        if self.chance(0.7):
            objects.append(thing("controller", serials.pop(), 25, 25, owner=self.random.choice((1, 2)), extra=self.random.choice((1, 7, 8)), timer=9))
        return room(name, 200, *[with_ids(index, one) for one in objects])

    def world(self, fours):
        """The rooms of a four meet in their corners, where the crowds are."""
        rooms = []
        for four in range(fours):
            for right, below in itertools.product((0, 1), repeat=2):
                columns, rows = (range(10) if it else range(40, 50) for it in (right, below))
                rooms.append(self.room(len(rooms), f"E{3 * four + right}S{below}", columns, rows))
        return world(*rooms, players=PLAYERS)

    def target(self, name, one, around):
        """A target in range where there is one: for heals mostly a friend, for others mostly none."""
        action = ACTIONS[name]
        fit = [it for it in around if it["kind"] in action.targets and distance(it, one) <= action.reach and (it is not one or action.itself)]
        friends = [it for it in fit if (it["owner"] == one["owner"]) == (name in ("heal", "ranged_heal"))]
        fit = friends if friends and self.chance(0.8) else fit
        return self.random.choice(fit)["id"] if fit else None

    def call(self, name, one, place):
        """A call of a creep, or None where nothing is in range."""
        amounts = {"drop": (0,), "move": (self.random.choice(list(DIRECTIONS)),)}
        if name in amounts or not ACTIONS[name].targets:
            return (name, one["id"], *amounts.get(name, ()))
        target = self.target(name, one, place["objects"])
        return target and (name, one["id"], target, *((0,) if name in ("transfer", "withdraw") else ()))

    def names(self, one):
        """What a creep does: mostly what it has parts for."""
        others = [name for name, action in ACTIONS.items() if name not in ("suicide", "move") and action.actor == "creep" and "controller" not in action.targets]
        able = [name for name in others if not ACTIONS[name].part or live(one, ACTIONS[name].part)]
        names = self.random.sample(able, min(len(able), self.random.choice((1, 2, 2, 3))))
        return names + ["move"] * self.chance(0.5) + ["suicide"] * self.chance(0.015)

    def calls(self, it, number):
        found, everything = [], [one["id"] for one in objects_of(it)]
        for place in it["rooms"]:
            for one in place["objects"]:
                if one["kind"] == "creep" and one["owner"] == number:
                    found += [call for call in (self.call(name, one, place) for name in self.names(one)) if call]
        for _ in range(10):
            name = self.random.choice([name for name in FIGHTS if name != "suicide"])
            found.append((name, self.random.choice(everything), *([self.random.choice(everything)] if ACTIONS[name].targets else [])))
        self.random.shuffle(found)
        return found


def ends_between(before, after, runs):
    """How many creeps ended themselves, came to their age or were killed, how many buildings are gone, and how many loads fell in part."""
    done, left = {}, {one["id"]: one for one in objects_of(after)}
    ended = {id for run in runs for name, id in run.entries if name == "suicide"}
    for one in objects_of(before):
        kind = one["kind"]
        if one["id"] not in left and (kind == "creep" or kind in BUILDINGS):
            what = f"{kind}s fell" if kind != "creep" else "ended themselves" if one["id"] in ended else "came of age" if one["timer"] == 1 else "were killed"
            done[what] = done.get(what, 0) + 1
        if kind == "creep" and one["id"] in left and live(left[one["id"]], "carry") < live(one, "carry") and left[one["id"]]["energy"]:
            done["lost carry parts with a load"] = done.get("lost carry parts with a load", 0) + 1
    return done


def check_randoms():
    done = {}
    for seed in range(1, 7):
        draw = Draw(seed)
        count_into(done, play_drawn(checks, f"random fights of seed {seed}", draw.world(8), 8, (1, 2, 3), draw.calls, ends_between))
    least = {(name, True): 100 for name in FIGHTS} | {"ended themselves": 50, "came of age": 200, "were killed": 500, "lost carry parts with a load": 50}
    least |= {f"{kind}s fell": 20 for kind in BUILDINGS} | {"storages fell": 10}
    note_counts(checks, "of all that fights come to there is enough", done, least)


def main():
    check_worked()
    check_lines()
    check_sets()
    check_calls()
    check_full_record()
    check_large()
    check_randoms()
    checks.finish()


if __name__ == "__main__":
    main()
