#!/usr/bin/env python3
"""What creeps do to controllers, what time does to them, and what players gain by it: the calls by every check that may refuse them, and what
a tick makes of those that are recorded.

It runs behind `rt ci`, which builds crates/world_server/out/world_server. First come rooms whose tick is worked out by hand, which both
the program and oracle/game.py have to meet; then what follows in the tick after a controller is lost, the points of players, all sets of
actions with an attack on a controller, all calls over controllers of all sorts, and random worlds of controllers of all levels, of which every
object and every account is compared after each tick. With --model no program is run, and oracle/game.py alone is held against the rooms that are
worked out. Calls of claims are made in checks/colonies.py: here it is looked at what oracle/game.py alone makes of entries for them, also of such as
no call makes.
"""

import itertools
import os
import random
import sys

TOP = os.path.dirname(os.path.dirname(os.path.abspath(__file__)))
sys.path[:0] = [os.path.join(TOP, it) for it in ("oracle", "checks/harness")]
import compared_runs  # noqa: E402
from checked_program import Checks  # noqa: E402
from drawn_runs import call_of, count_into, note_counts, play_drawn  # noqa: E402
from game import (  # noqa: E402
    ACTIONS,
    DOWNGRADES,
    FULL,
    INVALID_TARGET,
    LEVELS,
    NO_BODYPART,
    NOT_ENOUGH,
    NOT_FOUND,
    NOT_IN_RANGE,
    NOT_OWNER,
    SECOND,
    controller_of,
    counting,
    live,
    thing,
)
from scripts import MOST_ENTRIES, Table  # noqa: E402
from worked_rooms import (  # noqa: E402
    EAST,
    FIRST_NEW,
    MIDDLE,
    NORTH,
    SOUTH,
    WEST,
    Case,
    Turn,
    answers_of,
    check_cases,
    check_turns,
    container,
    controller,
    creep,
    reserved,
    source,
    with_ids,
)
from worlds import Run, Upload, account_of, objects_of, room, ticked, world  # noqa: E402

checks = Checks(__file__, "--model" not in sys.argv[1:])
CONTROLS = ["upgrade", "reserve", "attack_controller"]
PLAYERS = [{"player": number, "limit": 500, "points": points} for number, points in ((1, 0), (2, 77), (3, 1 << 40))]
MOST = 2**53


def play(name, first, ticks, uploads, said=None, **others):
    return compared_runs.play(checks, name, first, ticks, uploads, said, **others)


# ---- rooms that are worked out by hand

# Of each level what the next one wants, and the time with which it begins.
NEXT = {1: (200, 5000), 2: (45_000, 10_000), 3: (135_000, 20_000), 4: (405_000, 40_000), 5: (1_215_000, 60_000), 6: (3_645_000, 75_000), 7: (10_935_000, 100_000)}
BY_2 = [(1, "upgrade", 2, 1, 0)]
BY_BOTH = [(1, "upgrade", 3, 1, 0), (1, "upgrade", 2, 1, 0)]


def upgraded(name, level, before, work, load, after, put, timer=300):
    """A controller of player 1 at this level and progress, and a creep that puts so much into it."""
    objects = [controller(1, level, timer, progress=before), creep(2, *WEST, f"work*{work} carry", energy=load)]
    return Case(name, objects, BY_2, {1: after, 2: {"energy": load - put}}, gains={1: put})


def of_upgrades():
    """What one creep puts into a controller below the last level."""
    yield upgraded("a level that is passed", 1, 190, 15, 20, {"extra": 2, "progress": 5, "timer": 4999}, 15)
    yield upgraded("a level that is reached", 1, 185, 15, 20, {"extra": 2, "progress": 0, "timer": 4999}, 15)
    yield upgraded("a level that is missed by one", 1, 184, 15, 20, {"progress": 199, "timer": 399}, 15)
    for level, (total, timer) in NEXT.items():
        yield upgraded(f"level {level} is passed", level, total - 4, 5, 50, {"extra": level + 1, "progress": int(level < 7), "timer": timer - 1}, 5)
        yield upgraded(f"level {level} is reached", level, total - 5, 5, 50, {"extra": level + 1, "progress": 0, "timer": timer - 1}, 5)
        yield upgraded(f"level {level} is missed by one", level, total - 6, 5, 50, {"progress": total - 1, "timer": 399}, 5)
    yield upgraded("the last level has no progress", 7, 10_934_999, 40, 50, {"extra": 8, "progress": 0, "timer": 99_999}, 40)
    yield upgraded("a load that is less than the parts", 2, 7, 5, 3, {"progress": 10, "timer": 399}, 3)
    yield upgraded("a load of 1", 2, 7, 5, 1, {"progress": 8, "timer": 399}, 1)
    yield upgraded("a load that is more than the parts", 2, 7, 5, 50, {"progress": 12, "timer": 399}, 5)
    for before, after in ((9899, 9998), (9900, 9999), (9901, 9999), (9950, 9999), (10_000, 9999), (1, 100)):
        yield upgraded(f"the time of level 2 at {before}", 2, 0, 1, 9, {"progress": 1, "timer": after}, 1, before)
    yield upgraded("the time of level 1 at its most", 1, 0, 1, 9, {"progress": 1, "timer": 19_999}, 1, 20_000)
    yield upgraded("the time that a new level has, whatever was left", 1, 199, 1, 9, {"extra": 2, "progress": 0, "timer": 4999}, 1, 20_000)
    hurt = [controller(1, 2, 300), creep(2, *WEST, "work*3 carry", energy=20, hits=150), creep(3, *EAST, "work*3 carry", energy=20, hits=100)]
    # (of the hits 150 the last part has 100 and the one before it 50)
    calls = [(1, "upgrade", 2, 1, 0), (1, "upgrade", 3, 1, NO_BODYPART)]
    yield Case("work parts that are dead", hurt, calls, {1: {"progress": 1, "timer": 399}, 2: {"energy": 19}}, gains={1: 1})
    far = [controller(1, 2, 300), creep(2, 13, 7, "work carry", energy=5), creep(3, 14, 10, "work carry", energy=5), creep(4, *EAST, "work carry", 2, energy=5)]
    calls = [(1, "upgrade", 2, 1, 0), (1, "upgrade", 3, 1, NOT_IN_RANGE), (2, "upgrade", 4, 1, NOT_OWNER)]
    yield Case("an upgrade over three tiles", far, calls, {1: {"progress": 1, "timer": 399}, 2: {"energy": 4}}, gains={1: 1})


def of_several_upgrades():
    """What several creeps put into a controller in one tick."""
    pair = [controller(1, 1, 300, progress=190), creep(2, *WEST, "work*10 carry", energy=20), creep(3, *EAST, "work*7 carry", energy=20)]
    after = {1: {"extra": 2, "progress": 7, "timer": 5099}, 2: {"energy": 10}, 3: {"energy": 13}}
    yield Case("a level that is reached, and more", pair, BY_BOTH, after, gains={1: 17})
    pair = [controller(1, 3, 300), creep(2, *WEST, "work*10 carry", energy=20), creep(3, *EAST, "work*7 carry", energy=20)]
    yield Case("two upgrade", pair, BY_BOTH, {1: {"progress": 17, "timer": 499}, 2: {"energy": 10}, 3: {"energy": 13}}, gains={1: 17})


def of_upgraders():
    """Upgrades by a creep that does other things before."""
    busy = [controller(1, 2, 300), creep(2, *WEST, "work*2 carry heal", energy=3, hits=350), thing("road", 3, *NORTH, timer=9, hits=1000)]
    after = {1: {"progress": 1, "timer": 399}, 2: {"energy": 0}, 3: {"hits": 1200}}
    yield Case("a repair leaves 1 of the load", busy, [*BY_2, (1, "repair", 2, 3, 0)], after, gains={1: 1})
    busy = [busy[0], {**busy[1], "energy": 2}, busy[2]]
    yield Case("a repair leaves nothing of the load", busy, [*BY_2, (1, "repair", 2, 3, 0)], {2: {"energy": 0}, 3: {"hits": 1200}})
    after = {1: {"progress": 2, "timer": 399}, 2: {"energy": 0, "hits": 362}}
    yield Case("who heals upgrades too", busy, [*BY_2, (1, "heal", 2, 2, 0)], after, gains={1: 2})
    handed = [controller(1, 2, 300), creep(2, *WEST, "work*9 carry", energy=1), creep(3, 8, 10, "carry", energy=7)]
    after = {1: {"progress": 8, "timer": 399}, 2: {"energy": 0}, 3: {"energy": 0}}
    yield Case("a load that another hands over", handed, [*BY_2, (1, "transfer", 3, 2, 0, 0)], after, gains={1: 8})
    filled = [controller(1, 2, 300), creep(2, *WEST, "work*9 carry", energy=1), source(3, 9, 9)]
    after = {1: {"progress": 9, "timer": 399}, 2: {"energy": 10}, 3: {"energy": 1482, "timer": 300}}
    yield Case("a load that was harvested in the same tick", filled, [*BY_2, (1, "harvest", 2, 3, 0)], after, gains={1: 9})


def of_last_upgrades():
    """Upgrades by a creep that dies in the tick, and of a controller whose time is over."""
    ended = [controller(1, 2, 300), creep(2, *WEST, "work*9 carry", energy=20)]
    # (20 fall, of which 1 is lost in the same tick)
    left = [thing("pile", FIRST_NEW, *WEST, energy=19)]
    yield Case("who ends himself puts nothing into it", ended, [*BY_2, (1, "suicide", 2, 0)], gone=[2], new=left)
    killed, after = [controller(1, 2, 300), creep(2, *WEST, "work carry", energy=7), creep(3, 8, 10, "attack*9", 2)], {1: {"progress": 1, "timer": 399}}
    left = [thing("pile", FIRST_NEW, *WEST, energy=5)]
    yield Case("who is killed has upgraded", killed, [*BY_2, (2, "attack", 3, 2, 0)], after, gone=[2], new=left, gains={1: 1})
    old = [controller(1, 2, 300), creep(2, *WEST, "work carry", energy=1, timer=1)]
    yield Case("an upgrade in the last tick of a creep", old, BY_2, after, gone=[2], gains={1: 1})
    saved = [controller(1, 2, 1, progress=9), creep(2, *WEST, "work carry", energy=5)]
    yield Case("a level that is kept in its last tick", saved, BY_2, {1: {"progress": 10, "timer": 100}, 2: {"energy": 4}}, gains={1: 1})


def of_the_last_level():
    """A controller of level 8 takes 15 in a tick."""
    for work, load, put in ((1, 50, 1), (14, 50, 14), (15, 50, 15), (16, 50, 15), (49, 50, 15), (49, 9, 9)):
        yield upgraded(f"{work} WORK and a load of {load} at level 8", 8, 0, work, load, {"timer": 399}, put)
    yield upgraded("the time of level 8 at its most", 8, 0, 15, 50, {"timer": 199_999}, 15, 199_950)
    three = [controller(1, 8, 300), *[creep(serial, *at, "work*7 carry", energy=20) for serial, at in ((2, WEST), (3, EAST), (4, NORTH))]]
    calls = [(1, "upgrade", serial, 1, 0) for serial in (4, 3, 2)]
    yield Case("15 of three creeps", three, calls, {1: {"timer": 599}, 2: {"energy": 13}, 3: {"energy": 13}, 4: {"energy": 19}}, gains={1: 15})
    three = [controller(1, 8, 300), *[creep(serial, *at, "work*15 carry", energy=20) for serial, at in ((2, WEST), (3, EAST), (4, NORTH))]]
    yield Case("15 of one, and nothing of two more", three, calls, {1: {"timer": 399}, 2: {"energy": 5}}, gains={1: 15})
    rising = [controller(1, 7, 300, progress=10_934_990), creep(2, *WEST, "work*10 carry", energy=20)]
    rising += [creep(3, *EAST, "work*20 carry", energy=20), creep(4, *NORTH, "work carry", energy=9)]
    after = {1: {"extra": 8, "progress": 0, "timer": 100_099}, 2: {"energy": 10}, 3: {"energy": 15}}
    yield Case("what was put into it before it rose counts", rising, calls, after, gains={1: 15})
    rising = [controller(1, 7, 300, progress=10_934_990), creep(2, *WEST, "work*20 carry", energy=20), *rising[2:]]
    after = {1: {"extra": 8, "progress": 0, "timer": 99_999}, 2: {"energy": 0}}
    yield Case("more than 15 was put into it before it rose", rising, calls, after, gains={1: 20})
    own = [thing("controller", 1, *MIDDLE, owner=2, extra=8, timer=300), creep(2, *WEST, "work*20 carry", 2, energy=50)]
    yield Case("another player's", own, [(2, "upgrade", 2, 1, 0)], {1: {"timer": 399}, 2: {"energy": 35}}, gains={2: 15})


def of_reservations():
    reserve = [(1, "reserve", 2, 1, 0)]
    for count, left in ((1, 1), (2, 2), (50, 50)):
        mine = {1: {"other": 1, "other_ticks": left}}
        yield Case(f"a new reservation by {count} parts", [controller(), creep(2, *WEST, f"claim*{count}")], reserve, mine)
    for before, count, left in ((1, 1, 1), (10, 2, 11), (4998, 1, 4998), (4999, 1, 4999), (4999, 2, 4999), (5000, 1, 4999), (5000, 50, 4999)):
        objects = [reserved(1, before), creep(2, *WEST, f"claim*{count}")]
        yield Case(f"an own reservation of {before} by {count} parts", objects, reserve, {1: {"other_ticks": left}})
    two = [controller(), creep(2, *WEST, "claim"), creep(3, *EAST, "claim*3")]
    yield Case("two creeps reserve", two, [*reserve, (1, "reserve", 3, 1, 0)], {1: {"other": 1, "other_ticks": 4}})
    rivals = [controller(), creep(2, *WEST, "claim*9", 2), creep(3, *EAST, "claim*3")]
    yield Case("of two players the one of the lesser number", rivals, [(2, "reserve", 2, 1, 0), (1, "reserve", 3, 1, 0)], {1: {"other": 1, "other_ticks": 3}})
    refused = [(1, "reserve", 2, 1, INVALID_TARGET)]
    others = [("another's reservation", reserved(2, 9)), ("another's", controller(2, 1, 9)), ("an own one", controller(1, 1, 9))]
    for whose, it in others:
        yield Case(f"a reservation where it is {whose}", [it, creep(2, *WEST, "claim")], refused)
    far = [controller(), creep(2, 12, 10, "claim"), creep(3, 11, 11, "claim*3", hits=150), creep(4, *NORTH, "claim move", hits=100)]
    # (of the hits 150 the last part has 100 and the one before it 50)
    calls = [(1, "reserve", 2, 1, NOT_IN_RANGE), (1, "reserve", 3, 1, 0), (1, "reserve", 4, 1, NO_BODYPART)]
    yield Case("who is too far away, and parts that are dead", far, calls, {1: {"other": 1, "other_ticks": 2}})
    ended = [controller(), creep(2, *WEST, "claim")]
    yield Case("who ends himself doesn't reserve", ended, [*reserve, (1, "suicide", 2, 0)], gone=[2])
    healer = [controller(), creep(2, *WEST, "claim heal attack", hits=250), creep(3, 8, 10, "tough*9", 2)]
    yield Case("who heals reserves too", healer, [*reserve, (1, "heal", 2, 2, 0)], {1: {"other": 1, "other_ticks": 1}, 2: {"hits": 262}})
    yield Case("who strikes reserves too", healer, [*reserve, (1, "attack", 2, 3, 0)], {1: {"other": 1, "other_ticks": 1}, 3: {"hits": 870}})


ATTACK = [(1, "attack_controller", 2, 1, 0)]


def attacked(name, it, count, after):
    """A controller, and a creep of so many CLAIM parts that attacks it."""
    return Case(name, [it, creep(2, *WEST, f"claim*{count}")], ATTACK, {1: after})


def of_attacks():
    yield attacked("700 ticks by two parts", controller(2, 3, 700, progress=7), 2, {"timer": 99})
    yield attacked("302 ticks by one part", controller(2, 3, 302, progress=7), 1, {"timer": 1})
    lost = {"extra": 2, "progress": 0, "timer": 5000}
    # (1 is left, and the level is lost when the time runs)
    for ticks in (1, 2, 300, 301):
        yield attacked(f"{ticks} ticks by one part", controller(2, 3, ticks, progress=7), 1, lost)
    yield attacked("200,000 ticks by fifty parts", controller(2, 8, 200_000), 50, {"timer": 184_999})
    yield attacked("the first level", controller(2, 1, 300, progress=7), 1, {"owner": 0, "extra": 0, "progress": 0, "timer": 0})
    yield attacked("a reservation of 5 by two parts", reserved(2, 5), 2, {"other_ticks": 2})
    yield attacked("a reservation of 5 by three parts", reserved(2, 5), 3, {"other_ticks": 1})
    for ticks, count in ((5, 4), (5, 50), (1, 1), (2, 1)):
        yield attacked(f"a reservation of {ticks} by {count} parts", reserved(2, ticks), count, {"other": 0, "other_ticks": 0})
    refused = [(1, "attack_controller", 2, 1, INVALID_TARGET)]
    for whose, it in (("an own one", controller(1, 1, 700)), ("nobody's", controller()), ("an own reservation", reserved(1, 9))):
        yield Case(f"an attack where it is {whose}", [it, creep(2, *WEST, "claim")], refused)


def of_attackers():
    """Several who attack a controller, and attacks behind what is done for it in the same tick."""
    two = [controller(2, 3, 1000), creep(2, *WEST, "claim"), creep(3, *EAST, "claim*2", 3)]
    yield Case("two attackers", two, [*ATTACK, (3, "attack_controller", 3, 1, 0)], {1: {"timer": 99}})
    two = [reserved(2, 9), creep(2, *WEST, "claim"), creep(3, *EAST, "claim*2", 3)]
    yield Case("two attack a reservation", two, [*ATTACK, (3, "attack_controller", 3, 1, 0)], {1: {"other_ticks": 5}})
    far = [controller(2, 3, 1000), creep(2, 12, 10, "claim"), creep(3, 11, 11, "claim*3", hits=150), creep(4, *NORTH, "claim move", hits=100)]
    calls = [(1, "attack_controller", 2, 1, NOT_IN_RANGE), (1, "attack_controller", 3, 1, 0), (1, "attack_controller", 4, 1, NO_BODYPART)]
    yield Case("attackers who are too far away, and parts that are dead", far, calls, {1: {"timer": 399}})
    held = [controller(2, 2, 1, progress=9), creep(2, *WEST, "claim"), creep(3, *EAST, "work carry", 2, energy=5)]
    after = {1: {"extra": 1, "progress": 0, "timer": 10_000}, 3: {"energy": 4}}
    yield Case("an attack behind an upgrade", held, [*ATTACK, (2, "upgrade", 3, 1, 0)], after, gains={2: 1})
    held = [reserved(2, 5), creep(2, *WEST, "claim*3"), creep(3, *EAST, "claim*2", 2)]
    yield Case("an attack behind a reservation", held, [*ATTACK, (2, "reserve", 3, 1, 0)], {1: {"other_ticks": 3}})
    ended = [reserved(2, 5), creep(2, *WEST, "claim*3")]
    yield Case("who ends himself doesn't attack", ended, [*ATTACK, (1, "suicide", 2, 0)], gone=[2])


def of_overruling():
    """Attacks by a creep that does other things too."""
    healer = [reserved(2, 9), creep(2, *WEST, "claim heal", hits=150)]
    yield Case("who heals doesn't attack", healer, [*ATTACK, (1, "heal", 2, 2, 0)], {2: {"hits": 162}})
    yield Case("who heals over tiles doesn't attack", healer, [*ATTACK, (1, "ranged_heal", 2, 2, 0)], {2: {"hits": 154}})
    fighter = [reserved(2, 9), creep(2, *WEST, "work carry claim attack", energy=9), creep(3, 8, 10, "tough*9", 2), thing("road", 4, 9, 9, timer=9, hits=1000)]
    others = [(1, "attack", 2, 3, 0), (1, "repair", 2, 4, 0), (1, "dismantle", 2, 4, 0)]
    yield Case("who attacks it strikes, mends and tears nothing", fighter, [*ATTACK, *others], {1: {"other_ticks": 7}})
    worker = [controller(1, 2, 300), thing("source", 3, 8, 9, energy=9), creep(2, *WEST, "work carry claim", energy=9)]
    calls = [*BY_2, (1, "attack_controller", 2, 1, INVALID_TARGET), (1, "harvest", 2, 3, 0)]
    after = {1: {"progress": 1, "timer": 399}, 2: {"energy": 10}, 3: {"energy": 7, "timer": 300}}
    yield Case("an attack that is refused overrules nothing", worker, calls, after, gains={1: 1})


# What is left of a controller that is lost, and of a reservation that ends.
FREE = {"owner": 0, "extra": 0, "progress": 0, "timer": 0}
FREED = {"other": 0, "other_ticks": 0}


def of_time():
    """Levels and reservations that run out."""
    for level, timer in ((8, 75_000), (7, 60_000), (6, 40_000), (5, 20_000), (4, 10_000), (3, 5000), (2, 10_000)):
        progress = 0 if level == 8 else 77
        yield Case(f"the end of level {level}", [controller(2, level, 1, progress=progress)], [], {1: {"extra": level - 1, "progress": 0, "timer": timer}})
        yield Case(f"the last tick but one of level {level}", [controller(2, level, 2, progress=progress)], [], {1: {"timer": 1}})
    yield Case("the end of level 1", [controller(2, 1, 1, progress=77)], [], {1: FREE})
    yield Case("nobody's", [controller()], [])
    yield Case("the last tick but one of a reservation", [reserved(2, 2)], [], {1: {"other_ticks": 1}})
    yield Case("the end of a reservation", [reserved(2, 1)], [], {1: FREED})


def of_what_hangs_on_it():
    """Sources and containers in the tick in which an owner or a reservation ends."""
    sources = [source(2, 5, 5), source(3, 7, 5, energy=10, timer=1), source(4, 9, 5, energy=2000), container(5, 5, 7, timer=1)]
    taken = {2: {"timer": 300}, 3: {"energy": 3000, "timer": 0}, 4: {"timer": 300}}
    bare = {3: {"energy": 1500, "timer": 0}}
    worn = {"hits": 245_000, "timer": 100}
    yield Case("what hangs on an owner", [controller(1, 1, 2), *sources], [], {1: {"timer": 1}, **taken, 5: {**worn, "timer": 500}})
    yield Case("what hangs on an owner whose time is over", [controller(1, 1, 1), *sources], [], {1: FREE, **bare, 5: worn})
    yield Case("what hangs on a level that is lost", [controller(1, 2, 1), *sources], [], {1: {"extra": 1, "timer": 10_000}, **taken, 5: {**worn, "timer": 500}})
    yield Case("what hangs on a reservation", [reserved(1, 2), *sources], [], {1: {"other_ticks": 1}, **taken, 5: worn})
    yield Case("what hangs on a reservation that ends", [reserved(1, 1), *sources], [], {1: FREED, **bare, 5: worn})
    fresh = [controller(), *sources, creep(6, *WEST, "claim")]
    yield Case("what hangs on a reservation that begins", fresh, [(1, "reserve", 6, 1, 0)], {1: {"other": 1, "other_ticks": 1}, **taken, 5: worn})
    # (a spawn gains before the controller is lost, and the room's owner is none of its concern)
    spawn = [controller(1, 1, 1), thing("spawn", 2, 20, 20, owner=1, energy=9)]
    yield Case("a spawn in a room that is lost", spawn, [], {1: FREE, 2: {"energy": 10}})


def of_refusals():
    """Calls that fail two checks: the first gives the code."""
    able = "work carry claim"
    objects = [controller(2, 1, 700), creep(2, *WEST, able), creep(3, *EAST, "carry move", energy=9), creep(4, *NORTH, able, 2, energy=9)]
    objects += [creep(5, 20, 20, able, energy=9), creep(6, *SOUTH, "work claim carry", energy=9, hits=100)]
    objects += [source(7, 8, 8, energy=3000), creep(8, 21, 21, "move")]
    calls = []
    for name in CONTROLS:
        calls += [(name, 98, 99, NOT_FOUND), (name, 1, 99, NOT_FOUND), (name, 7, 1, NOT_FOUND), (name, 4, 99, NOT_OWNER), (name, 4, 1, NOT_OWNER)]
        calls += [(name, 3, 99, NO_BODYPART), (name, 6, 7, NO_BODYPART), (name, 8, 1, NO_BODYPART)]
        calls += [(name, 2, target, INVALID_TARGET) for target in (99, 2, 4)]
        calls += [(name, 5, 7, INVALID_TARGET), (name, 5, 1, NOT_IN_RANGE)]
    calls += [("upgrade", 2, 1, NOT_OWNER), ("reserve", 2, 1, INVALID_TARGET), ("attack_controller", 2, 1, 0)]
    yield Case("of two faults the first", objects, [(1, *it) for it in calls], {1: {"timer": 399}})
    own = [controller(1, 1, 700), creep(2, *WEST, able), creep(3, *EAST, able, energy=9)]
    calls = [("upgrade", 2, 1, NOT_ENOUGH), ("reserve", 2, 1, INVALID_TARGET), ("attack_controller", 2, 1, INVALID_TARGET), ("upgrade", 3, 1, 0)]
    yield Case("the own controller", own, [(1, *it) for it in calls], {1: {"progress": 1, "timer": 799}, 3: {"energy": 8}}, gains={1: 1})
    for whose, it in (("nobody's", controller()), ("reserved by another", reserved(2, 9)), ("reserved by the player", reserved(1, 9))):
        yield Case(f"an upgrade of a controller that is {whose}", [it, creep(2, *WEST, able)], [(1, "upgrade", 2, 1, NOT_OWNER)])
    again = [controller(), creep(2, *WEST, "claim work carry", energy=9)]
    calls = [(1, "reserve", 2, 1, 0), (1, "reserve", 2, 2, INVALID_TARGET), (1, "reserve", 2, 99, INVALID_TARGET)]
    yield Case("a refused call leaves the entry", again, calls, {1: {"other": 1, "other_ticks": 1}})


def check_worked():
    cases = [*of_upgrades(), *of_several_upgrades(), *of_upgraders(), *of_last_upgrades(), *of_the_last_level(), *of_reservations()]
    cases += [*of_attacks(), *of_attackers(), *of_overruling(), *of_time(), *of_what_hangs_on_it(), *of_refusals()]
    check_cases(checks, "rooms that are worked out by hand", cases, PLAYERS)


# ---- what follows in the next tick


def turned(name, objects, *turns, fields=None):
    """A room in which players call in the ticks from 0 on. After the last tick the fields of objects have these values."""
    check_turns(checks, name, world(room("E0S0", FIRST_NEW, *objects), players=PLAYERS), *turns, fields=fields)


def check_extensions():
    """Extensions hold what a level allows until the tick in which it is lost, and from the one after it is reached."""
    for level, more in ((7, 50), (8, 100)):
        near = [controller(1, level, 1), thing("extension", 2, 5, 5, owner=1, energy=10), creep(3, 5, 6, "carry*9", energy=400)]
        first, second = (Turn(1, ("get", 1, 9, capacity), ("transfer", 3, 2, 0, answer)) for capacity, answer in ((2 * more, 0), (more, FULL)))
        # (an extension that holds more than it may keeps it)
        turned(f"an extension as level {level} is lost", near, [first], [second], fields={2: {"energy": 2 * more}, 1: {"extra": level - 1}})
    rising = [controller(1, 6, 300, progress=3_644_999), thing("extension", 2, 5, 5, owner=1, energy=50)]
    rising += [creep(3, *WEST, "work carry", energy=9), creep(4, 5, 6, "carry", energy=50)]
    first = Turn(1, ("upgrade", 3, 1, 0), ("transfer", 4, 2, 0, FULL))
    turned("an extension as level 7 is reached", rising, [first], [Turn(1, ("get", 1, 9, 100), ("transfer", 4, 2, 0, 0))], fields={2: {"energy": 100}})


def check_owners():
    """What a controller is to its owner until the tick in which its time is over, and after it."""
    # (the level, the timer and the owner)
    work, looks = creep(3, 10, 13, "work carry", energy=30), [("get", 0, field) for field in (11, 10, 5)]
    before = Turn(1, ("upgrade", 3, 1, 0), *[(*look, value) for look, value in zip(looks, (1, 1, 1))])
    after = Turn(1, ("upgrade", 3, 1, 0), *[(*look, value) for look, value in zip(looks, (1, 100, 1))])
    turned("an owner upgrades in the last tick", [controller(1, 1, 1), work], [before], [after], fields={1: {"progress": 2, "timer": 199}})
    attack = Turn(2, ("attack_controller", 4, 1, 0))
    lost = Turn(1, ("upgrade", 3, 1, NOT_OWNER), *[(*look, 0) for look in looks])
    free = Turn(2, ("attack_controller", 4, 1, INVALID_TARGET), ("reserve", 4, 1, 0))
    attacker, taken = creep(4, *WEST, "claim*2", 2), {1: {"other": 2, "other_ticks": 2, "progress": 0}}
    turned("an owner who is attacked in the last tick", [controller(1, 1, 1), work, attacker], [before, attack], [lost, free], fields=taken)
    alone = [controller(1, 1, 1), thing("site", 2, 5, 5, owner=1, extra=8)]
    turned("a room that is out of sight", alone, [Turn(1, ("rooms", 1), ("count", 2))], [Turn(1, ("rooms", 0), ("count", 0), ("find", 1, NOT_FOUND))])


def check_harvests():
    """Others harvest from the tick after an owner's or a reserver's last one, and up to that in which a reservation begins."""
    for whose, it in (("owner's", controller(2, 1, 1)), ("reserver's", reserved(2, 1))):
        digger = [it, source(2, 5, 5, energy=100), creep(3, 5, 6, "work carry")]
        refused, done = Turn(1, ("get", 1, 9, 3000), ("harvest", 3, 2, NOT_OWNER)), Turn(1, ("get", 1, 9, 1500), ("harvest", 3, 2, 0))
        turned(f"a harvest after the {whose} time", digger, [refused], [done], fields={2: {"energy": 98}, 3: {"energy": 2}})
    reserver, digger = creep(4, *WEST, "claim", 2), [controller(), source(2, 5, 5, energy=100), creep(3, 5, 6, "work carry")]
    first = [Turn(1, ("harvest", 3, 2, 0)), Turn(2, ("reserve", 4, 1, 0))]
    second = [Turn(1, ("harvest", 3, 2, NOT_OWNER)), Turn(2, ("reserve", 4, 1, 0))]
    turned("a harvest as a reservation begins", [*digger, reserver], first, second, fields={2: {"energy": 98}, 1: {"other": 2, "other_ticks": 1}})


# ---- points


def upgraders(index, players):
    """A room with a controller of level 3 of the first of these players, and a creep of 10 WORK parts of each of them."""
    objects = [controller(players[0], 3, 300)]
    tiles = (EAST, WEST, NORTH, SOUTH)
    objects += [creep(2 + place, *tiles[place], "work*10 carry", player, energy=25) for place, player in enumerate(players)]
    return room(f"E{2 * index}S0", FIRST_NEW, *[with_ids(index, one) for one in objects])


def check_points():
    """Points of players in several rooms, added up in a tick and then no more than may be."""
    before = {1: 0, 2: MOST - 20, 3: MOST - 21, 4: MOST - 19, 5: MOST, 6: 1_999_985, 7: 999_999}
    # (whose room it isn't can't upgrade)
    homes = [[1, 2], [1], [2, 1], [2], [3], [3], [4], [4], [5], [5], [6], [6], [6], [7]]
    after = {1: 20, 2: MOST, 3: MOST - 1, 4: MOST, 5: MOST, 6: 2_000_015, 7: 1_000_009}
    players = [{"player": number, "limit": 500, "points": points} for number, points in before.items()]
    first = world(*[upgraders(index, home) for index, home in enumerate(homes)], players=players)
    uploads = []
    for number in before:
        creeps = [(index, 2 + home.index(number)) for index, home in enumerate(homes) if number in home]
        calls = [("upgrade", index * SECOND + serial, index * SECOND + 1) for index, serial in creeps]
        uploads += [Upload(0, number, Table(calls)), Upload(1, number, Table([("points",), ("level",)]))]
    uploads.sort(key=lambda it: it.tick)
    steps = play("points of seven players in several rooms", first, 3, uploads)
    got = {number: account_of(steps[0].world, number)["points"] for number in before}
    checks.note("the points after the tick", [] if got == after else [f"{got} and not {after}"])
    seen = {number: answers_of(steps[1], number, 2) for number in before}
    levels = {1: 1, 2: 94_907, 3: 94_907, 4: 94_907, 5: 94_907, 6: 2, 7: 2}
    wanted = {number: (points, levels[number]) for number, points in after.items()}
    checks.note("what players see of their points", [] if seen == wanted else [f"{seen} and not {wanted}"])
    first = world(room("E0S0", FIRST_NEW, controller(1, 1, 300), creep(2, *WEST, "work*2 carry", energy=9)), players=[{"player": 1, "limit": 20}])
    begin = ["start tick 0 rooms 1 objects 2 players 1", "upload player 1 accepted"]
    said = [*begin, "player 1 finished 10", "tick 1 objects 2 intents 1 energy 7", "player 1 finished 10", "tick 2 objects 2 intents 1 energy 5"]
    play("the lines of an upgrade", first, 2, [Upload(0, 1, Table([("upgrade", 2, 1)]))], said)


# ---- entries for claims, also such as no call makes


def claims(*entries, before=None, **others):
    """The controller of a room after a tick with these entries: players, actions and creeps."""
    objects = [before or controller(), creep(2, *WEST, "claim work carry", energy=9), creep(3, *EAST, "claim*2", 2), creep(4, 12, 10, "claim"), creep(5, *NORTH, "work")]
    first = world(room("E0S0", FIRST_NEW, *objects), players=PLAYERS)
    runs = [Run(number, "finished", 0, b"", {(name, id): (1, 0) for by, name, id in entries if by == number}) for number in (1, 2)]
    after = controller_of(objects_of(ticked(first, runs)))
    return {field: after[field] for field in ("owner", "extra", "progress", "timer", "other", "other_ticks")}


def check_claims():
    def owned(owner, **others):
        return {"owner": owner, "extra": 1, "progress": 0, "timer": 19_999, "other": 0, "other_ticks": 0, **others}

    free = {field: 0 for field in owned(0)}
    mine, theirs = (1, "claim_controller", 2), (2, "claim_controller", 3)
    rows = [
        ("nobody's", claims(mine), owned(1)),
        ("reserved by the player", claims(mine, before=reserved(1, 77)), owned(1)),
        ("reserved by another", claims(mine, before=reserved(2, 77)), {**free, "other": 2, "other_ticks": 76}),
        ("another's", claims(mine, before=controller(2, 1, 9)), owned(2, timer=8)),
        ("an own one", claims(mine, before=controller(1, 3, 9, progress=5)), owned(1, extra=3, timer=8, progress=5)),
        ("claimed by two", claims(theirs, mine), owned(1)),
        ("too far away", claims((1, "claim_controller", 4)), free),
        ("claimed without CLAIM", claims((1, "claim_controller", 5)), free),
        ("claimed by another's creep", claims((1, "claim_controller", 3)), free),
        ("claimed and upgraded", claims(mine, (1, "upgrade", 2)), owned(1, progress=1)),
        ("claimed and reserved", claims(mine, (1, "reserve", 2), (2, "reserve", 3)), owned(1)),
        ("claimed and attacked", claims(mine, (1, "attack_controller", 2), (2, "attack_controller", 3)), owned(1, timer=19_399)),
    ]
    for name, got, wanted in rows:
        checks.note(f"a claim of a controller that is {name}", [] if got == wanted else [f"{got} and not {wanted}"])


# ---- all sets of actions with an attack on a controller

# Each of these is overruled by an attack on a controller, and so are a blow and a harvest.
OTHERS = ["heal", "ranged_heal", "dismantle", "repair", "build", "attack", "harvest", "ranged_mass_attack", "ranged_attack", "upgrade", "reserve"]


def kept(names):
    """Those that count of an attack on a controller and these others: none but heals overrules it, and it overrules what WORK and ATTACK parts do besides."""
    heals = names & {"heal"} or names & {"ranged_heal"}
    found = (heals or {"attack_controller"}) | names & {"upgrade", "reserve"}
    is_busy = names & {"ranged_heal", "repair", "build"}
    return found | (set() if is_busy else names & {"ranged_mass_attack"} or names & {"ranged_attack"})


def check_sets():
    """Each set of other actions of a creep that attacks a controller."""
    sets = [set(it) for count in range(len(OTHERS) + 1) for it in itertools.combinations(OTHERS, count)]
    for names in sets:
        got = {name for name, _ in counting({(name, 1): None for name in (*names, "attack_controller")})}
        checks.note(f"what counts of {sorted(names)} and an attack", [] if got == kept(names) else [f"{sorted(got)} and not {sorted(kept(names))}"])
    targets = {"heal": 2, "ranged_heal": 3, "dismantle": 4, "repair": 5, "build": 6, "attack": 7, "harvest": 8, "ranged_attack": 9, "attack_controller": 10}
    able = creep(1, *MIDDLE, "work carry attack ranged_attack heal claim move", energy=20)
    objects = [able, creep(2, *WEST, "move*2", hits=50), creep(3, 8, 8, "move*2", hits=50)]
    objects += [thing("road", serial, *at, timer=9, hits=4000) for serial, at in ((4, NORTH), (5, (11, 9)))]
    objects += [thing("site", 6, 9, 9, owner=1, extra=5), creep(7, *EAST, "tough", 2), source(8, *SOUTH, energy=900), creep(9, 13, 10, "tough", 2)]
    # (where the controller is another's nobody may harvest, so that it is there in a few)
    some = [names for names in sets if not names & {"upgrade", "reserve"}]
    for at in range(0, len(some), 100):
        names_of_rooms, rooms, calls = some[at : at + 100], [], []
        for index, names in enumerate(names_of_rooms):
            it = {**controller(2, 5, 9000, serial=10), "x": 11, "y": 11}
            rooms.append(room(f"E{index}S0", FIRST_NEW, *[with_ids(index, one) for one in [*objects, it]]))
            wanted = sorted({*names, "attack_controller"})
            calls += [(name, index * SECOND + 1, *([index * SECOND + targets[name]] if name in targets else [])) for name in wanted]
        play("each set of actions of a creep that attacks a controller", world(*rooms, players=PLAYERS), 1, [Upload(0, 1, Table(calls))])


# ---- all calls over controllers of all sorts


def crowd():
    """Rooms with controllers of all sorts, of which player 1 sees all but one, with creeps in and out of reach."""
    able = "work carry claim move"
    owners = [controller(owner, level, 900) for owner, level in ((1, 1), (1, 8), (2, 1), (2, 8), (3, 7))]
    owners += [controller(), reserved(1, 9), reserved(2, 5000), controller(2, 1, 1)]
    near = [creep(2, *WEST, able, energy=20), creep(3, *EAST, able, 2, energy=20), creep(4, 13, 13, able, energy=20)]
    near += [creep(5, *NORTH, able, 2), creep(6, *SOUTH, able)]
    near += [creep(7, 9, 9, "work carry", energy=7), creep(8, 11, 9, "claim"), creep(9, 7, 10, "claim*2", 2)]
    near += [creep(10, 9, 11, able, hits=100), creep(11, 11, 11, "carry", energy=5)]
    near += [creep(12, 14, 10, able, energy=9), source(13, 8, 8), thing("spawn", 14, 12, 8, owner=2, energy=20), creep(15, 12, 10, "claim work", 3)]
    rooms = [[it, *near] for it in owners]
    rooms[-1] = [one for one in rooms[-1] if one.get("owner") != 1]
    # (and one without a controller)
    rooms.append([one for one in near if one["kind"] == "creep"])
    return world(*[room(f"E{2 * index}S0", 30, *[with_ids(index, one) for one in objects]) for index, objects in enumerate(rooms)], players=PLAYERS)


def check_calls():
    """Every call of each creep with each object of its room and with some others: each refusal, and those that are recorded."""
    first = crowd()
    calls, strangers = [], [0, -1, 1 << 53, 29, SECOND * 99 + 1, 1 - (1 << 63), 1, SECOND + 1]
    for index, place in enumerate(first["rooms"]):
        actors = [one["id"] for one in place["objects"] if one["kind"] == "creep"] + [index * SECOND + 1, index * SECOND + 28]
        targets = [one["id"] for one in place["objects"]] + strangers
        calls += [(name, actor, target) for name in CONTROLS for actor in actors for target in targets]
    calls += [(name, actor, target) for name in CONTROLS for actor in strangers for target in (1, 0)]
    tables = [calls[at : at + 8000] for at in range(0, len(calls), 8000)]
    uploads = [Upload(tick, number, Table(table)) for tick, table in enumerate(tables) for number in (1, 2, 3)]
    steps = play("every call of each creep with each object", first, len(tables), uploads)
    seen = set()
    for step, table in zip(steps, tables):
        for number in (1, 2, 3):
            answers = answers_of(step, number, len(table))
            seen |= {(name, answer) for (name, *_), answer in zip(table, answers)}
    for name in CONTROLS:
        wanted = {0, NOT_FOUND, NOT_OWNER, NO_BODYPART, INVALID_TARGET, NOT_IN_RANGE} | ({NOT_ENOUGH} if name == "upgrade" else set())
        found = {code for other, code in seen if other == name}
        checks.note(f"each answer of {name} came", [] if found == wanted else [f"{sorted(found)} and not {sorted(wanted)}"])


def check_full_record():
    """4,096 upgrades in one tick, and then more of each of the calls."""
    tiles = [(x, y) for x in range(7, 14) for y in range(7, 14) if (x, y) != MIDDLE]
    count = -(-MOST_ENTRIES // len(tiles)) + 1
    rooms, calls = [], []
    for index in range(count):
        creeps = [creep(2 + place, *tile, "work carry claim", energy=3) for place, tile in enumerate(tiles)]
        rooms.append(room(f"E{index % 100}S{index // 100}", 99, *[with_ids(index, one) for one in [controller(1, 1 + index % 8, 900), *creeps]]))
        calls += [("upgrade", index * SECOND + 2 + place, index * SECOND + 1) for place in range(len(tiles))]
    free = [with_ids(count, one) for one in (controller(), creep(2, *WEST, "claim"))]
    held = [with_ids(count + 1, one) for one in (controller(2, 1, 900), creep(2, *WEST, "claim"))]
    rooms += [room(f"E{place}S9", 99, *objects) for place, objects in enumerate((free, held))]
    calls, left = calls[:MOST_ENTRIES], calls[MOST_ENTRIES:]
    rest = [("reserve", *[one["id"] for one in reversed(free)]), ("attack_controller", *[one["id"] for one in reversed(held)]), *left[:2]]
    rest += [calls[0], ("upgrade", 2, SECOND + 1), calls[-1]]
    steps = play("a record of 4,096 upgrades", world(*rooms, players=PLAYERS), 1, [Upload(0, 1, Table([*calls, *rest]))])
    answers = answers_of(steps[0], 1, len(calls) + len(rest))
    wanted = (*[0] * MOST_ENTRIES, FULL, FULL, FULL, FULL, 0, NOT_IN_RANGE, 0)
    checks.note("what a full record answers", [] if answers == wanted else [f"{answers[MOST_ENTRIES:]} and not {wanted[MOST_ENTRIES:]}"])
    # (a creep puts 1 into it, and a controller of level 8 takes 15 of the 48 that are put into others)
    last = [index for index in range(count) if 1 + index % 8 == 8]
    lost = sum(max(0, sum(call[1] // SECOND == index for call in calls) - 15) for index in last)
    got = account_of(steps[0].world, 1)["points"]
    checks.note("the points of 4,096 upgrades", [] if got == MOST_ENTRIES - lost else [f"{got} and not {MOST_ENTRIES - lost}"])


# ---- random worlds of controllers


class Draw:
    """Random worlds of rooms with a controller each, round which creeps of three players stand, and random calls in them."""

    def __init__(self, seed):
        self.random = random.Random(seed)

    def chance(self, share):
        return self.random.random() < share

    def controller(self, serial):
        level = self.random.choice((0, 0, 0, 1, 1, 2, 3, 4, 5, 6, 7, 7, 8, 8))
        if level == 0:
            ticks = self.random.choice((1, 2, 3, self.random.randint(1, 20), 4990, 5000))
            return reserved(self.random.choice((1, 2, 3)), ticks, serial) if self.chance(0.6) else controller(serial=serial)
        timer = self.random.choice((1, self.random.randint(1, 9), self.random.randint(1, 700), DOWNGRADES[level] - self.random.randint(0, 300)))
        below = self.random.choice((1, self.random.randint(1, 60), LEVELS[level])) if LEVELS[level] else 0
        return controller(self.random.choice((1, 2, 3)), level, timer, serial, progress=LEVELS[level] - below)

    def creep(self, serial, x, y, owner):
        """Mostly of the parts that controllers are for."""
        kinds = self.random.choice((["work", "work", "carry"], ["work", "carry", "claim"], ["claim"], ["work", "attack", "heal", "claim", "ranged_attack"]))
        body = [self.random.choice(kinds) for _ in range(self.random.choice((1, 2, 4, 9, 20)))]
        body += ["carry"] * self.random.randrange(3) + ["move"] * self.random.randrange(2)
        hits = self.random.choice((100 * len(body), 100 * len(body), self.random.randint(1, 100 * len(body))))
        timer = self.random.choice((self.random.randint(1, 9), 600, 600))
        one = thing("creep", serial, x, y, owner=owner, body=body, hits=hits, timer=timer)
        most = 50 * live(one, "carry")
        return {**one, "energy": self.random.choice((most, most, self.random.randint(0, most)))}

    def room(self, index):
        """The controller's owner, or who reserves it, has the most creeps round it."""
        around = [(x, y) for x in range(7, 14) for y in range(7, 14) if (x, y) != MIDDLE]
        near = [(x, y) for x, y in around if abs(x - 10) <= 1 and abs(y - 10) <= 1]
        self.random.shuffle(around)
        serials = self.random.sample(range(1, 100), 40)
        it = self.controller(serials.pop())
        tiles = [*self.random.sample(near, 5), *[tile for tile in around if tile not in near][:18]]
        home = it["owner"] or it.get("other") or 1
        objects = [self.creep(serials.pop(), *tile, self.random.choice((home, home, 1, 2, 3))) for tile in tiles[:15]]
        objects += [container(serials.pop(), *tile, energy=self.random.randint(0, 2000), timer=self.random.randint(1, 12)) for tile in tiles[15:17]]
        objects += [source(serials.pop(), *tile, energy=self.random.randint(0, 3000), timer=self.random.choice((0, 1, 2, 40))) for tile in tiles[17:19]]
        objects += [thing("extension", serials.pop(), *tiles[19], owner=home, energy=self.random.randint(0, 200))]
        objects += [thing("road", serials.pop(), *tiles[20], timer=50, hits=self.random.randint(1, 4000))]
        return room(f"E{2 * (index % 40)}S{2 * (index // 40)}", 200, *[with_ids(index, one) for one in [it, *objects]])

    def world(self, rooms):
        points = {1: 0, 2: MOST - 300, 3: 12_345_678}
        players = [{"player": number, "limit": 500, "points": most} for number, most in points.items()]
        return world(*[self.room(index) for index in range(rooms)], players=players)

    def names(self, one):
        """What a creep does: mostly what is done with controllers."""
        rest = ("transfer", "withdraw", "harvest", "repair", "heal", "ranged_heal", "dismantle", "attack", "drop", "ranged_mass_attack")
        able = [name for name in rest if not ACTIONS[name].part or live(one, ACTIONS[name].part)]
        names = [name for name in CONTROLS if live(one, ACTIONS[name].part) and self.chance(0.8)]
        return names + self.random.sample(able, self.random.choice((0, 0, 0, 1, 2))) + ["move"] * self.chance(0.1) + ["suicide"] * self.chance(0.01)

    def calls(self, it, number):
        found, everything = [], [one["id"] for one in objects_of(it)]
        for place in it["rooms"]:
            for one in place["objects"]:
                if one["kind"] == "creep" and one["owner"] == number:
                    found += [call for call in (call_of(self.random, name, one, place["objects"]) for name in self.names(one)) if call]
        found += [(self.random.choice(CONTROLS), self.random.choice(everything), self.random.choice(everything)) for _ in range(10)]
        self.random.shuffle(found)
        return found


def changes_between(before, after, _):
    """What became of controllers in a tick, and how many players came to the most points."""
    done, left = [], {one["id"]: one for one in objects_of(after)}
    for one in objects_of(before):
        if one["kind"] == "controller":
            now, level = left[one["id"]], one["extra"]
            done += [f"level {now['extra']} was reached"] if now["extra"] > level else []
            done += [f"level {level} was lost"] if now["extra"] < level else []
            done += ["a reservation began"] if now["other"] and not one["other"] else []
            done += ["a reservation ended"] if one["other"] and not now["other"] else []
    done += ["a player has all points" for account in after["players"] if account["points"] == MOST]
    return {name: done.count(name) for name in done}


def check_randoms():
    done = {}
    for seed in range(1, 5):
        draw = Draw(seed)
        count_into(done, play_drawn(checks, f"random controllers of seed {seed}", draw.world(40), 10, (1, 2, 3), draw.calls, changes_between))
    least = {(name, True): 100 for name in CONTROLS} | {(name, False): 10 for name in CONTROLS}
    least |= {"a reservation began": 20, "a reservation ended": 20, "a player has all points": 5}
    least |= {f"level {level} was reached": 2 for level in range(2, 9)} | {f"level {level} was lost": 3 for level in range(1, 9)}
    note_counts(checks, "of all that controllers come to there is enough", done, least)


def main():
    check_worked()
    check_extensions()
    check_owners()
    check_harvests()
    check_points()
    check_claims()
    check_sets()
    check_calls()
    check_full_record()
    check_randoms()
    checks.finish()


if __name__ == "__main__":
    main()
