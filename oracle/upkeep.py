"""What a tick makes of rooms once all entries are done and creeps have stepped, for the checks and the measures.

It is a second writing of the rules in docs/formats.md, as oracle/game.py is, which shares nothing with the program.
"""

from game import BUILDINGS, DIRECTIONS, DOWNGRADES, Course, full_timer, hits_max, lifetime, live, payers, source_room
from movement import ahead, is_open, tile_of

LOSSES = {"container": 5000, "road": 100}
OF_A_SPAWN = 300


# ---- the steps: each of an object, which stands in the room of an index


def struck(course, index, one):
    """Damage and healing come to a creep or a building; without hits it is gone."""
    if one["kind"] not in ("creep", *BUILDINGS):
        return
    one["hits"] = course.harm.hits_left(one)
    if one["hits"] == 0:
        course.lose(index, one)


def unloaded(course, index, one):
    """What a creep carries above what its live carry parts hold falls on its tile."""
    if one["kind"] == "creep":
        above = max(0, one["energy"] - 50 * live(one, "carry"))
        one["energy"] -= above
        course.fall(index, one, above)


def aged(course, index, one):
    """A creep's timer falls; at 0 it is gone."""
    if one["kind"] == "creep":
        one["timer"] -= 1
        if one["timer"] == 0:
            course.lose(index, one)


def recovered(_, __, one):
    """Fatigue falls by 2 for each move part that has hits."""
    if one["kind"] == "creep":
        one["extra"] = max(0, one["extra"] - 2 * live(one, "move"))


def filled(course, index, one):
    """A spawn gains 1 where the spawns and extensions of its owner hold less together than one spawn may."""
    if one["kind"] != "spawn" or one["energy"] >= OF_A_SPAWN:
        return
    held = sum(it["energy"] for it in payers(one["owner"], course.rooms[index]["objects"]))
    one["energy"] += held < OF_A_SPAWN


def tile_round(place, spawn):
    """The first tile round a spawn, from the top clockwise, that is no wall and has neither a creep nor what lets none by; None without one."""
    creeps = {tile_of(one) for one in place["objects"] if one["kind"] == "creep"}
    tiles = [ahead(spawn, direction) for direction in DIRECTIONS]
    return next((tile for tile in tiles if tile and is_open(place, *tile) and tile not in creeps), None)


def hatched(course, index, one):
    """The timer of a spawn falls. In its last tick the creep comes, where there is a tile for it, and else the spawn waits."""
    if one["kind"] != "spawn" or one["timer"] == 0:
        return
    if one["timer"] > 1:
        one["timer"] -= 1
        return
    tile, body = tile_round(course.rooms[index], one), one["body"]
    if tile:
        one.update(timer=0, body=[])
        course.make(index, "creep", *tile, owner=one["owner"], body=body, hits=hits_max({"kind": "creep", "body": body}), timer=lifetime(body))


def lapsed(_, __, one):
    """A controller loses time or, where nobody owns it, its reservation. What was put into it in the tick is forgotten."""
    if one["kind"] != "controller":
        return
    if one["extra"] == 0:
        one["other_ticks"] -= one["other"] > 0
        one["other"] = one["other"] if one["other_ticks"] else 0
        return
    one["other_ticks"] = 0
    one["timer"] -= 1
    if one["timer"] == 0:
        one.update(extra=one["extra"] - 1, progress=0, timer=DOWNGRADES[one["extra"] - 1] // 2)
        one["owner"] = one["owner"] if one["extra"] else 0


def renewed(course, index, one):
    if one["kind"] != "source":
        return
    most = source_room(course.rooms[index]["objects"])
    if one["timer"] > 0:
        one["timer"] -= 1
        if one["timer"] == 0:
            one["energy"] = max(one["energy"], most)
    elif one["energy"] < most:
        one["timer"] = 300


def weathered(course, index, one):
    """The timer of a container or a road falls; at 0 it loses hits and is full again. Without hits the building is gone."""
    if one["kind"] not in LOSSES:
        return
    one["timer"] -= 1
    if one["timer"] > 0:
        return
    one["hits"] = max(0, one["hits"] - LOSSES[one["kind"]])
    one["timer"] = full_timer(one["kind"], course.rooms[index]["objects"])
    if one["hits"] == 0:
        course.lose(index, one)


def dwindled(course, index, one):
    """A pile loses a thousandth, rounded up; at 0 it is gone."""
    if one["kind"] == "pile":
        one["energy"] -= -(-one["energy"] // 1000)
        if one["energy"] == 0:
            course.remove(index, one)


STEPS = (struck, unloaded, aged, recovered, filled, hatched, lapsed, renewed, weathered, dwindled)


def settled(rooms, harm):
    """The steps of upkeep in all rooms, one after the other, each over the objects in rising id."""
    course = Course(rooms, harm)
    for index, place in enumerate(rooms):
        for step in STEPS:
            for one in sorted(place["objects"], key=lambda one: one["id"]):
                step(course, index, one)
