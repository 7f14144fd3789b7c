"""Which rules of docs/formats.md a world breaks: for the worlds that checks and measures make, and for those that a tick leaves."""

from game import DOWNGRADES, FIXED, HITS, KINDS, LEVELS, MOST_PILE, MOST_POINTS, MOST_RESERVED, MOST_SITES, OBSTRUCTING, SECOND, TOTALS, capacity, hits_max, lifetime
from worlds import CORNERS, account_of, full, objects_of

OWNED = ("creep", "spawn", "extension", "storage", "site")


def broken(it):
    """Each rule that is broken, with where."""
    it = full(it)
    faults = list(of_counts(it))
    names, homes = [place["name"] for place in it["rooms"]], {}
    for index, place in enumerate(it["rooms"]):
        if place["name"] in names[:index]:
            faults.append(f"RoomTwice {index}")
        if any(place["terrain"][corner] != "1" for corner in CORNERS):
            faults.append(f"Corner {index}")
        if sum(one["kind"] == "controller" for one in place["objects"]) > 1:
            faults.append(f"Controllers {index}")
        faults += of_tiles(place)
        for one in place["objects"]:
            faults += of_object(it, place, one)
            if one["id"] in homes:
                faults.append(f"IdTwice {one['id']}")
            homes[one["id"]] = index
    return faults


def of_counts(it):
    if not 1 <= len(it["rooms"]) <= 400 or len(objects_of(it)) > 20_000 or len(it["players"]) > 64:
        yield "Counts 0"
    for place, account in enumerate(it["players"]):
        if account["player"] in [other["player"] for other in it["players"][:place]]:
            yield f"PlayerTwice {account['player']}"
        if account["points"] > MOST_POINTS:
            yield f"Points {account['player']}"
        if sum(one["kind"] == "site" and one["owner"] == account["player"] for one in objects_of(it)) > MOST_SITES:
            yield f"Sites {account['player']}"


def of_tiles(place):
    """What stands where it may not."""
    standing = {}
    for one in place["objects"]:
        tile, kind = (one["x"], one["y"]), one["kind"]
        wall = place["terrain"][50 * one["y"] + one["x"]] == "1"
        border = {0, 49} & set(tile)
        if wall and kind not in ("source", "controller") or border and kind not in ("creep", "pile"):
            yield f"Tile {one['id']}"
        for other in standing.get(tile, ()):
            kinds = {kind, other}
            if kinds in ({"creep"}, {"pile"}) or kinds <= set(FIXED) or "creep" in kinds and kinds & set(OBSTRUCTING):
                yield f"Shared {one['id']}"
        standing.setdefault(tile, []).append(kind)


def of_object(it, place, one):
    index, serial = divmod(one["id"], SECOND)
    if index >= len(it["rooms"]) or not 1 <= serial < it["rooms"][index]["next"]:
        yield f"Serial {one['id']}"
    owned = one["kind"] in (*OWNED, "controller")
    wrong = one["owner"] and (account_of(it, one["owner"]) is None or not owned)
    if wrong or one["other"] and (account_of(it, one["other"]) is None or one["kind"] != "controller"):
        yield f"Owner {one['id']}"
    if not RANGES[one["kind"]](one, place["objects"]):
        yield f"Range {one['id']}"


def only(one, *fields):
    """All other fields are 0, and the body is empty, but for these."""
    names = {"owner", "hits", "energy", "timer", "extra", "progress", "other", "other_ticks", "body"} - set(fields)
    return not any(one[name] for name in names) and (one["kind"] not in OWNED or one["owner"] >= 1)


def is_controller(one, _):
    level = one["extra"]
    if not (only(one, "owner", "extra", "progress", "timer", "other", "other_ticks") and 0 <= level <= 8):
        return False
    timer = 1 <= one["timer"] <= DOWNGRADES[level] if level else one["timer"] == 0
    progress = one["progress"] < LEVELS[level] if LEVELS[level] else one["progress"] == 0
    reserved = 1 <= one["other_ticks"] <= MOST_RESERVED and level == 0 if one["other"] else one["other_ticks"] == 0
    return (one["owner"] > 0) == (level > 0) and timer and progress and reserved


def is_creep(one, objects):
    fields = only(one, "owner", "body", "hits", "energy", "timer", "extra") and 1 <= len(one["body"]) <= 50
    return fields and 1 <= one["hits"] <= hits_max(one) and one["energy"] <= capacity(one, objects) and 1 <= one["timer"] <= lifetime(one["body"]) and one["extra"] <= 500


def is_spawn(one, _):
    busy = bool(one["body"]) == (one["timer"] > 0) and one["timer"] <= 3 * len(one["body"]) and len(one["body"]) <= 50
    return only(one, "owner", "hits", "energy", "timer", "body") and has_hits(one) and one["energy"] <= 300 and busy


def has_hits(one):
    return 1 <= one["hits"] <= HITS[one["kind"]]


RANGES = {
    "source": lambda one, _: only(one, "energy", "timer") and one["energy"] <= 3000 and one["timer"] <= 300,
    "controller": is_controller,
    "creep": is_creep,
    "spawn": is_spawn,
    "extension": lambda one, _: only(one, "owner", "hits", "energy") and has_hits(one) and one["energy"] <= 200,
    "storage": lambda one, _: only(one, "owner", "hits", "energy") and has_hits(one) and one["energy"] <= 1_000_000,
    "container": lambda one, _: only(one, "hits", "energy", "timer") and has_hits(one) and one["energy"] <= 2000 and 1 <= one["timer"] <= 500,
    "road": lambda one, _: only(one, "hits", "timer") and has_hits(one) and 1 <= one["timer"] <= 1000,
    "pile": lambda one, _: only(one, "energy") and 1 <= one["energy"] <= MOST_PILE,
    "site": lambda one, _: only(one, "owner", "extra", "progress") and 4 <= one["extra"] <= 8 and one["progress"] < TOTALS[KINDS[one["extra"] - 1]],
}
