"""Worlds and modules at the top of what the rules leave (docs/formats.md), for the checks of limits and of costs."""

import json

from game import MOST_PARTS, PARTS, SECOND, thing
from large_modules import filled
from scripts import MOST_ENTRIES, MOST_TEXT, Script, unkept
from worlds import MIB, room, world

MOST_ROOMS, MOST_PLAYERS, MOST_OBJECTS, MOST_SITES = 400, 64, 20_000, 100
# Every tile but the four corners, which are walls, and those of them that are inside.
TILES = [(x, y) for y in range(50) for x in range(50) if not (x in (0, 49) and y in (0, 49))]
INSIDE = [(x, y) for x, y in TILES if 0 < x < 49 and 0 < y < 49]
# A body of all kinds that carries 1,000 and bears its load on plain ground. (It is one list for all, which is copied as one.)
BODY = ["carry"] * 20 + ["move"] * 20 + PARTS[3:] + ["work"] * 5
assert len(BODY) == MOST_PARTS
ROAD = 8


def file_of(it):
    """The world file, as short as Python makes it."""
    return json.dumps(it, separators=(",", ":")).encode()


def name_of(index):
    """Names of rooms of which none lies beside another."""
    return f"E{index % 20 * 2}S{index // 20 * 2}"


def id_of(index, serial):
    return index * SECOND + serial


def creep(index, serial, tile, owner, body=BODY, **fields):
    # (so long a life that none dies of age)
    timer = 600 if "claim" in body else 1500
    return thing("creep", id_of(index, serial), *tile, owner=owner, body=body, hits=100 * len(body), timer=timer, **fields)


def filled_room(index, owners, sites=()):
    """The objects of a room that has as many as a room can have: on each tile but the corners a creep and a pile, and on those inside one more thing. Creep k,
    from 0 on, is of the owner `owners(k)`; each of the owners `sites` has as many sites as he may, and the rest are roads."""
    creeps = [creep(index, 1 + at, tile, owners(at), energy=500) for at, tile in enumerate(TILES)]
    piles = [thing("pile", id_of(index, 3000 + at), *tile, energy=10**6) for at, tile in enumerate(TILES)]
    built = []
    for at, tile in enumerate(INSIDE):
        is_site = at < MOST_SITES * len(sites)
        fields = {"owner": sites[at // MOST_SITES], "extra": ROAD, "progress": 299} if is_site else {"hits": 5000, "timer": 1000}
        built.append(thing("site" if is_site else "road", id_of(index, 6000 + at), *tile, **fields))
    return [*creeps, *piles, *built]


def full_room(players, **fields):
    """A world of one room with 7,296 objects, whose creeps are of these players in turn."""
    objects = filled_room(0, lambda at: players[at % len(players)], players[:2])
    return world(room("E0S0", 10_000, *objects), players=[{"player": number, "limit": 500, **fields} for number in players])


def full_world():
    """400 rooms and 64 players with memory texts of 65,536 bytes, and 20,000 objects, 7,296 of them in one room: there each player has a creep, and the first
    two all that are left."""
    numbers = range(1, MOST_PLAYERS + 1)
    rooms = [room(name_of(0), 10_000, *filled_room(0, lambda at: at + 1 if at < MOST_PLAYERS else at % 2 + 1, (1, 2)))]
    left = MOST_OBJECTS - len(rooms[0]["objects"])
    for index in range(1, MOST_ROOMS):
        count = left * index // (MOST_ROOMS - 1) - left * (index - 1) // (MOST_ROOMS - 1)
        rooms.append(room(name_of(index), 100, *[creep(index, 1 + at, INSIDE[50 * at], (index + at) % MOST_PLAYERS + 1, energy=1000) for at in range(count)]))
    return world(*rooms, players=[{"player": number, "limit": 500, "memory": "5a" * MOST_TEXT} for number in numbers])


def crowd(rooms, players):
    """Rooms with a creep on each tile but the corners, so many to each player as he may have intents, and none of anybody in the last ones."""
    places, at = [], 0
    for index in range(rooms):
        creeps = [creep(index, 1 + place, tile, (at + place) // MOST_ENTRIES + 1, energy=500) for place, tile in enumerate(TILES)]
        at += len(creeps)
        places.append(room(name_of(index), 3000, *creeps))
    return world(*places, players=[{"player": number, "limit": 500} for number in range(1, players + 1)])


# ---- players


def ids_of(it, player, index=None):
    """The creeps of a player in a world, or in one room of it, in rising id."""
    places = it["rooms"] if index is None else [it["rooms"][index]]
    return [one["id"] for place in places for one in place["objects"] if one["kind"] == "creep" and one["owner"] == player]


def dropping(ids, amount=1):
    return [instruction for id in ids for instruction in unkept("drop", id, amount)]


def wanting(it, player, index):
    """The instructions that fill a player's record with what his creeps of a room can do there: each drops and picks up, hands something to the next one of all,
    and some step."""
    objects = {one["id"]: one for one in it["rooms"][index]["objects"]}
    beside = {(one["x"], one["y"]): id for id, one in objects.items() if one["kind"] == "creep"}
    piles = {(one["x"], one["y"]): id for id, one in objects.items() if one["kind"] == "pile"}
    mine, code = ids_of(it, player, index), []
    for name in ("drop", "pickup", "transfer", "move"):
        for id in mine:
            x, y = objects[id]["x"], objects[id]["y"]
            other = beside.get((x + 1, y)) or beside.get((x - 1, y)) or 0
            arguments = {"drop": (1,), "pickup": (piles[x, y],), "transfer": (other, 2), "move": (1 + (x + y) % 8,)}[name]
            code += unkept(name, id, *arguments)
    return code


class Longest(Script):
    """A script whose module is one mebibyte, by a custom section behind it."""

    def __init__(self, loop, **others):
        super().__init__(loop, **others)
        self.content = filled(self.content)
        assert len(self.content) == MIB


def writing(player):
    """A module of a mebibyte that leaves a memory text of 65,536 bytes: by the player's number a custom section, functions, data in as much memory as there
    can be, or a table make it long."""
    text, code = bytes([player]) * MOST_TEXT, unkept("memory_write", 0, MOST_TEXT)
    if player % 4 == 0:
        return Longest(code, pages=2, data=(0, text))
    if player % 4 == 1:
        helpers = [(0, b"\0", b"\x41\0\x1a" * 30)] * 9_998
        return Longest(code, pages=2, data=(0, text), helpers=helpers)
    if player % 4 == 2:
        return Longest(code, pages=256, data=(0, text * 15))
    elements = b"\0\x41\0\x0b\x80\x80\4" + bytes(65_536)
    return Longest(code, pages=2, data=(0, text), table=b"\x70\0\x80\x80\4", elements=elements)
