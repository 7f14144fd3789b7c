"""Plain worlds: rooms of creeps and roads in rows, of players who may use 500 CPU units, and their uploads. Checks run them, and benchmarks measure
them."""

from game import SECOND, thing
from module_bytes import player_module
from worlds import bytes_of, room, upload_entry, world

UNITS = 500
EMPTY = player_module(b"")
TILES = [(x, y) for y in range(1, 49) for x in range(1, 49)]


def name_of(index):
    return f"E{index % 100}S{index // 100}"


def creep(index, serial, owner, parts=1):
    x, y = TILES[serial - 1]
    return thing("creep", index * SECOND + serial, x, y, owner=owner, body=["carry"] * parts, energy=50, timer=1500)


def road(index, serial):
    x, y = TILES[serial - 1]
    return thing("road", index * SECOND + serial, x, y, timer=1000)


def of_rooms(rooms, players, terrains=()):
    grounds = list(terrains) or [None] * len(rooms)
    listed_rooms = [room(name_of(index), 5000, *objects, terrain=grounds[index]) for index, objects in enumerate(rooms)]
    return bytes_of(world(*listed_rooms, players=players))


def players_of(count, **others):
    return [{"player": number, "limit": UNITS, **others} for number in range(1, count + 1)]


def apart(count, seen, objects):
    """So many players who each see so many rooms of their own with so many objects."""
    rooms = []
    for index in range(count * seen):
        rooms.append([creep(index, 1, index // seen + 1), *[road(index, serial) for serial in range(2, objects + 1)]])
    return of_rooms(rooms, players_of(count))


def together(count, seen):
    """So many players who all see the same rooms, by a creep in each."""
    return of_rooms([[creep(index, owner, owner) for owner in range(1, count + 1)] for index in range(seen)], players_of(count))


def for_each(count, module):
    return b"".join(upload_entry(0, number, module) for number in range(1, count + 1))
