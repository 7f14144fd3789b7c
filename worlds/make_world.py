#!/usr/bin/env python3
"""Makes a world file: so many rooms side by side, with exits that meet, and so many players, each with a room of his own.

    worlds/make_world.py 16 4 -o four_players.json

makes 16 rooms and the players 1 to 4. Each room has a controller and two sources, swamps and some walls; a player's room has his spawn, with 300
energy, and its controller is his at level 1. From each exit a way leads to all of these. The same words make the same world; `--seed N` makes another
one, and `--limit N` gives each player so many CPU units a tick in place of 20. At most 400 rooms and 64 players, and no more players than rooms.
"""

import argparse
import json
import random

SIDE = 50
PLAIN, WALL, SWAMP = "012"
NEAR, FAR = 0, SIDE - 1


def columns(rooms):
    """How many rooms stand side by side."""
    return next(count for count in range(1, 21) if count * count >= rooms)


def neighbours(rooms, index):
    """The rooms beside one, each with the side at which it lies: left, right, top or bottom."""
    width = columns(rooms)
    column, row = index % width, index // width
    found = {"left": index - 1 if column else None, "right": index + 1 if column + 1 < width else None}
    found |= {"top": index - width if row else None, "bottom": index + width}
    return {side: other for side, other in found.items() if other is not None and other < rooms}


def exit_of(seed, one, other):
    """The first and the last tile of the exits between two rooms, along their border."""
    draw = random.Random(f"{seed} {min(one, other)} {max(one, other)}")
    first = draw.randrange(5, 35)
    return first, first + draw.randrange(3, 10)


def exit_tiles(seed, index, side, other):
    first, last = exit_of(seed, index, other)
    for at in range(first, last + 1):
        yield {"left": (NEAR, at), "right": (FAR, at), "top": (at, NEAR), "bottom": (at, FAR)}[side]


def patches(draw, tiles, ground, count):
    """Puts patches of a ground onto the tiles inside."""
    for _ in range(count):
        left, top, width, height = draw.randrange(2, 44), draw.randrange(2, 44), draw.randrange(2, 7), draw.randrange(2, 7)
        for y in range(top, min(top + height, FAR)):
            for x in range(left, min(left + width, FAR)):
                tiles[x, y] = ground


def clear_way(tiles, place, centre):
    """Makes a way, of plain ground where there was a wall, from a tile to the middle of the room."""
    (x, y), (to_x, to_y) = place, centre
    while (x, y) != (to_x, to_y):
        if tiles[x, y] == WALL:
            tiles[x, y] = PLAIN
        # (off the border first, since no way leads along it)
        sideways = x in (NEAR, FAR) or y not in (NEAR, FAR) and x != to_x
        x, y = (x + (x < to_x) - (x > to_x), y) if sideways else (x, y + (y < to_y) - (y > to_y))
    tiles[to_x, to_y] = PLAIN


def room(seed, rooms, index, owner):
    """A room, whose owner is a player's number, or 0."""
    draw = random.Random(f"{seed} {index}")
    edge = (NEAR, FAR)
    tiles = {(x, y): WALL if x in edge or y in edge else PLAIN for y in range(SIDE) for x in range(SIDE)}
    patches(draw, tiles, SWAMP, draw.randrange(4, 12))
    patches(draw, tiles, WALL, draw.randrange(2, 8))
    centre = draw.randrange(20, 30), draw.randrange(20, 30)
    # (each in a part of the room of its own)
    corners = draw.sample([(6, 6), (34, 6), (6, 34), (34, 34)], 3)
    places = [(x + draw.randrange(9), y + draw.randrange(9)) for x, y in corners]
    for place in places:
        clear_way(tiles, place, centre)
    for side, other in neighbours(rooms, index).items():
        for tile in exit_tiles(seed, index, side, other):
            tiles[tile] = PLAIN
            clear_way(tiles, tile, centre)
    objects = [{"kind": kind, "x": x, "y": y} for kind, (x, y) in zip(("controller", "source", "source"), places)]
    for source in objects[1:]:
        source["energy"] = 3000 if owner else 1500
    if owner:
        objects[0] |= {"owner": owner, "extra": 1, "timer": 20000}
        objects.append({"kind": "spawn", "x": centre[0], "y": centre[1], "owner": owner, "energy": 300})
    for serial, it in enumerate(objects, 1):
        it["id"] = (index << 32) + serial
    name = f"E{index % columns(rooms)}S{index // columns(rooms)}"
    terrain = "".join(tiles[x, y] for y in range(SIDE) for x in range(SIDE))
    return {"name": name, "terrain": terrain, "next": len(objects) + 1, "objects": objects}


def world(rooms, players, limit=20, seed=0):
    """The world as its file has it. The players' rooms are spread over all."""
    homes = {number * rooms // players: number + 1 for number in range(players)}
    made = [room(seed, rooms, index, homes.get(index, 0)) for index in range(rooms)]
    accounts = [{"player": number + 1, "limit": limit} for number in range(players)]
    return {"version": 1, "tick": 0, "rooms": made, "players": accounts}


def main():
    parser = argparse.ArgumentParser(prog="make_world.py", description="Makes a world file.", allow_abbrev=False)
    parser.add_argument("rooms", type=int, help="1 to 400")
    parser.add_argument("players", type=int, help="0 to 64, and no more than rooms")
    parser.add_argument("-o", required=True, metavar="FILE", dest="path", help="the world file to make")
    parser.add_argument("--limit", type=int, default=20, help="the CPU units of each player in a tick, 0 to 500")
    parser.add_argument("--seed", type=int, default=0, help="any whole number")
    words = parser.parse_args()
    if not (1 <= words.rooms <= 400 and 0 <= words.players <= min(64, words.rooms) and 0 <= words.limit <= 500):
        parser.error("1 to 400 rooms, 0 to 64 players and no more than rooms, a limit of 0 to 500")
    text = json.dumps(world(words.rooms, words.players, words.limit, words.seed))
    with open(words.path, "w", encoding="ascii") as it:
        it.write(text)


if __name__ == "__main__":
    main()
