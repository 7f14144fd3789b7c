"""Worlds in which creeps move in every tick, for bench/ticks.py: rooms that are full of them, 20,000 in 400 rooms, and one with a crosser at
each exit.

Creeps that step go one way in even ticks and back in odd ones, so that all ticks are alike. Of each shape there are two worlds: one in which
all calls are recorded, and one in which the same calls are all refused by the last check before that of the record, as the creeps are tired.

    python3 checks/inputs/moving_worlds.py

runs no program: it has oracle/scripts.py and oracle/worlds.py play some ticks of each world, and says where something else happens.
"""

import os
import sys

TOP = os.path.dirname(os.path.dirname(os.path.dirname(os.path.abspath(__file__))))
sys.path.insert(0, os.path.join(TOP, "oracle"))
from game import DIRECTIONS, SECOND, TIRED, thing  # noqa: E402
from module_bytes import leb, player_module, signed_leb  # noqa: E402
from plain_worlds import of_rooms, players_of  # noqa: E402
from rules import broken  # noqa: E402
from scripts import Desk  # noqa: E402
from worlds import Run, acted, full, grounds, room, ticked, world, upload_entry  # noqa: E402

SIDE = 48
MOST_OWNED = 4000
BACK = {number: (number + 3) % 8 + 1 for number in DIRECTIONS}


# ---- tiles and ways


def ring_of(size):
    """All tiles of a square with so many on a side, an even number, each beside the one before it and the last beside the first."""
    ring = [(0, y) for y in range(size)]
    for y in reversed(range(size)):
        row = [(x, y) for x in range(1, size)]
        ring += row if (size - 1 - y) % 2 == 0 else row[::-1]
    return [(1 + x, 1 + y) for x, y in ring]


def way(tile, following):
    """The direction in which a tile lies that is beside another."""
    by = following[0] - tile[0], following[1] - tile[1]
    return next(number for number, step in DIRECTIONS.items() if step == by)


def to_and_fro(direction):
    return direction, BACK[direction]


def blocks():
    """The middle tiles of all blocks of three by three, each with the eight around it."""
    for x in range(2, SIDE + 1, 3):
        for y in range(2, SIDE + 1, 3):
            yield (x, y), [(x + right, y + down) for right, down in DIRECTIONS.values()]


# ---- shapes: of each room its creeps, each a tile and its directions in even and in odd ticks (None where it makes no call), and its walls


def in_a_ring():
    ring = ring_of(SIDE)
    return [([(tile, to_and_fro(way(tile, ring[(place + 1) % len(ring)]))) for place, tile in enumerate(ring)], ())]


def in_a_chain():
    ring = ring_of(SIDE)
    return [([(tile, to_and_fro(way(tile, following))) for tile, following in zip(ring, ring[1:])], ())]


def behind_one_that_stays():
    ring = ring_of(SIDE)
    chain = [(tile, (way(tile, following),) * 2) for tile, following in zip(ring, ring[1:])]
    return [([*chain, (ring[-1], (None, None))], ())]


def into_walls():
    around = [(tile, (way(tile, middle),) * 2) for middle, tiles in blocks() for tile in tiles]
    return [(around, [middle for middle, _ in blocks()])]


def onto_held_tiles():
    creeps = []
    for middle, tiles in blocks():
        creeps += [(middle, (None, None)), *[(tile, (way(tile, middle),) * 2) for tile in tiles]]
    return [(creeps, ())]


def onto_free_tiles():
    """The first of each eight has the least id of them: it steps, and back."""
    creeps = []
    for middle, tiles in blocks():
        ways = [way(tile, middle) for tile in tiles]
        creeps += [(tiles[0], to_and_fro(ways[0])), *[(tile, (there, None)) for tile, there in zip(tiles[1:], ways[1:])]]
    return [(creeps, ())]


def in_many_rooms():
    """50 to a room, each beside a free tile."""
    tiles = [(x, y) for y in range(1, SIDE + 1) for x in range(1, SIDE + 1, 2)][:50]
    return [([(tile, to_and_fro(3)) for tile in tiles], ())] * 400


def over_all_exits():
    """250 rooms in rows of 100, with a creep at each exit to the room on the right and to the one below. Side by side they change places along
    the border, and all go over."""
    rooms = []
    for index in range(250):
        right, below = index % 100 < 99 and index + 1 < 250, index + 100 < 250
        creeps = [((49, at), to_and_fro(5 if at % 2 else 1)) for at in range(1, SIDE + 1) if right]
        rooms.append((creeps + [((at, 49), to_and_fro(3 if at % 2 else 7)) for at in range(1, SIDE + 1) if below], ()))
    return rooms


class Shape:
    """Rooms of creeps, and how many of them step in an even and in an odd tick."""

    def __init__(self, name, rooms, steps, crosses=False):
        self.name, self.rooms, self.steps, self.crosses = name, rooms, steps, crosses


SHAPES = [
    Shape("one ring", in_a_ring, (2304, 2304)),
    Shape("one chain, a free tile ahead", in_a_chain, (2303, 2303)),
    Shape("one chain behind one that stays", behind_one_that_stays, (0, 0)),
    Shape("all into walls", into_walls, (0, 0)),
    Shape("eight each onto a held tile", onto_held_tiles, (0, 0)),
    Shape("eight each onto a free tile", onto_free_tiles, (256, 256)),
    Shape("20,000 in 400 rooms", in_many_rooms, (20_000, 20_000)),
    Shape("a crosser at each exit", over_all_exits, (19_056, 19_056), crosses=True),
]


# ---- their worlds


def calls_in(code):
    """The instructions of moves, which follow the call of the tick among the module's imports."""
    return b"".join(b"\x42" + signed_leb(id) + b"\x41" + signed_leb(direction) + b"\x10" + leb(1) + b"\x1a" for id, direction in code)


def module_of(even, odd):
    """A module that makes these moves in even ticks, and those in odd ones."""
    parity = b"\x10\0\x42\1\x83\xa7"
    return player_module(parity + b"\x04\x40" + calls_in(odd) + b"\x05" + calls_in(even) + b"\x0b", ["tick", "move"])


class Movement:
    """The world of a shape, and the moves of each player in even and in odd ticks."""

    def __init__(self, shape, refused=False):
        self.shape, self.rooms, self.walls, self.moves = shape, [], [], {}
        number = 0
        for index, (creeps, walls) in enumerate(shape.rooms()):
            objects = []
            for serial, (tile, ways) in enumerate(creeps, 1):
                owner, id = 1 + number // MOST_OWNED, index * SECOND + serial
                objects.append(thing("creep", id, *tile, owner=owner, body=["move"], timer=1500, extra=500 if refused else 0))
                for listed, direction in zip(self.moves.setdefault(owner, ([], [])), ways):
                    listed += [(id, direction)] if direction else []
                number += 1
            self.rooms.append(objects)
            self.walls.append(walls)
        self.players = players_of(len(self.moves))

    def terrains(self):
        return [grounds({50 * y + x: "1" for x, y in walls}) for walls in self.walls]

    def world(self):
        return of_rooms(self.rooms, self.players, self.terrains())

    def objects(self):
        return sum(map(len, self.rooms))

    def entries(self):
        """How many there are in a tick, on the average of an even and an odd one."""
        return sum(len(listed) for both in self.moves.values() for listed in both) / 2

    def uploads(self):
        return b"".join(upload_entry(0, number, module_of(*both)) for number, both in sorted(self.moves.items()))


# ---- what the shapes do, without the program


def homes_of(it):
    return {one["id"]: index for index, place in enumerate(it["rooms"]) for one in place["objects"]}


def faults_of(movement, code, ticks):
    """Where a world breaks a rule, a call is answered something else, or others step or cross than should."""
    rooms = zip(movement.rooms, movement.terrains())
    it = full(world(*[room(f"E{index % 100}S{index // 100}", 5000, *objects, terrain=terrain) for index, (objects, terrain) in enumerate(rooms)], players=movement.players))
    faults = broken(it)
    for tick in range(ticks):
        runs = []
        for number, both in sorted(movement.moves.items()):
            desk = Desk(it, number)
            answers = {desk.answer("move", call, bytearray()) for call in both[tick % 2]}
            if answers - {code}:
                faults.append(f"tick {tick} player {number}: answers {sorted(answers)}")
            runs.append(Run(number, "finished", 0, desk.text, desk.entries))
        steps, wanted = acted(full(it), runs).get(("move", True), 0), 0 if code else movement.shape.steps[tick % 2]
        homes, it = homes_of(it), ticked(it, runs)
        crossings = sum(homes[id] != home for id, home in homes_of(it).items())
        if (steps, crossings) != (wanted, wanted if movement.shape.crosses else 0):
            faults.append(f"tick {tick}: {steps} steps and {crossings} crossings")
    return faults + broken(it)


def main():
    for shape in SHAPES:
        for refused in (False, True):
            movement = Movement(shape, refused)
            faults = faults_of(movement, TIRED if refused else 0, 3)
            print(f"{shape.name}, {'refused' if refused else 'recorded'}: {movement.objects()} objects, {movement.entries():,.0f} calls, {len(movement.uploads())} bytes, {faults[:3] or 'no fault'}", flush=True)


if __name__ == "__main__":
    main()
