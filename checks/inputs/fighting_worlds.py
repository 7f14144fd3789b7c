"""Worlds in which creeps fight in every tick, or die, for bench/ticks.py: a room full of creeps that attack all around, groups that shoot one
and heal him, 20,000 that strike each other, and rooms full of loaded creeps that come to their age.

All fighters have so many hits, or are healed so well, that none of them dies within the ticks that are measured. Of each shape there are two
worlds: one in which all calls are recorded, and one in which the same calls are all refused by the last check before that of the record.

    python3 checks/inputs/fighting_worlds.py

runs no program: it has oracle/scripts.py and oracle/worlds.py play two ticks of each world, and says where something else happens.
"""

import os
import sys

TOP = os.path.dirname(os.path.dirname(os.path.dirname(os.path.abspath(__file__))))
sys.path.insert(0, os.path.join(TOP, "oracle"))
from called_worlds import CalledWorld  # noqa: E402
from game import NO_BODYPART, NOT_IN_RANGE, SECOND, thing  # noqa: E402
from moving_worlds import MOST_OWNED, SIDE  # noqa: E402
from plain_worlds import TILES, name_of, players_of  # noqa: E402
from rules import broken  # noqa: E402
from scripts import Desk  # noqa: E402
from worlds import Run, acted, bytes_of, full, objects_of, room, ticked, world  # noqa: E402

# A measure plays so many ticks at most.
LASTING = 22


class Fighter:
    """A creep by its room, its tile, whose it is and its parts, and what it calls: names, and ids where they have a target."""

    def __init__(self, index, tile, owner, body, hits=None):
        self.index, self.tile, self.owner, self.body, self.hits, self.calls = index, tile, owner, body, hits, []

    def numbered(self, serial):
        self.id = self.index * SECOND + serial

    def object(self):
        hits = {} if self.hits is None else {"hits": self.hits}
        return thing("creep", self.id, *self.tile, owner=self.owner, body=self.body, timer=1500, **hits)

    def does(self, name, *targets):
        self.calls.append((name, self, *targets))


# ---- shapes: their fighters, the first of which has the least serial of its room


def all_around(refused):
    """A room that is full, of two players like a chessboard: whoever stands three tiles from the end has 24 foes and 24 friends in range."""
    body = ["tough"] * 24 + ["tough" if refused else "ranged_attack"]
    fighters = [Fighter(0, tile, 1 + sum(tile) % 2, body) for tile in TILES]
    for one in fighters:
        one.does("ranged_mass_attack")
    return fighters


def groups(refused, middle, hits, others):
    """Groups of seven by seven in one room: a creep in the middle, and 48 around it. Where calls are to be refused the one in the middle stands in
    another room."""
    for x in range(4, SIDE - 3, 7):
        for y in range(4, SIDE - 3, 7):
            tiles = [(x + right, y + down) for right in range(-3, 4) for down in range(-3, 4) if right or down]
            yield Fighter(int(refused), (x, y), 2, middle, hits), [Fighter(0, tile, 1, others(place)) for place, tile in enumerate(tiles)]


def watchers():
    """Both players see both rooms."""
    return [Fighter(index, (48, 40 + owner), owner, ["tough"]) for index in (0, 1) for owner in (1, 2)]


def shot_and_healing(refused):
    """48 shoot one, who has parts to heal all of it."""
    fighters = watchers()
    for middle, around in groups(refused, ["tough"] + ["heal"] * 40, None, lambda _: ["ranged_attack"]):
        for one in around:
            one.does("ranged_attack", middle)
        middle.does("heal", around[0] if refused else middle)
        fighters += [middle, *around]
    return fighters


def healed_by_all(refused):
    """48 heal one, who heals himself too."""
    fighters = watchers()
    for middle, around in groups(refused, ["tough"] * 49 + ["heal"], 1, lambda _: ["heal"]):
        for one in around:
            one.does("ranged_heal", middle)
        middle.does("ranged_heal", around[0] if refused else middle)
        fighters += [middle, *around]
    return fighters


def shot_and_healed(refused):
    """24 shoot one, and 24 heal him, with three parts each; he heals himself too."""
    fighters = watchers()
    for middle, around in groups(refused, ["tough"] * 4 + ["heal"] * 3, None, lambda place: ["heal"] * 3 if place % 2 else ["ranged_attack"]):
        for place, one in enumerate(around):
            one.does("ranged_heal" if place % 2 else "ranged_attack", middle)
        middle.does("ranged_heal", around[0] if refused else middle)
        fighters += [middle, *around]
    return fighters


def in_many_rooms(refused):
    """50 to a room, in pairs that strike each other, both striking back."""
    fighters = []
    for number in range(20_000):
        index, place = divmod(number, 50)
        fighters.append(Fighter(index, TILES[place], 1 + number // MOST_OWNED, ["tough"] * 15 + ["attack"]))
    for number, one in enumerate(fighters):
        # (the one ten places on is out of reach)
        begin = number - number % 50
        one.does("attack", fighters[begin + (number + 10) % 50 if refused else number ^ 1])
    return fighters


class Shape:
    """What fighters there are, by whether their calls are to be refused, and the code that they have then."""

    def __init__(self, name, made, code, rooms=1):
        self.name, self.made, self.code, self.rooms = name, made, code, rooms


SHAPES = [
    Shape("2,304 creeps attack all around", all_around, NO_BODYPART),
    Shape("48 shoot one, who heals himself", shot_and_healing, NOT_IN_RANGE, rooms=2),
    Shape("48 and he himself heal one", healed_by_all, NOT_IN_RANGE, rooms=2),
    Shape("24 shoot one, 25 heal him", shot_and_healed, NOT_IN_RANGE, rooms=2),
    Shape("20,000 in 400 rooms strike", in_many_rooms, NOT_IN_RANGE, rooms=400),
]


class Fight(CalledWorld):
    """The world of a shape, and the calls of each player in it."""

    def __init__(self, shape, refused=False):
        super().__init__([[] for _ in range(shape.rooms)], {})
        self.shape, fighters = shape, shape.made(refused)
        for one in fighters:
            one.numbered(len(self.rooms[one.index]) + 1)
            self.rooms[one.index].append(one.object())
        for one in fighters:
            self.calls.setdefault(one.owner, []).extend((name, *[it.id for it in ids]) for name, *ids in one.calls)
        self.players = players_of(max(self.calls))

    def as_world(self):
        return world(*[room(name_of(index), 5000, *objects) for index, objects in enumerate(self.rooms)], players=self.players)

    def world(self):
        return bytes_of(self.as_world())


def pairs_in_range(objects):
    """How many pairs of creeps of a room stand at most three tiles from each other, each way."""
    tiles = {(one["x"], one["y"]) for one in objects}
    reach = [(right, down) for right in range(-3, 4) for down in range(-3, 4) if right or down]
    return sum((x + right, y + down) in tiles for x, y in tiles for right, down in reach)


# ---- deaths


def loaded(index, place, birth, timer):
    return thing("creep", birth * SECOND + place + 1, *TILES[place], owner=1, body=["carry"] * 2, energy=100, timer=timer)


def dying(timers, births=None):
    """Rooms of 2,304 creeps with full loads, with these timers, and born in the rooms of these indices."""
    births = births or range(len(timers))
    rooms = [[loaded(index, place, birth, timer) for place in range(len(TILES))] for index, (birth, timer) in enumerate(zip(births, timers))]
    rooms += [[]] * (max(births) + 1 - len(rooms))
    return world(*[room(name_of(index), 5000, *objects) for index, objects in enumerate(rooms)], players=players_of(1))


# ---- what the shapes do, without the program


def faults_of(fight, code, ticks):
    """Where a world breaks a rule, a call is answered something else, an entry does nothing, or a fighter would not last."""
    it = full(fight.as_world())
    faults, before = broken(it), {one["id"]: one["hits"] for one in objects_of(it)}
    for tick in range(ticks):
        runs = []
        for number, calls in sorted(fight.calls.items()):
            desk = Desk(it, number)
            answers = {desk.answer(name, ids, bytearray()) for name, *ids in calls}
            if answers != {code}:
                faults.append(f"tick {tick} player {number}: answers {sorted(answers)}")
            runs.append(Run(number, "finished", 0, desk.text, desk.entries))
        done = acted(full(it), runs)
        if any(not effect for _, effect in done) or sum(done.values()) != (0 if code else fight.entries()):
            faults.append(f"tick {tick}: {done}")
        it = ticked(it, runs)
    after = {one["id"]: one["hits"] for one in objects_of(it)}
    short = [id for id, hits in before.items() if hits - LASTING * (hits - after.get(id, 0)) / ticks <= 0]
    return faults + broken(it) + [f"creep {id} doesn't last" for id in short]


def main():
    for shape in SHAPES:
        for refused in (False, True):
            fight = Fight(shape, refused)
            faults = faults_of(fight, shape.code if refused else 0, 2)
            print(f"{shape.name}, {'refused' if refused else 'recorded'}: {fight.objects():,} objects, {fight.entries():,} calls, {len(fight.uploads()):,} bytes, {faults[:3] or 'no fault'}", flush=True)
    for name, first in (("one room", dying([2])), ("in front", dying([2], [1])), ("eight rooms", dying(range(2, 10)))):
        print(f"deaths, {name}: {len(objects_of(first)):,} objects, {broken(first)[:3] or 'no fault'}", flush=True)


if __name__ == "__main__":
    main()
