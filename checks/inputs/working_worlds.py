"""Worlds in which 1,000 creeps each do one thing in every tick, for bench/ticks.py: in one room of 2,000 objects, or over 400 rooms.

Creeps and what they act on stand in pairs, side by side along the rows. Of each shape there are two worlds: one in which all calls are
recorded and do something, tick after tick, and one in which the same calls are all refused by the last check before that of the record.

    python3 checks/inputs/working_worlds.py

runs no program: it has oracle/scripts.py and oracle/worlds.py play some ticks of each world, and says where something else happens.
"""

import os
import sys

TOP = os.path.dirname(os.path.dirname(os.path.dirname(os.path.abspath(__file__))))
sys.path.insert(0, os.path.join(TOP, "oracle"))
from called_worlds import CalledWorld  # noqa: E402
from game import FULL, INVALID_TARGET, NOT_ENOUGH, SECOND, thing  # noqa: E402
from plain_worlds import TILES, of_rooms, players_of  # noqa: E402
from rules import broken  # noqa: E402
from scripts import Desk  # noqa: E402
from worlds import Run, acted, full, room, ticked, world  # noqa: E402

COUNT = 1000
PLENTY = 100_000_000


class Pair:
    """A creep and what stands beside it, by its place among the pairs of a room."""

    def __init__(self, shape, refused, index, place, owner):
        self.index, self.place, self.owner, self.shape, self.refused = index, place, owner, shape, refused
        self.creep_id, self.other_id = index * SECOND + 2 * place + 1, index * SECOND + 2 * place + 2

    def objects(self):
        creep, other, on_it = self.shape.made(self)
        at, beside = TILES[2 * self.place], TILES[2 * self.place + 1]
        at = beside if on_it else at
        creep = thing("creep", self.creep_id, *at, owner=self.owner, body=self.shape.body, energy=creep, timer=1500)
        return [creep, thing(other.pop("kind"), self.other_id, *beside, **other)]


class Shape:
    """What each creep does: `made` has its load, what stands beside it, and whether it stands on that; `calls` are those of a pair among
    the others of its room; `code` is the answer where they are refused."""

    def __init__(self, name, made, calls, code, players=1, body=("work", "carry", "carry", "carry", "carry")):
        self.name, self.made, self.calls, self.code, self.players, self.body = name, made, calls, code, players, list(body)


def stored(pair, energy):
    return {"kind": "container", "energy": energy, "timer": 500}


def harvests(pair):
    return 0, {"kind": "source", "energy": 0 if pair.refused else 3000, "timer": 300 if pair.refused else 0}, False


def transfers(pair):
    return 200, stored(pair, 2000 if pair.refused else 0), False


def withdraws(pair):
    return 200 if pair.refused else 0, stored(pair, 2000), False


def drops(pair):
    return 0 if pair.refused else 200, {"kind": "pile", "energy": PLENTY}, True


def picks_up(pair):
    """Every other pair has a pile, and the one behind it a building that both repair, so that they have room in each tick."""
    other = {"kind": "container", "hits": 1, "timer": 500} if pair.place % 2 else {"kind": "pile", "energy": PLENTY}
    return 200 if pair.refused else 150, other, False


def repairs(pair):
    return 0 if pair.refused else 200, {"kind": "container", "hits": 1, "timer": 500}, False


def builds(pair):
    """A storage is built, which no creep may stand on; of a player's sites there are 100."""
    return 200, {"kind": "site", "owner": pair.owner, "extra": 6}, pair.refused


def to_the_other(name, *amount):
    return lambda pair, _: [(name, pair.creep_id, pair.other_id, *amount)]


def picked_up(pair, pairs):
    pile = pairs[pair.place - pair.place % 2]
    building = pairs[pile.place + 1 if pile.place + 1 < len(pairs) else pile.place - 1]
    again = ("pickup", pair.creep_id, pile.other_id)
    return [again, again if pair.refused else ("repair", pair.creep_id, building.other_id)]


SHAPES = [
    Shape("harvest", harvests, to_the_other("harvest"), NOT_ENOUGH),
    Shape("harvest that falls", harvests, to_the_other("harvest"), NOT_ENOUGH, body=["work"]),
    Shape("transfer", transfers, to_the_other("transfer", 1), FULL),
    Shape("withdraw", withdraws, to_the_other("withdraw", 1), FULL),
    Shape("drop", drops, lambda pair, _: [("drop", pair.creep_id, 1)], NOT_ENOUGH),
    Shape("repair", repairs, to_the_other("repair"), NOT_ENOUGH),
    Shape("pickup and repair", picks_up, picked_up, FULL),
    Shape("build", builds, to_the_other("build"), INVALID_TARGET, players=10),
]


class Work(CalledWorld):
    """The world of a shape in so many rooms, and the calls of each player in it."""

    def __init__(self, shape, rooms, refused=False):
        pairs = [[] for _ in range(rooms)]
        for number in range(COUNT):
            home = pairs[number % rooms]
            home.append(Pair(shape, refused, number % rooms, len(home), 1 + number % shape.players))
        super().__init__([[one for pair in home for one in pair.objects()] for home in pairs], {})
        self.players = players_of(shape.players)
        for home in pairs:
            for pair in home:
                self.calls.setdefault(pair.owner, []).extend(shape.calls(pair, home))

    def world(self):
        return of_rooms(self.rooms, self.players)


# ---- what the shapes do, without the program


def faults_of(work, code, ticks):
    """Where a world breaks a rule, or a call is answered something else, or an entry does nothing."""
    it = full(world(*[room(f"E{index % 100}S{index // 100}", 5000, *objects) for index, objects in enumerate(work.rooms)], players=work.players))
    faults = broken(it)
    for tick in range(ticks):
        runs = []
        for number, calls in sorted(work.calls.items()):
            desk = Desk(it, number)
            answers = {desk.answer(call[0], call[1:], bytearray()) for call in calls}
            if answers != {code}:
                faults.append(f"tick {tick} player {number}: answers {sorted(answers)}")
            runs.append(Run(number, "finished", 0, desk.text, desk.entries))
        done = acted(full(it), runs)
        if code == 0 and any(not effect for _, effect in done) or sum(done.values()) != (0 if code else work.entries()):
            faults.append(f"tick {tick}: {done}")
        it = ticked(it, runs)
    return faults + broken(it)


def main():
    for shape in SHAPES:
        for rooms in (1, 400):
            for refused in (False, True):
                work = Work(shape, rooms, refused)
                # (a crowded room takes Python long, and there nothing else happens than in few to a room)
                faults = faults_of(work, shape.code if refused else 0, 2 if rooms == 1 else 21)
                print(f"{shape.name}, {rooms} rooms, {'refused' if refused else 'recorded'}: {work.objects()} objects, {work.entries()} calls, {faults[:3] or 'no fault'}", flush=True)


if __name__ == "__main__":
    main()
