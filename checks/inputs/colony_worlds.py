"""Worlds of colonies: rooms of 50 objects with all that a player may build, whose modules call for every kind of action in every tick, and free rooms
that are claimed one after the other. A check runs the largest one, and benchmarks measure them."""

from game import SECOND, thing
from plain_worlds import EMPTY, of_rooms, players_of
from scripts import Script, unkept
from worlds import upload_entry

# Modules are uploaded for the first tick and for so many more.
TICKS = 5
PLAYERS, ROOMS = 64, 400
# Rooms that nobody owns: in each tick some are claimed.
FREE = 16


class Colony:
    """A room of a player: its objects, and what its creeps are to do in each tick."""

    def __init__(self, index, owner, foe):
        self.index, self.owner, self.foe, self.serial = index, owner, foe, 0
        self.objects, self.calls = [], [[] for _ in range(TICKS + 1)]

    def add(self, kind, x, y, **fields):
        self.serial += 1
        self.objects.append(thing(kind, self.index * SECOND + self.serial, x, y, **fields))
        return self.objects[-1]["id"]

    def creep(self, x, y, body, owner=None, energy=0):
        parts = body.split()
        return self.add("creep", x, y, owner=owner or self.owner, body=parts, hits=100 * len(parts), energy=energy, timer=500)

    def each_tick(self, name, *arguments):
        for calls in self.calls:
            calls.append((name, *arguments))

    def build(self):
        """50 objects: a controller of level 8 with all that a colony has, and a creep for each thing that creeps do."""
        controller = self.add("controller", 25, 25, owner=self.owner, extra=8, timer=100_000)
        sources = [self.add("source", x, 5, energy=3000) for x in (5, 15)]
        self.spawn = self.add("spawn", 40, 40, owner=self.owner, energy=300, hits=5000)
        extensions = [self.add("extension", 30 + 2 * place, 44, owner=self.owner, energy=50, hits=1000) for place in range(8)]
        storage = self.add("storage", 35, 35, owner=self.owner, energy=500_000, hits=10_000)
        container = self.add("container", 6, 8, energy=1000, hits=200_000, timer=400)
        roads = [self.add("road", 20 + place, 30, hits=4000, timer=900) for place in range(5)]
        site = self.add("site", 30, 20, owner=self.owner, extra=6)
        self.removed = [self.add("site", 3 + 2 * tick, 46, owner=self.owner, extra=8) for tick in range(2)]
        pile = self.add("pile", 12, 12, energy=50_000)
        self.each_tick("harvest", self.creep(6, 6, "work work carry"), sources[0])
        self.each_tick("harvest", self.creep(15, 6, "work carry carry"), sources[1])
        self.each_tick("transfer", self.creep(34, 34, "carry carry", energy=100), storage, 2)
        self.each_tick("withdraw", self.creep(36, 36, "carry carry carry"), storage, 3)
        self.each_tick("withdraw", self.creep(7, 8, "carry carry carry"), container, 3)
        pickers = [self.creep(11 + place, 13, "carry carry", energy=100 * place) for place in range(2)]
        for tick, calls in enumerate(self.calls):
            # (one drops what it picked up in the tick before, and the other the other way round)
            calls += [("pickup", pickers[tick % 2], pile), ("drop", pickers[1 - tick % 2], 0)]
        self.each_tick("drop", self.creep(13, 13, "carry carry", energy=100), 1)
        self.each_tick("upgrade", self.creep(25, 26, "work carry", energy=50), controller)
        self.each_tick("upgrade", self.creep(26, 26, "work carry", energy=50), controller)
        self.each_tick("build", self.creep(31, 20, "work carry", energy=50), site)
        self.each_tick("repair", self.creep(21, 31, "work carry", energy=50), roads[0])
        self.each_tick("dismantle", self.creep(24, 31, "work carry"), roads[4])
        hurt = self.creep(10, 30, "tough tough move")
        self.each_tick("heal", self.creep(11, 30, "heal"), hurt)
        self.each_tick("ranged_heal", self.creep(12, 31, "heal"), hurt)
        stranger = self.creep(10, 31, "tough " * 30 + "attack", owner=self.foe)
        self.each_tick("attack", self.creep(9, 32, "tough " * 5 + "attack"), stranger)
        self.each_tick("ranged_attack", self.creep(9, 33, "ranged_attack"), stranger)
        self.each_tick("ranged_mass_attack", self.creep(11, 33, "ranged_attack"))
        self.robber = (self.creep(24, 24, "claim move", owner=self.foe), controller)
        movers = [self.creep(30 + place, 10, "move") for place in range(4)]
        for tick, calls in enumerate(self.calls):
            calls += [("move", mover, 3 if tick % 2 == 0 else 7) for mover in movers]
        self.last = [self.creep(40 + tick, 30, "tough") for tick in range(2)]
        assert len(self.objects) <= 50
        while len(self.objects) < 50:
            self.add("road", len(self.objects) - 2, 47, hits=5000, timer=900)
        return extensions


def world_of(players, rooms, free):
    """The world, and the calls of each player in each tick."""
    colonies = [Colony(index, index % players + 1, (index + 1) % players + 1) for index in range(rooms - free)]
    calls = {number: [[] for _ in range(TICKS + 1)] for number in range(1, players + 1)}
    found = {number: [] for number in calls}
    for colony in colonies:
        colony.build()
        found[colony.owner].append(colony)
        for tick, listed in enumerate(colony.calls):
            calls[colony.owner][tick] += listed
            calls[colony.foe][tick].append(("attack_controller", *colony.robber))
    for number, own in found.items():
        for tick in range(TICKS + 1):
            here = own[tick % len(own)]
            calls[number][tick] += [("create_site", here.index, 3 + tick, 20, 8), ("remove_site", here.removed[tick // len(own) % 2]), ("suicide", here.last[tick // len(own) % 2])]
            calls[number][tick].append(("spawn_creep", here.spawn, 0, 1))
    rest = []
    for place in range(free):
        index, number = rooms - free + place, place % players + 1
        it = Colony(index, number, number)
        controller = it.add("controller", 25, 25)
        claimer, holder = it.creep(24, 25, "claim move"), it.creep(26, 25, "claim move")
        while len(it.objects) < 50:
            it.add("road", len(it.objects) - 2, 47, hits=5000, timer=900)
        for tick in range(TICKS + 1):
            # (every other room is held, and the others are claimed one after the other)
            is_claimed = place % 2 == 0 and tick == place // 2 % (TICKS + 1)
            calls[number][tick].append(("claim_controller", claimer, controller) if is_claimed else ("reserve", holder, controller))
        rest.append(it)
    return of_rooms([it.objects for it in [*colonies, *rest]], players_of(players, points=10**9)), calls


def uploads_of(calls):
    """A module of each player for each tick. The body of a creep is one byte of its memory."""
    stream = b""
    for tick in range(TICKS + 1):
        for number in sorted(calls):
            code = [instruction for name, *arguments in calls[number][tick] for instruction in unkept(name, *arguments)]
            stream += upload_entry(tick, number, Script(code, data=(0, b"\1")).content)
    return stream


def for_each_at(tick, players):
    return b"".join(upload_entry(tick, number, EMPTY) for number in range(1, players + 1))
