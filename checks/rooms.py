#!/usr/bin/env python3
"""What a tick makes of several rooms: each of them by what stands in it and what is wanted there, creeps that cross from one to the next, and the points
of players from all of them.

It runs behind `rt ci`, which builds crates/world_server/out/world_server. First come 200 small worlds of two to six rooms, apart, in rows and in rings,
each drawn by its own number, in which all actions come and creeps cross; after each tick every object, every room and every account is
compared with what oracle/game.py makes of it, and `replay` has to rule the ticks of the journal, which a run makes room by room, to the same
worlds. Then come 40 worlds in which nothing comes into the first room or leaves it: it has to become the same,
byte for byte, where it is the whole world, where it is one room of several, and where the players want something of the other rooms too. Last come
points of several rooms, rooms that lose all that they have, one room alone, and one creep in the last of 400 rooms.

With --model no program is run, and oracle/game.py alone is held against what is worked out. With --world N the drawn world of that number alone is
played, and with --counts it is shown what came how often.
"""

import os
import sys
import tempfile

TOP = os.path.dirname(os.path.dirname(os.path.abspath(__file__)))
sys.path[:0] = [os.path.join(TOP, it) for it in ("oracle", "checks/harness", "checks/inputs")]
import compared_runs  # noqa: E402
from checked_program import Checks, content_of, run, write_files  # noqa: E402
from compared_runs import room_faults  # noqa: E402
from drawn_runs import count_into, drawn, note_counts, play_drawn  # noqa: E402
from game import ACTIONS, DIRECTIONS, MOST_POINTS, MOST_SITES, NOT_FOUND, OBSTRUCTING, SECOND, live, place_of, thing  # noqa: E402
from movement import beyond, ground_at, tile_of  # noqa: E402
from plain_worlds import name_of  # noqa: E402
from scripts import MOST_ENTRIES, Table  # noqa: E402
from worked_rooms import EAST, NORTH, SOUTH, WEST, Case, Turn, check_cases, check_turns, controller, creep, room_of, with_ids  # noqa: E402
from worlds import Upload, account_of, acted, bytes_of, full, objects_of, room, stream_of, ticked, ticks_in, world  # noqa: E402

checks = Checks(__file__, "--model" not in sys.argv[1:])
# (behind that, so that a program that is missing is told of this file)
import colonies  # noqa: E402

WORLDS = range(1, 201)
ALONE = range(201, 241)
ONE_ROOM = range(241, 281)
NUMBERS = (1, 2, 3, 70_000, 2**32 - 1)
OTHERS = "an entry more, of other rooms"

# Rooms by their names, in lines, in rings, around the middle of the map and at its end. Of a line the first ones are a line too.
LINES = {
    "a row": ["W2S0", "W1S0", "W0S0", "E0S0", "E1S0", "E2S0"],
    "a column": ["E5N2", "E5N1", "E5N0", "E5S0", "E5S1", "E5S2"],
    "apart": ["E0S0", "E2S0", "E1S1", "W1S0", "W127N127", "E127S127"],
    "a row and one apart": ["E126N127", "E127N127", "E0S0", "E1S0", "E2S0", "W127N127"],
}
RINGS = {
    "a ring of four": ["W0N0", "E0N0", "E0S0", "W0S0"],
    "a ring of six": ["W0N0", "E0N0", "E1N0", "E1S0", "E0S0", "W0S0"],
    "a ring and a way out": ["E126S126", "E127S126", "E127S127", "E126S127", "E125S126"],
}
# Of each side of a room the tile at a place along it, so far from the border.
SIDES = [
    lambda at, depth: (depth, at),
    lambda at, depth: (49 - depth, at),
    lambda at, depth: (at, depth),
    lambda at, depth: (at, 49 - depth),
]
BORDER = [50 * y + x for x in range(50) for y in range(50) if {0, 49} & {x, y}]


# ---- random worlds of several rooms


class Draw(colonies.Draw):
    """The worlds of checks/colonies.py with two to four players, in few rooms that lie beside each other, with creeps on both sides of their borders
    and with objects that were made in another room than that in which they stand."""

    def __init__(self, seed):
        super().__init__(seed)
        self.players = tuple(sorted(self.random.sample(NUMBERS, self.some(2, 3, 3, 4))))
        self.map, self.exits = self.layout(), {}
        # (which room is first in the world tells nothing of where it lies)
        self.random.shuffle(self.map)

    def layout(self):
        if self.chance(0.5):
            return list(self.some(*RINGS.values()))
        return self.some(*LINES.values())[: self.random.randint(2, 6)]

    def name(self, index):
        return self.map[index]

    def is_free(self, place, tile):
        stands = any(tile_of(one) == tile and one["kind"] in ("creep", *OBSTRUCTING) for one in place["objects"])
        return ground_at(place, tile) != "1" and not stands

    def with_id(self, rooms, home, one):
        """An object with the next id of a room."""
        rooms[home]["next"] += 1
        return {**one, "id": home * SECOND + rooms[home]["next"] - 1}

    def places(self, index, tile_at):
        """The places along a border at which creeps stand: those of the next room too, where there is one."""
        indices = {place_of(name): index for index, name in enumerate(self.map)}
        there = indices.get(beyond(self.map[index], tile_at(25, 0))[0])
        found = self.random.sample(range(1, 49), 4)
        return found[: self.some(0, 1)] if there is None else self.exits.setdefault(frozenset((index, there)), found)

    def at_borders(self, rooms, index):
        """Creeps come to stand on the border of a room and next to it."""
        for tile_at in SIDES:
            for at in self.places(index, tile_at):
                tile = tile_at(at, self.some(0, 1, 1))
                if self.chance(0.8) and self.is_free(rooms[index], tile):
                    one = self.creep(0, tile, self.some(*self.players), "move", "move")
                    rooms[index]["objects"].append(self.with_id(rooms, index, one))

    def strange(self, rooms, index):
        """Some objects of a room get ids of any room, as those of creeps have that crossed."""
        objects = rooms[index]["objects"]
        rooms[index]["objects"] = [self.with_id(rooms, self.random.randrange(len(rooms)), one) if self.chance(0.15) else one for one in objects]

    def left(self, one, share):
        """Whether an object is left in a room, of which all is left, or all but its creeps, or nothing."""
        return share > 0.2 or share > 0.1 and one["kind"] != "creep"

    def rooms(self):
        rooms = [self.room(index) for index in range(len(self.map))]
        for index, place in enumerate(rooms):
            self.at_borders(rooms, index)
            share = self.random.random() if index > 0 else 1
            place["objects"] = [one for one in place["objects"] if self.left(one, share)]
            self.strange(rooms, index)
        return rooms

    def accounts(self):
        return [{"player": number, "limit": 500, "points": self.some(0, 16_000_000, 10**12, 10**12, MOST_POINTS - 3)} for number in self.players]

    def world(self):
        return world(*self.rooms(), players=self.accounts())

    def controller(self, serial, tile, home):
        """More of them are nobody's."""
        return thing("controller", serial, *tile) if self.chance(0.25) else super().controller(serial, tile, home)

    def names(self, one):
        """Most leave a controller to those who reserve it."""
        names = [name for name in super().names(one) if name != "claim_controller" or self.chance(0.2)]
        return names + ["upgrade"] * (live(one, "work") > 0 and self.chance(0.9))

    def to_border(self, one):
        """The directions in which a creep comes to a border tile."""
        tiles = {number: (one["x"] + x, one["y"] + y) for number, (x, y) in DIRECTIONS.items()}
        return [number for number, (x, y) in tiles.items() if 0 <= x < 50 and 0 <= y < 50 and len({0, 49} & {x}) + len({0, 49} & {y}) == 1]

    def calls_near(self, index, one, around):
        """Creeps near a border go there mostly."""
        found = super().calls_near(index, one, around)
        ways = self.to_border(one) if one["kind"] == "creep" and live(one, "move") else []
        if ways and self.chance(0.85):
            found = [call for call in found if call[0] != "move"] + [("move", one["id"], self.random.choice(ways))]
        return found


# ---- what became of the rooms in a tick


def homes_of(it):
    """The rooms in which objects stand, by their ids."""
    return {one["id"]: index for index, place in enumerate(it["rooms"]) for one in place["objects"]}


def room_of_entry(homes, name, actor):
    """The room in which an entry is ruled: that in which its actor stands."""
    return actor // 2500 if ACTIONS[name].actor == "tile" else homes[actor]


def is_round(ways):
    """Whether some of these ways from room to room lead round over three rooms or more."""
    paths = [[*way] for way in ways]
    while paths:
        path = paths.pop()
        following = [end for begin, end in ways if begin == path[-1]]
        if len(path) > 2 and path[0] in following:
            return True
        paths += [[*path, end] for end in following if end not in path]
    return False


def crossings_between(before, after):
    """What came of crossings, by the ways that creeps went."""
    homes, now = homes_of(before), homes_of(after)
    ways = [(homes[id], now[id]) for id in now if id in homes and homes[id] != now[id]]
    indices = {place_of(place["name"]) for place in after["rooms"]}
    was = {one["id"]: tile_of(one) for one in objects_of(before)}
    done = {"a creep crossed": len(ways), "a creep that was kept back": 0}
    bare = {index for index, place in enumerate(before["rooms"]) if not any(one["kind"] == "creep" for one in place["objects"])}
    done["a creep crossed into a room without creeps"] = sum(end in bare for _, end in ways)
    done["a room without objects"] = sum(not place["objects"] for place in before["rooms"])
    done["creeps crossed three borders at once"] = len({frozenset(way) for way in ways}) >= 3
    done["a room that creeps came into and left"] = len({end for _, end in ways} & {begin for begin, _ in ways})
    done["creeps crossed in both ways between two rooms"] = sum(begin < end and (end, begin) in ways for begin, end in set(ways))
    done["creeps crossed round a ring of rooms"] = is_round(set(ways))
    for index, place in enumerate(after["rooms"]):
        for one in place["objects"]:
            stepped = one["kind"] == "creep" and homes.get(one["id"]) == index and was[one["id"]] != tile_of(one)
            behind = beyond(place["name"], tile_of(one)) if stepped else None
            done["a creep that was kept back"] += bool(behind and behind[0] in indices)
    return done


def gains_of(before, runs):
    """The points that players gain of these runs."""
    after = full(before)
    acted(after, runs)
    return {one["player"]: one["points"] - account_of(before, one["player"])["points"] for one in after["players"]}


class Part:
    """The run of a player, less all entries but those of one room."""

    def __init__(self, run, homes, index):
        self.player = run.player
        self.entries = {(name, actor): it for (name, actor), it in run.entries.items() if room_of_entry(homes, name, actor) == index}


def points_between(before, runs):
    """Of how many rooms players have points, by the entries of each room alone."""
    homes = homes_of(before)
    upgraded = sorted({room_of_entry(homes, *key) for it in runs for key in it.entries if key[0] == "upgrade"})
    if len(upgraded) < 2:
        return {}
    poor = {**before, "players": [{**one, "points": 0} for one in before["players"]]}
    gains = [gains_of(poor, [Part(it, homes, index) for it in runs]) for index in upgraded]
    wrong = sum(sum(it[number] for it in gains) != whole for number, whole in gains_of(poor, runs).items())
    several = sum(sum(it[one["player"]] > 0 for it in gains) > 1 for one in before["players"])
    return {"a player who has points of several rooms": several, "points of rooms that are not those of the world": wrong}


def changes_between(before, after, runs):
    """What became of a world of several rooms in a tick."""
    homes, strangers, several = homes_of(before), 0, 0
    for it in runs:
        several += len({room_of_entry(homes, *key) for key in it.entries}) > 1
        strangers += sum(ACTIONS[name].actor != "tile" and actor // SECOND != homes[actor] for name, actor in it.entries)
    done = {"an entry of what was made in another room": strangers, "a player who wants something of several rooms": several}
    done["a player whose points are at the most"] = sum(one["points"] == MOST_POINTS for one in after["players"])
    return {**done, **colonies.changes_between(before, after, runs), **crossings_between(before, after), **points_between(before, runs)}


def show(done):
    """What came how often, where that is asked for."""
    if "--counts" in sys.argv[1:]:
        print("\n".join(f"{count:9,} {what}" for what, count in sorted(done.items(), key=str)))


def play_world(seed):
    draw = Draw(seed)
    return play_drawn(checks, f"world {seed}", draw.world(), 2 + seed % 2, draw.players, draw.calls, changes_between)


def check_worlds():
    done = {}
    for seed in WORLDS:
        count_into(done, play_world(seed))
    least = {(name, True): 60 for name in ACTIONS}
    least |= {"a room without objects": 40, "a creep crossed into a room without creeps": 100}
    least |= {"a creep crossed": 1000, "a creep that was kept back": 300, "creeps crossed three borders at once": 50}
    least |= {"a room that creeps came into and left": 200, "creeps crossed in both ways between two rooms": 100, "creeps crossed round a ring of rooms": 30}
    least |= {"an entry of what was made in another room": 1000, "a player who wants something of several rooms": 500}
    least |= {"a player who has points of several rooms": 60, "a player whose points are at the most": 20}
    least |= {"a creep came": 200, "a creep came to the border": 20, "a spawn waits": 100, "a controller was claimed": 50, "an extension paid": 50}
    show(done)
    note_counts(checks, "of all that becomes of several rooms there is enough", done, least)
    wrong = done.get("points of rooms that are not those of the world", 0)
    checks.note("the points of rooms add up", [f"{wrong} times they don't"] if wrong else [])


# ---- a room among others


class AloneDraw(Draw):
    """A world into whose first room nothing comes, and which nothing leaves: it lies apart, or has walls all round. What stands there was made there.
    No count over rooms matters: of each player there are few sites and many points."""

    def __init__(self, seed):
        super().__init__(seed)
        self.walled = seed % 2 == 0
        if not self.walled:
            self.map[0] = "W100N100"

    def room(self, index):
        place = super().room(index)
        if index == 0 and self.walled:
            place["terrain"] = "".join("1" if tile in BORDER else ground for tile, ground in enumerate(place["terrain"]))
        return place

    def strange(self, rooms, index):
        if index > 0:
            super().strange(rooms, index)

    def accounts(self):
        return [{"player": number, "limit": 500, "points": 10**12} for number in self.players]


def alone(first):
    """The world that has the first room and no other."""
    return {**first, "rooms": first["rooms"][:1]}


def is_of_first(homes, name, *arguments):
    """Whether a call is one of an actor in the first room."""
    return arguments[0] == 0 if name == "create_site" else homes.get(arguments[0]) == 0


class OwnCalls:
    """The calls of players in the first room, which are kept by tick and player."""

    def __init__(self, draw):
        self.draw, self.made = draw, {}

    def __call__(self, it, number):
        homes = homes_of(it)
        found = [call for call in self.draw.calls(it, number) if is_of_first(homes, *call)]
        self.made[it["tick"], number] = found
        return found


def bound(it, one):
    """Where a count over rooms may have changed what a call was answered."""
    sites = sum(other["kind"] == "site" and other["owner"] == one.player for other in objects_of(it))
    sites += sum(name == "create_site" for name, _ in one.entries)
    if sites >= MOST_SITES or len(one.entries) >= MOST_ENTRIES or one.outcome != "finished":
        yield f"tick {it['tick']} player {one.player}: {sites} sites, {len(one.entries)} entries, {one.outcome}"


def busy_uploads(draw, first, own, ticks):
    """Uploads for the whole world of the calls for its first room, and behind them of others for the other rooms; and where a count over rooms
    matters."""
    it, uploads, faults = full(first), [], []
    for tick in range(ticks):
        homes = homes_of(it)
        more = {number: [call for call in draw.calls(it, number) if not is_of_first(homes, *call)] for number in draw.players}
        tables = [(number, Table([*own[tick, number], *more[number]])) for number in draw.players]
        runs = [table.run(it, number) for number, table in tables]
        faults += [fault for one in runs for fault in bound(it, one)]
        uploads += [Upload(tick, number, table) for number, table in tables]
        it = ticked(it, runs)
    return uploads, faults


def ticks_of(name, first, uploads, ticks):
    """The ticks of the journal that the program writes."""
    place = "/dev/shm" if os.path.isdir("/dev/shm") else None
    with tempfile.TemporaryDirectory(dir=place) as folder:
        write_files(folder, {"world": bytes_of(first), "uploads": stream_of(uploads), "journal": b""})
        status, _, err = run(["run", "world", "uploads", "journal", "--ticks", str(ticks)], folder)
        found = list(ticks_in(content_of(os.path.join(folder, "journal"))))
    checks.note(name, [] if (status, err, len(found)) == (0, b"", ticks) else [f"status {status}, standard error {err[-400:]!r}, {len(found)} ticks"])
    return found


def first_entries(run, ids):
    """What a run wants of the first room, in which these objects stand."""
    return [entry for entry in run[4] if (entry[1] < 2500 if entry[0] == ACTIONS["create_site"].number else entry[1] in ids)]


def difference(where, lone, other, ids):
    """What differs in the first room, and in what is wanted of it."""
    faults = room_faults(where, other["rooms"][0], lone["rooms"][0]) if other["rooms"][0] != lone["rooms"][0] else []
    for one, two in zip(lone["runs"], other["runs"]):
        faults += [f"{where}: the entries of player {one[0]} differ"] if one[4] != first_entries(two, ids) else []
    return faults


def compare_alone(name, first, lone, among, busy):
    """The ticks of the first room alone, among others, and among others of which the players want something too. How much more they want there."""
    ids, more = {one["id"] for one in first["rooms"][0]["objects"]}, 0
    for tick, (one, two, three) in enumerate(zip(lone, among, busy), 1):
        faults = difference(f"tick {tick}", one, two, ids)
        faults += [f"tick {tick}: the {part} differ" for part in ("runs", "accounts") if one[part] != two[part]]
        checks.note(f"{name}, the first room among others", faults)
        checks.note(f"{name}, the first room among busy others", difference(f"tick {tick}", one, three, ids))
        more += sum(len(there[4]) - len(here[4]) for here, there in zip(one["runs"], three["runs"]))
        ids = {it[0] for it in one["rooms"][0][2]}
    return more


def play_alone(seed):
    """What is done in the first room of a world where that is alone, and how much more is wanted of the other rooms."""
    name, draw, ticks = f"world {seed}", AloneDraw(seed), 2 + seed // 2 % 2
    first, own = draw.world(), OwnCalls(draw)
    uploads, _, done = drawn(alone(first), ticks, draw.players, own, lambda *_: {})
    more, faults = busy_uploads(draw, first, own.made, ticks)
    checks.note(f"{name}, no count over rooms matters", faults)
    if checks.has_program:
        journals = [ticks_of(name, it, stream, ticks) for it, stream in ((alone(first), uploads), (first, uploads), (first, more))]
        done[OTHERS] = compare_alone(name, first, *journals)
    return done


def check_alone():
    done = {}
    for seed in ALONE:
        count_into(done, play_alone(seed))
    show(done)
    least = {(name, True): 5 for name in ACTIONS} | ({OTHERS: 3000} if checks.has_program else {})
    note_counts(checks, "enough is done in the first room, and wanted of the others", done, least)


# ---- points of several rooms


def of_points():
    """Player 1 upgrades in three rooms, player 2 in one, and player 3 in none."""
    upgrade, home = [(1, "upgrade", 2, 1, 0)], creep(2, *WEST, "work*2 carry", energy=20)
    yield Case("two points", [controller(1, 3, 300), home], upgrade, {1: {"progress": 2, "timer": 399}, 2: {"energy": 18}}, gains={1: 2})
    other, stranger = thing("controller", 1, 10, 10, owner=2, extra=2, timer=300), creep(2, *WEST, "work*4 carry", 2, energy=20)
    yield Case("four points of another", [other, stranger], [(2, "upgrade", 2, 1, 0)], {1: {"progress": 4, "timer": 399}, 2: {"energy": 16}}, gains={2: 4})
    two = [controller(1, 8, 300), creep(2, *WEST, "work*10 carry", energy=20), creep(3, *EAST, "work*10 carry", energy=20)]
    after = {1: {"timer": 499}, 2: {"energy": 10}, 3: {"energy": 15}}
    yield Case("no more than fifteen points of a room of level 8", two, [*upgrade, (1, "upgrade", 3, 1, 0)], after, gains={1: 15})
    yield Case("nothing", [controller(1, 8, 300), creep(2, *NORTH, "carry", 3), creep(3, *SOUTH, "carry")], [])
    rising = [controller(1, 1, 300, progress=190), creep(2, *WEST, "work*14 carry", energy=20)]
    yield Case("fourteen points and a level", rising, upgrade, {1: {"extra": 2, "progress": 4, "timer": 4999}, 2: {"energy": 6}}, gains={1: 14})


def check_points():
    cases = list(of_points())
    players = [{"player": number, "limit": 500, "points": points} for number, points in ((1, 7), (2, 10**9), (3, 5))]
    check_cases(checks, "points of several rooms", cases, players)
    # (in whatever order the rooms stand, and up to the most: there are 31 in all)
    for number, below, after in ((1, 31, MOST_POINTS), (2, 32, MOST_POINTS - 1), (3, 17, MOST_POINTS), (4, 0, MOST_POINTS)):
        points = MOST_POINTS - below
        turned = cases[number:] + cases[:number]
        players = [{"player": 1, "limit": 500, "points": points}, {"player": 2, "limit": 500}, {"player": 3, "limit": 500}]
        first = world(*[room_of(index, *case.objects) for index, case in enumerate(turned)], players=players)
        calls = [("upgrade", index * SECOND + serial, index * SECOND + 1) for index, case in enumerate(turned) for by, _, serial, *_ in case.calls if by == 1]
        steps = compared_runs.play(checks, f"the most points, from room {number} on", first, 1, [Upload(0, 1, Table(calls))])
        got = account_of(steps[0].world, 1)["points"]
        checks.note(f"points from {points} on", [] if got == after else [f"{got} and not {after}"])


# ---- rooms that lose all that they have


def ended():
    """Ten creeps that end themselves."""
    creeps = [creep(serial, 10 + serial, 20, "move") for serial in range(1, 11)]
    return creeps, lambda at: [("suicide", at + serial) for serial in range(1, 11)]


def cleared():
    """A creep that ends itself, and nine sites that are removed."""
    sites = [thing("site", serial, 10 + serial, 20, owner=1, extra=8) for serial in range(2, 11)]
    return [creep(1, 10, 20, "move"), *sites], lambda at: [("suicide", at + 1), *[("remove_site", at + serial) for serial in range(2, 11)]]


def departed():
    """Ten creeps that cross to the next room."""
    creeps = [creep(serial, 48, 10 + serial, "move") for serial in range(1, 11)]
    return creeps, lambda at: [("move", at + serial, 3) for serial in range(1, 11)]


def taken_up():
    """Nine piles, each of which a creep picks up that then dies of age, and a tenth creep, which crosses."""
    piles = [thing("pile", 20 + serial, 10 + serial, 20, energy=1) for serial in range(1, 10)]
    creeps = [creep(serial, 10 + serial, 20, "tough carry", timer=1) for serial in range(1, 10)]
    objects = [*piles, *creeps, creep(10, 48, 30, "move")]
    return objects, lambda at: [("move", at + 10, 3), *[("pickup", at + serial, at + 20 + serial) for serial in range(1, 10)]]


# (what each that dies of age had lies there for the rest of the tick)
EMPTYING = {ended: 0, cleared: 0, departed: 0, taken_up: 9}


def emptied(make, place):
    """A world in which a room has this place and loses all that it has, the calls for it, and those for the two others, of which one lies beside it."""
    objects, calls = make()
    names, others = ["E0S0"] * 3, [creep(40, 30, 30, "move carry", energy=9), creep(41, 30, 40, "move carry", energy=9)]
    names[(place + 1) % 3], names[(place + 2) % 3] = "E1S0", "W9N9"
    found = [[other] for other in others]
    found.insert(place, objects)
    rooms = [room(name, 60, *[with_ids(index, one) for one in it]) for index, (name, it) in enumerate(zip(names, found))]
    drops = [("drop", one["id"], 1, 0) for index, it in enumerate(rooms) if index != place for one in it["objects"]]
    return world(*rooms, players=[{"player": 1, "limit": 500}]), calls(place * SECOND), drops


def check_emptied():
    """A room of which ten entries leave nothing, in front of all others, between them and behind them; in the next tick nobody sees it."""
    for make, made in EMPTYING.items():
        for place in (0, 1, 2):
            name = f"{make.__name__}, room {place}"
            first, calls, drops = emptied(make, place)
            gone = [(*call, NOT_FOUND) for call in calls if make in (ended, cleared)] + [("create_site", place, 20, 20, 8, NOT_FOUND)]
            steps = check_turns(checks, name, first, [Turn(1, *[(*call, 0) for call in calls], *drops)], [Turn(1, *gone, *drops)])
            left = [(step.world["rooms"][place]["objects"], step.world["rooms"][place]["next"]) for step in steps]
            entries = [len(step.runs[0].entries) for step in steps]
            wanted = [([], 60 + made)] * 2, [12, 2]
            checks.note(f"{name}: what is left of it", [] if (left, entries) == wanted else [f"{left}, {entries} and not {wanted}"])


# ---- one room, and 400


def play_one_room(seed):
    draw = Draw(seed)
    draw.map = draw.map[:1]
    return play_drawn(checks, f"world {seed}, which is one room", draw.world(), 3, draw.players, draw.calls, changes_between)


def check_one_room():
    """Worlds of one room, in which all actions come too."""
    done = {}
    for seed in ONE_ROOM:
        count_into(done, play_one_room(seed))
    show(done)
    checks.note("nothing crosses in one room", [f"{done['a creep crossed']} creeps"] if done["a creep crossed"] else [])
    note_counts(checks, "in one room enough is done", done, {(name, True): 5 for name in ACTIONS})


def check_last_room():
    """One creep in the last of 400 rooms: it drops something, crosses to the room before, drops more, and goes on to the one above that."""
    last = 399 * SECOND + 1
    traveller = {**creep(1, 1, 1, "move*4 carry", energy=9), "id": last}
    first = world(*[room(name_of(index), 2, *[traveller] * (index == 399)) for index in range(400)], players=[{"player": 1, "limit": 500}])
    turns = [
        Turn(1, ("drop", last, 2, 0), ("move", last, 7, 0), ("rooms", 1), ("room", 0, 399)),
        Turn(1, ("drop", last, 3, 0), ("move", last, 8, 0), ("rooms", 1), ("room", 0, 398)),
        Turn(1, ("drop", last, 0, 0), ("rooms", 1), ("room", 0, 298)),
    ]
    steps = check_turns(checks, "one creep in the last of 400 rooms", first, *[[turn] for turn in turns])
    wanted = [
        [(398, "creep", 49, 1, 7), (399, "pile", 1, 1, 1)],
        [(298, "creep", 48, 49, 4), (398, "pile", 49, 1, 2)],
        [(298, "pile", 48, 49, 3), (298, "creep", 48, 49, 0), (398, "pile", 49, 1, 1)],
    ]
    for tick, (step, after) in enumerate(zip(steps, wanted)):
        rooms = enumerate(step.world["rooms"])
        found = [(index, one["kind"], *tile_of(one), one["energy"]) for index, place in rooms for one in place["objects"]]
        checks.note(f"what stands in 400 rooms after tick {tick}", [] if found == after else [f"{found} and not {after}"])


def main():
    words = sys.argv[1:]
    if "--world" in words:
        seed = int(words[words.index("--world") + 1])
        play = next((play for numbers, play in ((ALONE, play_alone), (ONE_ROOM, play_one_room)) if seed in numbers), play_world)
        play(seed)
        checks.finish()
    check_worlds()
    check_alone()
    check_points()
    check_emptied()
    check_one_room()
    check_last_room()
    checks.finish()


if __name__ == "__main__":
    main()
