#!/usr/bin/env python3
"""Which creeps step, and where they are after the tick: rooms as pictures with the moves and what becomes of them, rings and chains that fill
a room, and random boards on which all sets of creeps are tried.

It runs behind `rt ci`, which builds crates/world_server/out/world_server. The pictures are drawn by hand; they and what oracle/movement.py
finds from the creeps that stay have to agree. On the boards a slow writing of the definition takes its place: of those that would step it
tries every set, and takes together all that may step, each to a tile without a creep or to that of a creep of the set. With --model no
program is run, and oracle/movement.py alone is held against both.
"""

import itertools
import os
import random
import struct
import sys

TOP = os.path.dirname(os.path.dirname(os.path.abspath(__file__)))
sys.path[:0] = [os.path.join(TOP, it) for it in ("oracle", "checks/harness", "checks/inputs")]
import compared_runs  # noqa: E402
from checked_program import Checks  # noqa: E402
from compared_runs import world_faults  # noqa: E402
from game import FULL, INVALID, NOT_FOUND, OBSTRUCTING, SECOND, TIRED, part_hits, place_of, thing  # noqa: E402
from moving_worlds import ring_of  # noqa: E402
from scripts import MOST_ENTRIES, Table  # noqa: E402
from worlds import Step, Upload, account_of, full, grounds, room, ticked, world  # noqa: E402

checks = Checks(__file__, "--model" not in sys.argv[1:])
LAST = 1000
COMPASS = {1: "top", 2: "top right", 3: "right", 4: "bottom right", 5: "bottom", 6: "bottom left", 7: "left", 8: "top left"}


def play(name, first, ticks, uploads, **others):
    return compared_runs.play(checks, name, first, ticks, uploads, **others)


def players(count=2):
    return [{"player": number, "limit": 500} for number in range(1, count + 1)]


def name_of(column, row):
    return f"{'E' if column >= 0 else 'W'}{max(column, -1 - column)}{'S' if row >= 0 else 'N'}{max(row, -1 - row)}"


def towards(tile, direction):
    """The tile that lies there, in the room or past its end."""
    words, (x, y) = COMPASS[direction].split(), tile
    return x + ("right" in words) - ("left" in words), y + ("bottom" in words) - ("top" in words)


# ---- pictures

GROUNDS = {"#": "1", "~": "2"}
KINDS = {"O": "source", "C": "controller", "S": "spawn", "E": "extension", "T": "storage", "B": "container", "=": "road", "+": "site", "*": "pile"}
FIELDS = {
    "S": {"owner": 1},
    "E": {"owner": 1},
    "T": {"owner": 1},
    "B": {"timer": 9},
    "=": {"timer": 1000},
    "+": {"owner": 1, "extra": 5},
    "*": {"energy": 5},
}
HERE = (0, 0)


class Turn:
    """What creeps want in a tick, as `a3 b7`, a letter and a direction; a call that is refused has its answer behind it, as `a3:-11`. Then the
    pictures after the tick, and the values of fields: of a creep by its letter, of what else stands on a tile by the tile. The fatigue of a
    creep is 0 where nothing is said of it. Further calls are a player, a name, serials and the answer."""

    def __init__(self, calls, after, fields=None, also=()):
        self.calls, self.also, self.fields = [], list(also), fields or {}
        self.after = after if isinstance(after, dict) else {(HERE, (10, 10)): after}
        for word in calls.split():
            move, _, answer = word.partition(":")
            self.calls.append((move[0], int(move[1:]), int(answer or 0)))


class Scene:
    """Pictures of parts of rooms, each by its room, counted from the middle one to the right and to the bottom, and by its first tile.

    A small letter is a creep of one move part, whose serial is its place in the alphabet; other things have serials from 30 on, in the order
    in which they are read. `bodies` and `things` say more of creeps by their letters and of objects by their serials, `under` what is under
    creeps, and `owners` whose they are, where they aren't player 1's."""

    def __init__(self, name, before, *turns, bodies=None, things=None, under=None, owners=None, middle=None):
        self.name, self.turns, self.middle = name, turns, middle
        self.before = before if isinstance(before, dict) else {(HERE, (10, 10)): before}
        self.bodies, self.things, self.under, self.owners = bodies or {}, things or {}, under or {}, owners or {}

    def offsets(self):
        return list(dict.fromkeys(offset for offset, _ in self.before))

    def place(self, first, column, row):
        """Its rooms, the first of which has this index, around this column and row."""
        self.indices = {offset: first + number for number, offset in enumerate(self.offsets())}
        self.homes = {}
        return [self.room(offset, name_of(column + offset[0], row + offset[1])) for offset in self.offsets()]

    def room(self, offset, name):
        tiles, objects, serial = {}, [], 30
        for of, at, lines in [*((*where, lines) for where, lines in self.before.items()), *((*where, letter) for where, letter in self.under.items())]:
            for x, y, letter in drawn(at, lines) if of == offset else ():
                if letter in GROUNDS:
                    tiles[50 * y + x] = GROUNDS[letter]
                elif letter.islower():
                    objects.append(self.creep(offset, letter, x, y))
                elif letter in KINDS:
                    fields = {**FIELDS.get(letter, {}), **self.things.get(serial, {})}
                    objects.append(thing(KINDS[letter], self.indices[offset] * SECOND + serial, x, y, **fields))
                    serial += 1
        return room(name, LAST, *objects, terrain=grounds(tiles))

    def creep(self, offset, letter, x, y):
        fields = {"body": ["move"], "owner": self.owners.get(letter, 1), "timer": 1500, **self.bodies.get(letter, {})}
        self.homes[letter] = self.indices[offset] * SECOND + ord(letter) - ord("a") + 1
        return thing("creep", self.homes[letter], x, y, **fields)

    def calls(self, number, player):
        """The calls of a player in a turn, each with its answer."""
        if number >= len(self.turns):
            return
        turn = self.turns[number]
        for letter, direction, answer in turn.calls:
            if self.owners.get(letter, 1) == player:
                yield ("move", self.homes[letter], direction), answer
        home = self.indices[HERE] * SECOND
        for by, name, creep, target, *amount, answer in turn.also:
            if by == player:
                yield (name, home + creep, home + target, *amount), answer

    def faults(self, number, after):
        """What is another than in the pictures of a turn."""
        turn, letters = self.turns[number], {id: letter for letter, id in self.homes.items()}
        for (offset, at), lines in turn.after.items():
            got = picture(after["rooms"][self.indices[offset]], letters, at, lines)
            if got != list(lines):
                yield f"turn {number}, room {offset}: {' / '.join(got)} and not {' / '.join(lines)}"
        for offset, index in self.indices.items():
            for one in after["rooms"][index]["objects"]:
                if one["kind"] == "creep":
                    yield from field_faults(letters[one["id"]], one, {"extra": 0, "other_ticks": 0, **turn.fields.get(letters[one["id"]], {})})
                elif offset == HERE:
                    yield from field_faults((one["x"], one["y"]), one, turn.fields.get((one["x"], one["y"]), {}))
        shown = {letter for lines in turn.after.values() for line in lines for letter in line if letter.islower()}
        yield from (f"turn {number}: {letter} is in no picture" for letter in set(self.homes) - shown)


def field_faults(where, one, wanted):
    for field, value in wanted.items():
        if one[field] != value:
            yield f"{field} of {one['kind']} {where} is {one[field]} and not {value}"


def drawn(at, lines):
    """The letters of a picture with their tiles."""
    for down, line in enumerate(lines):
        for right, letter in enumerate(line):
            yield at[0] + right, at[1] + down, letter


def picture(place, letters, at, lines):
    """The same part of a room as it is."""
    signs = {kind: letter for letter, kind in KINDS.items()}
    seen = {}
    for one in place["objects"]:
        tile = one["x"], one["y"]
        if one["kind"] == "creep" or not seen.get(tile, "").islower():
            seen[tile] = letters.get(one["id"], "?") if one["kind"] == "creep" else signs[one["kind"]]
    surfaces = {digit: letter for letter, digit in GROUNDS.items()}

    def sign(x, y):
        return seen.get((x, y)) or surfaces.get(place["terrain"][50 * y + x], ".")

    return ["".join(sign(at[0] + right, at[1] + down) for right in range(len(line))) for down, line in enumerate(lines)]


# ---- who steps


def of_steps():
    start = [".......", ".a.b.c.", ".......", ".d...e.", ".......", ".f.g.h.", "......."]
    after = ["a..b..c", ".......", ".......", "d.....e", ".......", ".......", "f..g..h"]
    yield Scene("the eight directions", start, Turn("a8 b1 c2 d7 e3 f6 g5 h4", after))
    yield Scene("a chain behind a free tile", ["abc."], Turn("a3 b3 c3", [".abc"]), Turn("c7 b7 a7", ["abc."]))
    yield Scene("a chain that comes to a wall", ["abc.#"], Turn("a3 b3 c3", [".abc#"]), Turn("a3 b3 c3", [".abc#"]), Turn("a7", ["a.bc#"]))
    yield Scene("a chain behind a creep that stays", ["abcd"], Turn("a3 b3 c3", ["abcd"]))
    yield Scene("a chain behind a wall", ["abc#"], Turn("a3 b3 c3", ["abc#"]))
    yield Scene("a chain that is torn", ["abcd."], Turn("a3 b3 d3", ["abc.d"]))
    yield Scene("a chain around a corner", ["ab.", "#c.", ".d."], Turn("a3 b5 c4 d1", [".a.", "#b.", ".dc"]))
    yield Scene("a ring of two", ["ab"], Turn("a3 b7", ["ba"]))
    yield Scene("a ring of two, one of whom stays", ["ab"], Turn("a3", ["ab"]))
    yield Scene("two rings of two that cross", ["ab", "cd"], Turn("a4 b6 c2 d8", ["dc", "ba"]))
    yield Scene("a ring of three", ["ab", "c."], Turn("a3 b6 c1", ["ca", "b."]), Turn("c3 a6 b1", ["bc", "a."]))
    yield Scene("a ring of four", ["ab", "cd"], Turn("a3 b5 d7 c1", ["ca", "db"]))
    yield Scene("a ring of four, one of whom stays", ["ab", "cd"], Turn("a3 b5 d7", ["ab", "cd"]))
    yield Scene("a ring of eight around a creep", ["abc", "hid", "gfe"], Turn("a3 b3 c5 d5 e7 f7 g1 h1", ["hab", "gic", "fed"]))
    yield Scene("a ring that another leads into", ["abd", "c.."], Turn("a3 b6 c1 d7", ["cad", "b.."]))
    yield Scene("a ring that one of a lesser id leads into", ["dba", "c.."], Turn("d3 b6 c1 a7", ["dba", "c.."]))
    yield Scene("a ring that a chain leads into", ["abdef", "c...."], Turn("a3 b6 c1 d7 e7 f7", ["cadef", "b...."]))
    yield Scene("a chain that leads out of a ring", ["ab.", "cd."], Turn("a3 b3 d7 c1", ["cab", "d.."]))


def of_meetings():
    yield Scene("two to one tile", ["a.b"], Turn("a3 b7", [".ab"]))
    yield Scene("two to one tile, the lesser id on the other side", ["b.a"], Turn("b3 a7", ["ba."]))
    yield Scene("two to one tile, called in another order", ["a.b"], Turn("b7 a3", [".ab"]))
    yield Scene("two to one tile, and others behind them", ["ca.bd"], Turn("a3 b7 c3 d7", [".cabd"]))
    yield Scene("two to one tile that is held", ["acb"], Turn("a3 b7", ["acb"]))
    yield Scene("two to one tile whose creep can't leave", ["acb", ".#."], Turn("a3 b7 c5", ["acb", ".#."]))
    yield Scene("two to one tile whose creep leaves", ["acb", "..."], Turn("a3 b7 c5", [".ab", ".c."]))
    yield Scene("two to one tile, of whom one is tired", ["a.b"], Turn(f"a3:{TIRED} b7", ["ab."]), bodies={"a": {"extra": 2}})
    yield Scene("eight to one tile", ["bcd", "e.f", "gha"], Turn("b4 c5 d6 e3 f7 g2 h1 a8", ["bcd", "eaf", "gh."]))
    yield Scene("eight to one tile that is held", ["bcd", "eif", "gha"], Turn("b4 c5 d6 e3 f7 g2 h1 a8", ["bcd", "eif", "gha"]))
    # (whose creeps they are tells nothing)
    yield Scene("two players to one tile", ["a.b"], Turn("a3 b7", [".ab"]), owners={"a": 2})
    yield Scene("a ring of two players", ["ab", "c."], Turn("a3 b6 c1", ["ca", "b."]), owners={"b": 2})
    yield Scene("a chain of two players, whose first stays", ["abc."], Turn("a3 b3", ["abc."]), owners={"b": 2})
    yield Scene("the last of two calls counts", [".", "a", "."], Turn("a1 a5", [".", ".", "a"]))
    yield Scene("a call that is refused leaves the one before it", [".", "a", "."], Turn("a1 a9:-10 a0:-10", ["a", ".", "."]))


def of_grounds():
    yield Scene("what lets no creep by", ["aO.bC.cS", "dE.eT.f#"], Turn("a3 b3 c3 d3 e3 f3", ["aO.bC.cS", "dE.eT.f#"]))
    yield Scene("another's spawn, extension and storage", ["aS.bE.cT"], Turn("a3 b3 c3", ["aS.bE.cT"]), things={30 + n: {"owner": 2} for n in range(3)})
    yield Scene("what creeps step on", ["aB.b=.c+.d*.e~"], Turn("a3 b3 c3 d3 e3", [".a..b..c..d..e"]))
    under = {(HERE, (10 + 2 * place, 10)): letter for place, letter in enumerate("B=+*~")}
    yield Scene("creeps that leave what they stand on", ["a.b.c.d.e."], Turn("a3 b3 c3 d3 e3", ["Ba=b+c*d~e"]), under=under)
    corner = {(HERE, (0, 0)): ["#a", "bc"], (HERE, (48, 0)): ["d#", "ef"], (HERE, (0, 48)): ["gh", "#i"], (HERE, (48, 48)): ["jk", "l#"]}
    yield Scene("corners", corner, Turn("a7 b1 c8 d3 e2 f1 g5 h6 i7 j4 k5 l3", corner))
    rim = {(HERE, (0, 20)): ["a."], (HERE, (48, 20)): [".b"], (HERE, (20, 0)): ["c", "."], (HERE, (20, 48)): [".", "d"]}
    yield Scene("past the end of the room", rim, Turn("a7 b3 c1 d5", rim), Turn("a8 b4 c2 d6", rim), Turn("a6 b2 c8 d4", rim))
    worker, fast = ["work", "carry", "move"], ["work"] * 5 + ["move"]
    tired = Turn(f"a7:{TIRED}", [".a"], {"a": {"extra": 16}})
    yield Scene("a load of 50 onto swamp", ["a~"], Turn("a3", [".a"], {"a": {"extra": 18}}), tired, bodies={"a": {"body": worker, "energy": 50}})
    onto = {"a": {"extra": 8}, "b": {"extra": 3}, "c": {"extra": 48}, "d": {"extra": 3}, (14, 10): {"timer": 993}}
    first = ["a..b=.c~.d="]
    yield Scene("onto plain, a road, swamp, and a road on swamp", first, Turn("a3 b3 c3 d3", [".a..b..c..d"], onto), bodies={it: {"body": fast} for it in "abcd"}, under={(HERE, (20, 10)): "~"})
    loads = {letter: {"body": ["carry", "carry", "move"], "energy": load} for letter, load in zip("abcde", (0, 1, 50, 51, 100))}
    heavy = {"b": {"extra": 8}, "c": {"extra": 8}, "d": {"extra": 18}, "e": {"extra": 18}}
    yield Scene("loads onto swamp", ["a~b~c~d~e~"], Turn("a3 b3 c3 d3 e3", [".a.b.c.d.e"], heavy), bodies=loads)
    bodies = {"a": {"body": ["work"] * 3 + ["move"], "hits": 100}, "b": {"body": ["move"] * 3 + ["tough", "move"], "hits": 200}}
    bodies |= {"c": {"body": ["work"] * 49 + ["move"]}, "d": {"body": ["move"] * 50}, "e": {"body": ["attack", "ranged_attack", "tough", "heal", "claim", "move"], "timer": 600}}
    # (parts without hits weigh as much, and don't help)
    left = {"a": {"extra": 28}, "b": {"extra": 8}, "c": {"extra": 488}, "e": {"extra": 48}}
    yield Scene("parts without hits, and many parts, onto swamp", ["a~b~c~d~e~"], Turn("a3 b3 c3 d3 e3", [".a.b.c.d.e"], left), bodies=bodies)
    dead = {"a": {"body": ["move", "work"], "hits": 100}, "b": {"body": ["work"], "extra": 3}, "c": {"body": ["move"], "extra": 2}}
    yield Scene("creeps that don't move", ["a.b.c."], Turn(f"a3:-12 b3:-12 c3:{TIRED}", ["a.b.c."], {"b": {"extra": 3}}), Turn("c3", ["a.b..c"], {"b": {"extra": 3}}), bodies=dead)


def of_roads():
    timers = {30: {"timer": 10}, 31: {"timer": 3}, 32: {"timer": 2}, 33: {"timer": 1, "hits": 101}, 34: {"timer": 7}}
    worn = {(11, 10): {"timer": 7}, (13, 10): {"timer": 1000, "hits": 4900}, (15, 10): {"timer": 1000, "hits": 4900}, (17, 10): {"timer": 1000, "hits": 1}, (19, 10): {"timer": 6}}
    bodies = {letter: {"body": ["move"] * 2} for letter in "abcd"}
    yield Scene("roads that wear", ["a=b=c=d=.="], Turn("a3 b3 c3 d3", [".a.b.c.d.="], worn), bodies=bodies, things=timers)
    yield Scene("a road that a creep leaves", ["a", "=", "."], Turn("a5", [".", "a", "."], {(10, 11): {"timer": 995}}), Turn("a5", [".", "=", "a"], {(10, 11): {"timer": 994}}), bodies={"a": {"body": ["move"] * 4}})
    yield Scene("a road that a creep stays on", ["a="], Turn("a3", [".a"], {(11, 10): {"timer": 998}}), Turn("", [".a"], {(11, 10): {"timer": 997}}))
    bodies, last = {"a": {"body": ["work"] * 3 + ["move"]}}, {30: {"timer": 4, "hits": 100}}
    yield Scene("a road that is gone as a creep comes", ["a="], Turn("a3", [".a"], {"a": {"extra": 1}}), Turn(f"a7:{TIRED}", [".a"]), Turn("a7", ["a."], {"a": {"extra": 4}}), bodies=bodies, things=last)
    yield Scene("a ring on a road", ["a=", "=b"], Turn("a4 b8", ["b=", "=a"]))
    # (what is wanted besides is done before)
    builder, body = {"body": ["work", "carry"], "energy": 5}, {"body": ["work"] * 5 + ["move"]}
    site = {30: {"extra": 5, "progress": 2999}}
    build = (1, "build", 2, 30, 0)
    yield Scene("an extension is built where a creep would step", ["b.a+"], Turn("a3", ["b.aE"], also=[build]), bodies={"a": body, "b": builder}, things=site)
    road = {"a": {"extra": 3}, (13, 10): {"timer": 993}}
    yield Scene("a road is built where a creep steps", ["b.a+"], Turn("a3", ["b..a"], road, also=[build]), bodies={"a": body, "b": builder}, things={30: {"extra": 8, "progress": 299}})
    carriers = {letter: {"body": ["carry", "move"], "energy": load} for letter, load in (("a", 50), ("b", 0))}
    yield Scene("a load that is handed over before the step", ["~~", "ab"], Turn("a1 b1", ["ab", ".."], {"b": {"extra": 8}}, also=[(1, "transfer", 1, 2, 0, 0)]), bodies=carriers)


# ---- crossings

EAST, WEST, NORTH, SOUTH = (1, 0), (-1, 0), (0, -1), (0, 1)


def of_exits(middle=None):
    """Creeps that leave a room on all four sides, and come back along the border."""
    sides = [(HERE, (47, 20)), (EAST, (0, 20)), (HERE, (0, 20)), (WEST, (47, 20)), (HERE, (20, 0)), (NORTH, (20, 47)), (HERE, (20, 47)), (SOUTH, (20, 0))]
    before = [[".a.", "..."], ["...", "..."], [".b.", "..."], ["...", "..."], ["..", "c.", ".."], ["..", "..", ".."], ["..", "d.", ".."], ["..", "..", ".."]]
    after = [["...", "..."], ["a..", "..."], ["...", "..."], ["..b", "..."], ["..", "..", ".."], ["..", "..", "c."], ["..", "..", ".."], ["d.", "..", ".."]]
    back = [["...", "..a"], ["...", "..."], ["...", "b.."], ["...", "..."], [".c", "..", ".."], ["..", "..", ".."], ["..", "..", ".d"], ["..", "..", ".."]]
    drawn_ = [dict(zip(sides, lines)) for lines in (before, after, back)]
    # (past the end of the room, which is no step)
    stay = Turn("a7 b3 c5 d1", drawn_[1])
    return Scene(f"exits on all four sides of {name_of(*middle) if middle else 'a room'}", drawn_[0], Turn("a3 b7 c1 d5", drawn_[1]), stay, Turn("a5 b5 c3 d3", drawn_[2]), middle=middle)


def between(left, right, height=20):
    """A part of a room at its right end, and one of the room beside it."""
    return {(HERE, (50 - len(left[0]), height)): left, (EAST, (0, height)): right}


def of_crossings():
    yield of_exits()
    yield from (of_exits(middle) for middle in ((0, 0), (-1, 60), (60, -1), (126, 126), (-127, -127)))
    for name, middle, call, at in (("east", (127, 5), "a3", (48, 20)), ("west", (-128, 5), "a7", (0, 20)), ("south", (5, 127), "a5", (20, 48)), ("north", (5, -128), "a1", (20, 0))):
        first, last = {"a3": (["a."], [".a"]), "a7": ([".a"], ["a."]), "a5": (["a", "."], [".", "a"]), "a1": ([".", "a"], ["a", "."])}[call]
        edge = {(HERE, at): last}
        yield Scene(f"the last room of the {name}", {(HERE, at): first}, Turn(call, edge), Turn(call, edge), middle=middle)
    yield Scene("an exit without a room behind it", {(HERE, (48, 20)): ["a."]}, Turn("a3", {(HERE, (48, 20)): [".a"]}), Turn("", {(HERE, (48, 20)): [".a"]}))
    yield Scene("aslant onto an exit", between(["..", "a."], ["..", ".."]), Turn("a2", between(["..", ".."], ["a.", ".."])))
    yield Scene("along the border", between([".a", ".."], ["..", ".."]), Turn("a5", between(["..", ".."], ["..", "a."])), Turn("a1", between([".a", ".."], ["..", ".."])))
    yield Scene("a creep on the border that wants nothing", between([".a"], [".."]), Turn("", between([".a"], [".."])))
    yield Scene("a border tile that is held", between(["a."], ["b."]), Turn("a3", between([".a"], ["b."])), Turn("a3 b3", between([".a"], [".b"])))
    yield Scene("a creep that was kept crosses further up", between(["..", "a."], ["..", "b."]), Turn("a3", between(["..", ".a"], ["..", "b."])), Turn("a1", between(["..", ".."], ["a.", "b."])))
    yield Scene("a wall behind the border", between(["a."], ["#."]), Turn("a3", between([".a"], ["#."])))
    yield Scene("a pile behind the border", between(["a."], ["*."]), Turn("a3", between([".."], ["a."])))
    yield Scene("two on mirrored tiles", between(["a."], [".b"]), Turn("a3 b7", between([".a"], ["b."])), Turn("a3 b7", between([".a"], ["b."])))
    yield Scene("one that comes as another leaves inwards", between(["a."], ["b."]), Turn("a3 b3", between([".."], ["ab"])))
    yield Scene("one that comes as another leaves along the border", between(["a.", ".."], ["b.", ".."]), Turn("a3 b5", between(["..", ".b"], ["a.", ".."])))
    yield Scene("a chain over the border", between(["ab", ".."], ["..", ".."]), Turn("a3 b5", between(["..", ".."], ["a.", "b."])))
    yield Scene("a ring of two on the border", between([".a", ".b"], ["..", ".."]), Turn("a5 b1", between(["..", ".."], ["b.", "a."])), Turn("a1 b5", between([".a", ".b"], ["..", ".."])))
    yield Scene("swamp on the border", between(["a~"], [".."]), Turn("a3", between([".~"], ["a."]), {"a": {"extra": 8}}), Turn(f"a3:{TIRED}", between([".~"], ["a."]), {"a": {"extra": 6}}), bodies={"a": {"body": ["work", "move"]}})
    yield Scene("swamp behind the border", between(["a."], ["~."]), Turn("a3", between([".."], ["a."])), bodies={"a": {"body": ["work", "move"]}})
    # (the room beside it comes first in the world, so that its creeps have the lesser ids)
    turned = {(EAST, (0, 20)): [".b"], (HERE, (48, 20)): ["a."]}
    yield Scene("two on mirrored tiles, the rooms in another order", turned, Turn("a3 b7", {(EAST, (0, 20)): ["b."], (HERE, (48, 20)): [".a"]}))
    yield Scene("a guest changes places with another, who goes over", between(["a."], [".b"]), Turn("a3", between([".."], ["ab"])), Turn("a3 b7", between([".b"], [".a"])))
    yield Scene("a guest of lesser id", between(["a."], ["..b"]), Turn("a3", between([".."], ["a.b"])), Turn("a3 b7", between([".."], [".ab"])))
    guest = {(EAST, (0, 20)): ["..b"], (HERE, (48, 20)): ["a."]}
    came, beaten = ({(EAST, (0, 20)): line, (HERE, (48, 20)): [".."]} for line in (["a.b"], ["ab."]))
    yield Scene("a guest of greater id", guest, Turn("a3", came), Turn("a3 b7", beaten))


# ---- runs of scenes


def free_middles():
    """Columns and rows that lie so far apart that no scene sees another."""
    return ((10 + 4 * (number % 25), 10 + 4 * (number // 25)) for number in itertools.count())


def check_scenes():
    scenes, middles, rooms = [*of_steps(), *of_meetings(), *of_grounds(), *of_roads(), *of_crossings()], free_middles(), []
    for scene in scenes:
        rooms += scene.place(len(rooms), *(scene.middle or next(middles)))
    first, ticks = world(*rooms, players=players()), max(len(scene.turns) for scene in scenes)
    listed = {(tick, number): [call for scene in scenes for call in scene.calls(tick, number)] for tick in range(ticks) for number in (1, 2)}
    uploads = [Upload(tick, number, Table([call for call, _ in calls])) for (tick, number), calls in listed.items()]
    failed = checks.failed
    steps = play("rooms as pictures", first, ticks, uploads)
    if checks.failed > failed:
        print("    where " + "; ".join(f"room {scene.indices[HERE]} is: {scene.name}" for scene in scenes))
    for (tick, number), calls in listed.items():
        answers = struct.unpack(f"<{len(calls)}q", bytes.fromhex(account_of(steps[tick].world, number)["memory"]))
        wrong = [f"{call} answered {got} and not {wanted}" for (call, wanted), got in zip(calls, answers) if got != wanted]
        checks.note(f"the answers of turn {tick} for player {number}", wrong, len(calls))
    for scene in scenes:
        for number in range(len(scene.turns)):
            checks.note(scene.name, list(scene.faults(number, steps[number].world)))


def check_entries():
    """What is recorded of moves."""
    creeps = [thing("creep", serial, 10 * serial, 20, owner=1, body=["move"], timer=9) for serial in (1, 2, 3)]
    first = world(room("E0S0", 9, *creeps), players=players(1))
    calls = [("move", 1, 1), ("move", 1, 5), ("move", 2, 8), ("move", 2, 9), ("move", 3, 0), ("move", 4, 1)]
    steps = play("moves that are recorded", first, 2, [Upload(0, 1, Table(calls))])
    entries = steps[0].runs[0].entries
    checks.note("the record of moves", [] if entries == {("move", 1): (0, 5), ("move", 2): (0, 8)} else [f"{entries}"])
    after = [(one["x"], one["y"]) for one in steps[1].world["rooms"][0]["objects"]]
    checks.note("where they lead", [] if after == [(10, 22), (18, 18), (30, 20)] else [f"{after}"])


def check_full_record():
    """4,096 moves, and then more."""
    tiles, count = ring_of(48), 2051
    rooms = [[thing("creep", index * SECOND + serial, *tile, owner=1, body=["move"], timer=9) for serial, tile in enumerate(tiles[:count], 1)] for index in (0, 1)]
    rooms[0][-1]["extra"] = 3
    first = world(*[room(f"E{2 * index}S0", 3000, *objects) for index, objects in enumerate(rooms)], players=players(1))
    ids = [one["id"] for objects in rooms for one in objects if not one.get("extra")]
    last = [(("move", ids[MOST_ENTRIES], 1), FULL), (("move", ids[0], 5), 0), (("move", ids[MOST_ENTRIES], 0), INVALID), (("move", count, 1), TIRED)]
    last += [(("move", ids[MOST_ENTRIES - 1], 7), 0), (("move", ids[MOST_ENTRIES + 1], 3), FULL), (("move", ids[0], 9), INVALID), (("move", 2999, 1), NOT_FOUND)]
    calls = [("move", id, 1 + place % 8) for place, id in enumerate(ids[:MOST_ENTRIES])] + [call for call, _ in last]
    steps = play("a record of 4,096 moves", first, 2, [Upload(0, 1, Table(calls))])
    answers = struct.unpack(f"<{len(calls)}q", bytes.fromhex(account_of(steps[0].world, 1)["memory"]))
    wanted = (*[0] * MOST_ENTRIES, *[answer for _, answer in last])
    checks.note("what a full record answers", [] if answers == wanted else [f"{answers[MOST_ENTRIES:]} and not {wanted[MOST_ENTRIES:]}"])


def check_examples():
    """Two rooms side by side, by the ids and tiles of the creeps."""
    for at, direction, wanted in ((0, 3, [(1, 0, 20), (1, 1, 20)]), (1, 7, [(0, 49, 20), (1, 0, 20)])):
        creeps = [thing("creep", 5, 48, 20, owner=1, body=["move"], timer=9), thing("creep", SECOND + 1, at, 20, owner=1, body=["move"], timer=9)]
        first = world(*[room(name, 9, creep) for name, creep in zip(("E0S0", "E1S0"), creeps)], players=players(1))
        steps = play(f"two rooms, the second creep at {at}", first, 1, [Upload(0, 1, Table([("move", 5, 3), ("move", SECOND + 1, direction)]))])
        found = {one["id"]: (index, one["x"], one["y"]) for index, place in enumerate(steps[0].world["rooms"]) for one in place["objects"]}
        checks.note(f"where they are, the second at {at}", [] if found == dict(zip((5, SECOND + 1), wanted)) else [f"{found}"])


# ---- rings and chains that fill a room


def way(tile, following):
    """The direction in which a tile lies from another."""
    return next(direction for direction in COMPASS if towards(tile, direction) == following)


def check_large():
    """2,304 creeps in each of four rooms: a ring, one with a creep that is tired, a chain behind a free tile, and one behind a creep that stays."""
    ring, rooms, calls, wanted = ring_of(48), [], {}, []
    for index, name in enumerate(("a ring", "a tired ring", "a chain", "a chain that stays")):
        serials = random.Random(index).sample(range(1, 3000), len(ring))
        held = len(ring) - (name == "a chain")
        creeps = [thing("creep", index * SECOND + serial, *tile, owner=index + 1, body=["move"], timer=9) for serial, tile in zip(serials[:held], ring)]
        if name == "a tired ring":
            creeps[1000]["extra"] = 1
        moving = creeps[:-1] if name == "a chain that stays" else creeps
        following = {one["id"]: ring[(place + 1) % len(ring)] for place, one in enumerate(creeps)}
        calls[index + 1] = [("move", one["id"], way((one["x"], one["y"]), following[one["id"]])) for one in moving]
        stay = {one["id"]: (one["x"], one["y"]) for one in creeps}
        wanted.append((name, following if name in ("a ring", "a chain") else stay))
        rooms.append(room(f"E{2 * index}S0", 3000, *creeps))
    first = world(*rooms, players=players(4))
    steps = play("rooms that are full of creeps", first, 1, [Upload(0, number, Table(listed)) for number, listed in calls.items()])
    for index, (name, tiles) in enumerate(wanted):
        found = {one["id"]: (one["x"], one["y"]) for one in steps[0].world["rooms"][index]["objects"]}
        wrong = [f"creep {id} is at {tile} and not at {tiles[id]}" for id, tile in found.items() if tile != tiles[id]]
        checks.note(f"{name} of {len(tiles):,} creeps", wrong, len(tiles))


def check_crowds():
    """Rooms of 1,100 to 2,300 creeps of two players, which go anywhere."""
    draw, rooms = random.Random(7), []
    for index, count in enumerate((1100, 1700, 2200, 2300)):
        tiles = draw.sample(ring_of(48), count)
        creeps = [thing("creep", index * SECOND + serial, *tile, owner=1 + serial % 2, body=["move"], timer=9) for serial, tile in zip(draw.sample(range(1, 3000), count), tiles)]
        rooms.append(room(f"E{index}S0", 3000, *creeps))
    first = world(*rooms, players=players())
    tables = [[("move", one["id"], draw.choice(list(COMPASS))) for place in rooms for one in place["objects"] if one["owner"] == number] for number in (1, 2)]
    steps = play("crowds that go anywhere", first, 3, [Upload(0, number, Table(table)) for number, table in enumerate(tables, 1)])
    before, after = ({one["id"]: (one["x"], one["y"]) for place in it["rooms"] for one in place["objects"]} for it in (first, steps[0].world))
    stepping = sum(before[id] != after[id] for id in before)
    checks.note("some of a crowd step", [] if stepping > 500 else [f"{stepping}"])


# ---- every set of creeps, as the definition has it


class Mover:
    """A creep that would step, and to which tile."""

    def __init__(self, creep, tile):
        self.id, self.tile = creep["id"], tile


def can_step(place, creep, direction):
    """The tile to which it would step, or None where it would not."""
    alive = any(part == "move" and part_hits(creep, at) > 0 for at, part in enumerate(creep["body"]))
    x, y = towards((creep["x"], creep["y"]), direction)
    if not alive or creep["extra"] or not (0 <= x < 50 and 0 <= y < 50) or place["terrain"][50 * y + x] == "1":
        return None
    stands = any(one["kind"] in OBSTRUCTING and (one["x"], one["y"]) == (x, y) for one in place["objects"])
    return None if stands else (x, y)


def first_of_each(movers):
    """Per tile the one with the least id."""
    return [one for one in movers if not any(other.tile == one.tile and other.id < one.id for other in movers)]


def may_step(standing, chosen):
    """Each goes to a tile without a creep, or to that of a creep of the set."""
    ids = {one.id for one in chosen}
    return all(standing[one.tile] in ids for one in chosen if one.tile in standing)


def union_of_sets(standing, movers):
    """All that are in some set of them that may step."""
    found = set()
    for count in range(1, len(movers) + 1):
        for chosen in itertools.combinations(movers, count):
            if may_step(standing, chosen):
                found |= {one.id for one in chosen}
    return [one for one in movers if one.id in found]


def stepped(place, wanted):
    """What the moves of a room make of it, all at once, and how many step."""
    creeps = {one["id"]: one for one in place["objects"] if one["kind"] == "creep"}
    roads = {(one["x"], one["y"]): one for one in place["objects"] if one["kind"] == "road"}
    tiles = {id: can_step(place, creeps[id], direction) for id, direction in wanted.items() if id in creeps}
    movers = first_of_each([Mover(creeps[id], tile) for id, tile in tiles.items() if tile])
    going = union_of_sets({(one["x"], one["y"]): id for id, one in creeps.items()}, movers)
    for one in going:
        creep, (x, y), road = creeps[one.id], one.tile, roads.get(one.tile)
        weight = sum(part not in ("move", "carry") for part in creep["body"]) + -(-creep["energy"] // 50)
        swamp = place["terrain"][50 * y + x] == "2"
        creep.update(x=x, y=y, other_ticks=1, extra=weight * (1 if road else 10 if swamp else 2))
        if road:
            road["timer"] = max(1, road["timer"] - len(creep["body"]))
    return len(going)


def rested(place):
    """Creeps recover and age, and roads decay; nothing else of the boards changes, and no creep comes to its end."""
    for one in place["objects"]:
        if one["kind"] == "creep":
            one["timer"] -= 1
            hits = [part_hits(one, at) for at, part in enumerate(one["body"]) if part == "move"]
            one["extra"] = max(0, one["extra"] - 2 * sum(it > 0 for it in hits))
        if one["kind"] == "road":
            one["timer"] -= 1
            if one["timer"] == 0:
                one.update(timer=1000, hits=max(0, one["hits"] - 100))
    place["objects"] = [one for one in place["objects"] if one["kind"] != "road" or one["hits"] > 0]


def across(name, tile):
    """The room and the tile that lie across the border, where they do."""
    (column, row), (x, y) = place_of(name), tile
    if {x, y} <= {0, 49}:
        return None
    sides = ((WEST, x == 0, (49, y)), (EAST, x == 49, (0, y)), (NORTH, y == 0, (x, 49)), (SOUTH, y == 49, (x, 0)))
    return next((((column + side[0], row + side[1]), there) for side, holds, there in sides if holds), None)


def gone_over(it):
    """Creeps on border tiles to which they stepped go on, one after the other; how many do."""
    went = 0
    homes = {one["id"]: index for index, place in enumerate(it["rooms"]) for one in place["objects"] if one["kind"] == "creep"}
    names = {place_of(place["name"]): index for index, place in enumerate(it["rooms"])}
    for id in sorted(homes):
        place = it["rooms"][homes[id]]
        one = next(one for one in place["objects"] if one["id"] == id)
        found = across(place["name"], (one["x"], one["y"])) if one["other_ticks"] else None
        if found is None or found[0] not in names:
            continue
        other, (x, y) = it["rooms"][names[found[0]]], found[1]
        held = any(creep["kind"] == "creep" and (creep["x"], creep["y"]) == (x, y) for creep in other["objects"])
        if held or other["terrain"][50 * y + x] == "1":
            continue
        place["objects"].remove(one)
        other["objects"].append(one)
        one.update(x=x, y=y)
        went += 1
    for place in it["rooms"]:
        for one in place["objects"]:
            one["other_ticks"] = 0 if one["kind"] == "creep" else one["other_ticks"]
        place["objects"].sort(key=lambda one: one["id"])
    return went


def after_all_sets(it, runs):
    """The rooms after a tick with these runs, which want nothing but moves; how many creeps step, and how many cross."""
    it = full(it)
    wanted = {id: direction for run in runs for (_, id), (_, direction) in run.entries.items()}
    steps = sum(stepped(place, wanted) for place in it["rooms"])
    for place in it["rooms"]:
        rested(place)
    return it["rooms"], steps, gone_over(it)


# ---- random boards


class Draw:
    """Random boards: a few tiles in a room of walls, with creeps, roads and what obstructs."""

    def __init__(self, seed):
        self.random = random.Random(seed)

    def chance(self, share):
        return self.random.random() < share

    def creep(self, id, tile):
        body = ["move"]
        if self.chance(0.3):
            body = [self.random.choice(["move", "move", "work", "carry", "tough"]) for _ in range(self.random.randint(1, 5))] + ["move"]
        hits = 100 * len(body) - (self.random.randrange(1, 150) if len(body) > 2 and self.chance(0.3) else 0)
        made = thing("creep", id, *tile, owner=self.random.choice((1, 2)), body=body, hits=hits, timer=9, extra=self.random.choice((1, 2, 3)) if self.chance(0.04) else 0)
        live = sum(part == "carry" and part_hits(made, at) > 0 for at, part in enumerate(body))
        return {**made, "energy": self.random.randint(0, 50 * live)}

    def board(self, name, index, columns, rows):
        """A room with a board on these columns and rows. Creeps may be of another room's birth."""
        tiles = [(x, y) for x in columns for y in rows if not {x, y} <= {0, 49}]
        self.random.shuffle(tiles)
        ground = {50 * y + x: "1" for x in range(50) for y in range(50)}
        ground.update({50 * y + x: "2" if self.chance(0.2) else "0" for x, y in tiles})
        ids = [self.random.choice((index, index ^ 1)) * SECOND + 2 * serial + index % 2 for serial in self.random.sample(range(1, 40), 20)]
        inner = [tile for tile in tiles if not {0, 49} & set(tile)]
        solid, roads = inner[: self.random.choice((0, 0, 1, 2))], inner[2 : 2 + self.random.choice((0, 1, 3))]
        objects = [self.obstacle(ids.pop(), tile) for tile in solid]
        objects += [thing("road", ids.pop(), *tile, timer=self.random.choice((1, 2, 3, 6, 1000)), hits=self.random.choice((50, 100, 150, 5000))) for tile in roads]
        left = [tile for tile in tiles if tile not in solid]
        self.random.shuffle(left)
        objects += [self.creep(ids.pop(), tile) for tile in left[: self.random.randint(1, 8)]]
        return room(name, 90, *objects, terrain=grounds({**ground, **dict.fromkeys((0, 49, 2450, 2499), "1")}))

    def obstacle(self, id, tile):
        kind = self.random.choice(["spawn", "extension", "storage", "source"])
        # (a spawn that is full gains nothing)
        fields = {"source": {"energy": 1500}, "spawn": {"owner": 1, "energy": 300}}
        return thing(kind, id, *tile, **fields.get(kind, {"owner": 1}))

    def lone(self, index):
        """A board in a room that has no neighbours."""
        wide, high = self.random.choice(((2, 2), (3, 2), (2, 3), (3, 3), (4, 2), (4, 3), (8, 1)))
        x, y = self.random.choice((1, 7, 20, 50 - wide)), self.random.choice((1, 9, 30, 50 - high))
        return self.board(name_of(2 * (index % 20) - 20, 2 * (index // 20) - 20), index, range(x, x + wide), range(y, y + high))

    def pair(self, index):
        """Two boards on either side of a border."""
        column, row, at = 3 * (index % 20) - 30, 3 * (index // 20) - 30, self.random.choice((1, 20, 45))
        ends, along = (range(47, 50), range(3)), range(at, at + 3)
        beside = index % 2 == 0
        names = [name_of(column, row), name_of(column + beside, row + (not beside))]
        return [self.board(names[it], 2 * index + it, *((ends[it], along) if beside else (along, ends[it]))) for it in (0, 1)]

    def calls(self, it, number):
        """Moves of a player, most of them to a tile of the board."""
        found = []
        for place in it["rooms"]:
            for one in place["objects"]:
                if one["kind"] != "creep" or one["owner"] != number or self.chance(0.08):
                    continue
                open_ways = [way for way in COMPASS if self.is_ground(place, towards((one["x"], one["y"]), way))]
                ways = open_ways if open_ways and self.chance(0.93) else list(COMPASS)
                found += [("move", one["id"], self.random.choice(ways)) for _ in range(1 + self.chance(0.05))]
        return found

    def is_ground(self, place, tile):
        return all(0 <= at < 50 for at in tile) and place["terrain"][50 * tile[1] + tile[0]] != "1"


def check_boards(name, draw, first, ticks):
    """Random moves on 400 boards, tick by tick for the world as it then stands: the program, the model and all sets."""
    it, uploads, steps, done = full(first), [], [], [0, 0]
    for tick in range(ticks):
        tables = [(number, Table(draw.calls(it, number))) for number in (1, 2)]
        uploads += [Upload(tick, number, table) for number, table in tables]
        runs = [table.run(it, number) for number, table in tables]
        rooms, *counts = after_all_sets(it, runs)
        done = [one + more for one, more in zip(done, counts)]
        it = ticked(it, runs)
        for index, (one, other) in enumerate(zip(it["rooms"], rooms)):
            checks.note(f"{name}, tick {tick}, the model in room {index}", [] if one == other else [f"{brief(one)} and not {brief(other)}"])
        it["rooms"] = rooms
        steps.append(Step([(number, "accepted", table.content) for number, table in tables], runs, it))
    checks.note(f"the worlds of {name} keep the rules", world_faults(first, steps))
    play(name, first, ticks, uploads, steps=steps)
    return done


def brief(place):
    """Where the creeps of a room are, and how tired."""
    return " ".join(f"{one['id']}:{one['x']},{one['y']}:{one['extra']}" for one in place["objects"] if one["kind"] == "creep")


def check_all_sets():
    done = []
    for seed in (1, 2, 3):
        draw = Draw(seed)
        rooms = [draw.lone(index) for index in range(400)] if seed < 3 else [it for index in range(200) for it in draw.pair(index)]
        done.append(check_boards(f"boards of seed {seed}", draw, world(*rooms, players=players()), 2))
    few = [f"{steps} steps and {crossings} crossings" for steps, crossings in done if steps < 1000] + ([] if done[-1][1] >= 100 else [f"{done[-1][1]} crossings"])
    checks.note("enough creeps step and cross on the boards", few)


def main():
    check_scenes()
    check_entries()
    check_full_record()
    check_examples()
    check_large()
    check_crowds()
    check_all_sets()
    checks.finish()


if __name__ == "__main__":
    main()
