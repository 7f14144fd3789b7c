#!/usr/bin/env python3
"""Says of a world file whether `world_server run` takes it, and else where its first fault stands and what may stand there.

    worlds/check_world.py FILE

Of a good file one line is printed, with the exit status 0, as `good: rooms 1 objects 5 players 1`. Of another one four lines are, with the exit
status 1: the fault as the program says it, where it is, what stands there, and what is allowed there. Behind both stands a line `warning: ..` for
each key that nothing reads, each that stands twice in one object, and each further kind that is known and not built yet. --help prints this.

It is written from docs/formats.md ("World file"), finds faults in the order that stands there, and runs no program.
"""

import os
import re
import sys
from collections import Counter, namedtuple

MOST_BYTES, MOST_DEPTH = 64 << 20, 127
MOST_WORD, MOST_LONG = 2**32 - 1, 2**53
MOST_ROOMS, MOST_OBJECTS, MOST_PLAYERS, MOST_SITES, MOST_PARTS = 400, 20_000, 64, 100, 50
MOST_TOKEN, MOST_MEMORY = 64, 65_536
SIDE = 50
CORNERS = [(0, 0), (SIDE - 1, 0), (0, SIDE - 1), (SIDE - 1, SIDE - 1)]
SERIALS = 1 << 32
KINDS = ["source", "controller", "creep", "spawn", "extension", "storage", "container", "road", "pile", "site"]
NOT_BUILT = ["tower", "rampart", "wall", "tombstone"]
PARTS = ["move", "work", "carry", "attack", "ranged_attack", "tough", "heal", "claim"]
BUILDINGS = ("spawn", "extension", "storage", "container", "road")
OBSTRUCTING = ("source", "controller", "spawn", "extension", "storage")
FIXED = ("source", "controller", "site", *BUILDINGS)
OWNED = ("creep", "spawn", "extension", "storage", "site")
HITS = {"spawn": 5000, "extension": 1000, "storage": 10_000, "container": 250_000, "road": 5000}
TOTALS = {4: 15_000, 5: 3000, 6: 30_000, 7: 5000, 8: 300}
# Of each level of a controller the progress that the next one takes, and the ticks for which it is kept at most.
LEVELS = [0, 200, 45_000, 135_000, 405_000, 1_215_000, 3_645_000, 10_935_000, 0]
DOWNGRADES = [0, 20_000, 10_000, 20_000, 40_000, 80_000, 120_000, 150_000, 200_000]
MOST_SHOWN = 60


class Fault(Exception):
    """A fault as the program names it, the place in the text, what is there and what is allowed; `where` names the part and the key."""

    def __init__(self, name, at, where, found, allowed):
        super().__init__(name)
        self.name, self.at, self.where, self.found, self.allowed = name, at, where, found, allowed


# ---- JSON

# `held` is a list of (key, place, value) for an object, a list of values for a list, a text, or the spelling of a number or a word.
Value = namedtuple("Value", "at kind held")

SPACE = re.compile(r"[ \t\n\r]*")
NUMBER = re.compile(r"-?(?:0|[1-9][0-9]*)(?:\.[0-9]+)?(?:[eE][+-]?[0-9]+)?")
WORD = re.compile(r"true|false|null")
# (bytes that are no UTF-8 stand in the text as these surrogates)
PLAIN = re.compile(r'[^"\\\x00-\x1f\udc80-\udcff]*')
ESCAPE = re.compile(r'\\(?:(["\\/bfnrt])|u([dD][89abAB][0-9a-fA-F]{2})\\u([dD][c-fC-F][0-9a-fA-F]{2})|u(?![dD][89a-fA-F])([0-9a-fA-F]{4}))')
ESCAPED = {'"': '"', "\\": "\\", "/": "/", "b": "\b", "f": "\f", "n": "\n", "r": "\r", "t": "\t"}


class Parser:
    """Reads a JSON text, value by value."""

    def __init__(self, text):
        self.text, self.at = text, 0

    def fail(self, allowed, at=None):
        at = self.at if at is None else at
        rest = self.text[at : at + MOST_SHOWN + 1]
        found = brief(rest[:1] + rest[1:].split("\n")[0]) if rest else "nothing: the file ends"
        raise Fault("NotJson", at, "the JSON text", found, allowed)

    def match(self, form):
        found = form.match(self.text, self.at)
        if found:
            self.at = found.end()
        return found

    def takes(self, mark):
        """Whether a mark stands next, which is read then, with the space around it."""
        self.match(SPACE)
        if not self.text.startswith(mark, self.at):
            return False
        self.at += len(mark)
        self.match(SPACE)
        return True

    def whole(self):
        self.match(SPACE)
        found = self.value(1)
        self.match(SPACE)
        if self.at < len(self.text):
            self.fail("nothing more behind the value")
        return found

    def value(self, depth):
        at, mark = self.at, self.text[self.at : self.at + 1]
        if mark in ("{", "[") and mark:
            if depth > MOST_DEPTH:
                self.fail(f"values nest at most {MOST_DEPTH} deep")
            return Value(at, "object", self.members(depth)) if mark == "{" else Value(at, "list", self.entries(depth))
        if mark == '"':
            return Value(at, "text", self.string())
        if found := self.match(NUMBER):
            if abs(float(found[0])) == float("inf"):
                self.fail("a number that a float of 64 bits can come near to", at)
            return Value(at, "number", found[0])
        if found := self.match(WORD):
            return Value(at, "word", found[0])
        return self.fail("a value: an object, a list, a text, a number, true, false or null")

    def members(self, depth):
        self.takes("{")
        found = []
        if self.takes("}"):
            return found
        while True:
            at = self.at
            if not self.text.startswith('"', at):
                self.fail('a key in " and "')
            key = self.string()
            if not self.takes(":"):
                self.fail("a colon behind the key")
            found.append((key, at, self.value(depth + 1)))
            if self.takes("}"):
                return found
            if not self.takes(","):
                self.fail("a comma and the next key, or }")

    def entries(self, depth):
        self.takes("[")
        found = []
        if self.takes("]"):
            return found
        while True:
            found.append(self.value(depth + 1))
            if self.takes("]"):
                return found
            if not self.takes(","):
                self.fail("a comma and the next value, or ]")

    def string(self):
        begin, parts = self.at, []
        self.at += 1
        while True:
            parts.append(self.match(PLAIN)[0])
            mark = self.text[self.at : self.at + 1]
            if mark == '"':
                self.at += 1
                return "".join(parts)
            if mark == "\\":
                parts.append(self.escape())
            elif not mark:
                self.fail('a " that ends this text', begin)
            else:
                self.fail("UTF-8, and control characters as \\n or \\u000a")

    def escape(self):
        found = self.match(ESCAPE)
        if not found:
            self.fail('\\" \\\\ \\/ \\b \\f \\n \\r \\t, or \\u and four digits, and surrogates in pairs')
        plain, high, low, code = found.groups()
        if plain:
            return ESCAPED[plain]
        return chr(int(code, 16)) if code else chr(0x10000 + ((int(high, 16) - 0xD800) << 10) + int(low, 16) - 0xDC00)


def brief(text):
    """A text as it can stand in one line."""
    text = text if len(text) <= MOST_SHOWN else text[:MOST_SHOWN] + ".."
    # (a byte that is no UTF-8 as what it is)
    return text if text.isprintable() else ascii(text)[1:-1].replace("\\udc", "\\x")


def shown(value):
    """A value as a fault shows it."""
    if value.kind == "text":
        return brief(f'"{value.held}"')
    if value.kind in ("list", "object"):
        return f"{'a list' if value.kind == 'list' else 'an object'} of {len(value.held)}"
    return brief(value.held)


# ---- forms of values

# `read` gives the value, or None where it doesn't fit.
Form = namedtuple("Form", "read says")
Key = namedtuple("Key", "name form default")
NEEDED = object()


def whole(least, most):
    def read(value):
        fits = value.kind == "number" and re.fullmatch("0|[1-9][0-9]{0,19}", value.held) and least <= int(value.held) <= most
        return int(value.held) if fits else None

    return Form(read, f"a whole number from {least} to {most}" if least < most else f"{least}")


def text(form, says):
    return Form(lambda value: value.held if value.kind == "text" and re.fullmatch(form, value.held) else None, says)


def read_body(value):
    fits = value.kind == "list" and len(value.held) <= MOST_PARTS and all(it.kind == "text" and it.held in PARTS for it in value.held)
    return [it.held for it in value.held] if fits else None


LIST = Form(lambda value: value.held if value.kind == "list" else None, "a list")
COUNT = "(?:0|[1-9][0-9]?|1[01][0-9]|12[0-7])"
NAME = text(f"[WE]{COUNT}[NS]{COUNT}", "W or E and a number, then N or S and a number, each 0 to 127 without leading zeros, as E0S0")
TERRAIN = text(f"[012]{{{SIDE * SIDE}}}", f"a text of {SIDE * SIDE:,} digits, 0, 1 or 2, and nothing between them")
KIND = text("|".join(KINDS + NOT_BUILT), f"one of {', '.join(KINDS)}")
TOKEN = text(f"[!-~]{{0,{MOST_TOKEN}}}", f"a text of at most {MOST_TOKEN} bytes from ! to ~")
MEMORY = text(f"(?:[0-9a-f]{{2}}){{0,{MOST_MEMORY}}}", f"at most {MOST_MEMORY:,} bytes in lower case hexadecimal, two digits each")
BODY = Form(read_body, f"a list of at most {MOST_PARTS} of {', '.join(PARTS)}")
WHOLE_WORD, WHOLE_LONG = whole(0, MOST_WORD), whole(0, MOST_LONG)

# In the order in which they are read.
TOP_KEYS = [Key("version", whole(1, 1), NEEDED), Key("tick", WHOLE_LONG, NEEDED), Key("rooms", LIST, NEEDED)]
PLAYERS_KEY = Key("players", LIST, [])
ROOM_KEYS = [Key("name", NAME, NEEDED), Key("terrain", TERRAIN, NEEDED), Key("next", whole(1, MOST_WORD), NEEDED), Key("objects", LIST, NEEDED)]
OBJECT_KEYS = [
    Key("id", whole(1, MOST_LONG), NEEDED),
    Key("kind", KIND, NEEDED),
    Key("x", whole(0, SIDE - 1), NEEDED),
    Key("y", whole(0, SIDE - 1), NEEDED),
    Key("owner", WHOLE_WORD, 0),
    Key("body", BODY, []),
    Key("hits", WHOLE_WORD, None),
    Key("energy", WHOLE_LONG, 0),
    Key("timer", WHOLE_WORD, 0),
    Key("extra", WHOLE_WORD, 0),
    Key("progress", WHOLE_LONG, 0),
    Key("other", WHOLE_WORD, 0),
    Key("other_ticks", WHOLE_WORD, 0),
]
PLAYER_KEYS = [
    Key("player", whole(1, MOST_WORD), NEEDED),
    Key("token", TOKEN, ""),
    Key("limit", whole(0, 500), NEEDED),
    Key("bucket", whole(0, 10_000), 0),
    Key("points", WHOLE_LONG, 0),
    Key("memory", MEMORY, ""),
]


# ---- the parts of a world


class Part:
    """The top, a room, an object or a player: its values by their keys, and where in the text each stands."""

    def __init__(self, value, number, where):
        # (of a key that stands twice the last counts)
        self.held = {key: one for key, _, one in value.held} if value.kind == "object" else {}
        self.at, self.value, self.number, self.names, self.values = value.at, value, number, [where], {}

    def __getitem__(self, key):
        return self.values[key]

    def place(self, key):
        return self.held[key].at if key in self.held else self.at

    def where(self, *keys):
        return ", ".join(self.names) + (f": {'key' if len(keys) == 1 else 'keys'} {' and '.join(keys)}" if keys else "")

    def found(self, key):
        """What stands at a key, for a fault."""
        if key in self.held:
            return shown(self.held[key])
        if key in self.values:
            return f"no such key, which stands for {self.values[key]}"
        return "no such key" if self.value.kind == "object" else f"{shown(self.value)}, which has no keys"

    def fault(self, name, key, allowed, found=None):
        return Fault(name, self.place(key), self.where(key), found or self.found(key), allowed)

    def read(self, key):
        name = "".join(word.capitalize() for word in key.name.split("_"))
        if key.name not in self.held:
            if key.default is NEEDED:
                raise self.fault(f"Missing {name}", key.name, f"{key.form.says}; the key may not be left out")
            self.values[key.name] = key.default
            return
        found = key.form.read(self.held[key.name])
        if found is None:
            raise self.fault(f"BadValue {name} {self.number}", key.name, key.form.says)
        if found in NOT_BUILT and key.form is KIND:
            raise self.fault(f"NotBuilt {found.capitalize()}", key.name, f"{KIND.says}; this one is known and not built yet")
        self.values[key.name] = found
        # (what says more of where it is, once it is read)
        if key.name in ("name", "id", "kind"):
            self.names[-1] += f" {found}" if key.name == "name" else f", {key.name} {found}"


def object_of(value, number, room):
    it = Part(value, number, f"object {number} of its list")
    it.names.insert(0, room.where())
    for key in OBJECT_KEYS:
        it.read(key)
    if it.values["hits"] is None:
        it.values["hits"] = 100 * len(it["body"]) if it["kind"] == "creep" else HITS.get(it["kind"], 0)
    return it


def room_of(value, number):
    room = Part(value, number, f"room {number}")
    for key in ROOM_KEYS:
        room.read(key)
    room.objects = [object_of(it, at, room) for at, it in enumerate(room["objects"])]
    return room


def player_of(value, number):
    player = Part(value, number, f"player {number} of the list")
    for key in PLAYER_KEYS:
        player.read(key)
    return player


class World:
    """A world whose keys have no fault. They are read from the top down."""

    def __init__(self, value):
        self.top = Part(value, 0, "the top")
        for key in TOP_KEYS:
            self.top.read(key)
        self.rooms = [room_of(it, number) for number, it in enumerate(self.top["rooms"])]
        self.top.read(PLAYERS_KEY)
        self.players = [player_of(it, number) for number, it in enumerate(self.top["players"])]
        self.objects = [it for room in self.rooms for it in room.objects]
        self.listed = {player["player"] for player in self.players}


# ---- rules: each yields the numbers at which it is broken, with the fault there


def counts(world):
    for what, count, least, most in (("rooms", len(world.rooms), 1, MOST_ROOMS), ("objects", len(world.objects), 0, MOST_OBJECTS), ("players", len(world.players), 0, MOST_PLAYERS)):
        if not least <= count <= most:
            key = "players" if what == "players" else "rooms"
            yield 0, world.top.fault("Rule Counts 0", key, f"{least} to {most:,} {what}", f"{count:,} {what}")


def room_twice(world):
    names = {}
    for index, room in enumerate(world.rooms):
        first = names.setdefault(room["name"], index)
        if first != index:
            yield index, room.fault(f"Rule RoomTwice {index}", "name", f"a name that no earlier room has, and room {first} has this one")


def corner(world):
    for index, room in enumerate(world.rooms):
        open_ones = [f"{x}, {y}" for x, y in CORNERS if room["terrain"][SIDE * y + x] != "1"]
        if open_ones:
            yield index, room.fault(f"Rule Corner {index}", "terrain", "1, a wall, in the four corners", f"no wall at {' and '.join(open_ones)}")


def serial(world):
    for it in world.objects:
        home, number = divmod(it["id"], SERIALS)
        name = f"Rule Serial {it['id']}"
        if home >= len(world.rooms):
            yield it["id"], it.fault(name, "id", f"the index of a room, 0 to {len(world.rooms) - 1}, times 4294967296, plus a serial", f"{it['id']}, which is of a room {home}")
        elif not 1 <= number < world.rooms[home]["next"]:
            most = world.rooms[home]["next"] - 1
            yield it["id"], it.fault(name, "id", f"a serial from 1 to {most}, one less than the key next of room {home}", f"{it['id']}, whose serial is {number}")


def twice(parts, key, rule, says):
    """Each part whose value at a key one before it has."""
    first = {}
    for it in parts:
        other = first.setdefault(it[key], it)
        if other is not it:
            yield it[key], it.fault(f"Rule {rule} {it[key]}", key, f"{says}, and {other.where()} has this one")


def id_twice(world):
    return twice(world.objects, "id", "IdTwice", "an id that no other object has")


def tile(world):
    for room in world.rooms:
        for it in room.objects:
            x, y, kind = it["x"], it["y"], it["kind"]
            wall = room["terrain"][SIDE * y + x] == "1" and kind not in ("source", "controller")
            if wall or (not (0 < x < SIDE - 1 and 0 < y < SIDE - 1) and kind not in ("creep", "pile")):
                allowed = "a tile that is no wall" if wall else "a tile that is not at the border: x and y from 1 to 48"
                yield it["id"], Fault(f"Rule Tile {it['id']}", it.place("x"), it.where("x", "y"), f"{kind} at {x}, {y}", allowed)


def shared(world):
    for room in world.rooms:
        standing = {}
        for it in sorted(room.objects, key=lambda it: it["id"]):
            kind, here = it["kind"], standing.setdefault((it["x"], it["y"]), {})
            bars = {"creep": ("creep", "obstructing"), "pile": ("pile",)}.get(kind, ("fixed", "creep") if kind in OBSTRUCTING else ("fixed",))
            other = next((here[what] for what in bars if what in here), None)
            if other:
                found = f"{kind} at {it['x']}, {it['y']}, where {other['kind']} {other['id']} stands"
                yield it["id"], Fault(f"Rule Shared {it['id']}", it.place("x"), it.where("x", "y"), found, "a tile that it doesn't share with that: docs/formats.md, rule Shared")
            for what, is_such in (("fixed", kind in FIXED), ("obstructing", kind in OBSTRUCTING), (kind, True)):
                if is_such:
                    here.setdefault(what, it)


def owner(world):
    for it in world.objects:
        for key, kinds in (("owner", (*OWNED, "controller")), ("other", ("controller",))):
            if it[key] and (it["kind"] not in kinds or it[key] not in world.listed):
                allowed = "0, as this kind has none" if it["kind"] not in kinds else "the number of a player who is listed in the key players"
                yield it["id"], it.fault(f"Rule Owner {it['id']}", key, allowed)
                break


def controllers(world):
    for index, room in enumerate(world.rooms):
        found = [it for it in room.objects if it["kind"] == "controller"]
        if len(found) > 1:
            yield index, found[1].fault(f"Rule Controllers {index}", "kind", f"one controller in a room, and {found[0]['id']} is one", f"controller {found[1]['id']}")


def ranges(world):
    for it in world.objects:
        for key, least, most in fields_of(it):
            value = len(it[key]) if key == "body" else it[key]
            if not least <= value <= most:
                yield it["id"], it.fault(f"Rule Range {it['id']}", key, allowed_of(it, key, least, most))
                break


def allowed_of(it, key, least, most):
    what = "a list of parts, " if key == "body" else ""
    if key not in NAMED[it["kind"]]:
        return f"{what}{'empty' if what else 0}, as a {it['kind']} has none"
    return f"{what}{least} to {most}, for this {it['kind']}" if least < most else f"{what}{least}, for this {it['kind']}"


# Of each kind the fields that aren't always 0.
NAMED = {
    "source": ("energy", "timer"),
    "controller": ("owner", "extra", "progress", "timer", "other", "other_ticks"),
    "creep": ("owner", "body", "hits", "energy", "timer", "extra"),
    "spawn": ("owner", "body", "hits", "energy", "timer"),
    "extension": ("owner", "hits", "energy"),
    "storage": ("owner", "hits", "energy"),
    "container": ("hits", "energy", "timer"),
    "road": ("hits", "timer"),
    "pile": ("energy",),
    "site": ("owner", "extra", "progress"),
}
FIELDS = ["owner", "body", "hits", "energy", "timer", "extra", "progress", "other", "other_ticks"]


def fields_of(it):
    """Each field of an object with the ends of its range, those first by which others go; that of a body is how many parts it has."""
    found = {"controller": of_controller, "creep": of_creep, "spawn": of_spawn}.get(it["kind"], of_others)(it)
    if it["kind"] in HITS:
        found["hits"] = (1, HITS[it["kind"]])
    if it["kind"] in OWNED:
        found["owner"] = (1, MOST_WORD)
    yield from [(key, *ends) for key, ends in found.items()]
    yield from [(key, 0, 0) for key in FIELDS if key not in found]


def of_controller(it):
    level = it["extra"]
    ends = {"owner": (0, MOST_WORD), "extra": (1, 8) if it["owner"] else (0, 0)}
    if not level or level > 8:
        return {**ends, "timer": (0, 0), "progress": (0, 0), "other": (0, MOST_WORD), "other_ticks": (1, 5000) if it["other"] else (0, 0)}
    return {**ends, "timer": (1, DOWNGRADES[level]), "progress": (0, max(0, LEVELS[level] - 1))}


def of_creep(it):
    count = len(it["body"])
    live = sum(part == "carry" and it["hits"] > 100 * (count - 1 - at) for at, part in enumerate(it["body"]))
    return {"body": (1, MOST_PARTS), "hits": (1, 100 * count), "energy": (0, 50 * live), "timer": (1, 600 if "claim" in it["body"] else 1500), "extra": (0, 500)}


def of_spawn(it):
    return {"body": (0, MOST_PARTS), "energy": (0, 300), "timer": (1 if it["body"] else 0, 3 * len(it["body"]))}


def of_others(it):
    return {
        "source": {"energy": (0, 3000), "timer": (0, 300)},
        "extension": {"energy": (0, 200)},
        "storage": {"energy": (0, 1_000_000)},
        "container": {"energy": (0, 2000), "timer": (1, 500)},
        "road": {"timer": (1, 1000)},
        "pile": {"energy": (1, 1_000_000_000)},
        "site": {"extra": (4, 8), "progress": (0, TOTALS.get(it["extra"], 1) - 1)},
    }[it["kind"]]


def player_twice(world):
    return twice(world.players, "player", "PlayerTwice", "a number that no other player has")


def sites(world):
    having = Counter(it["owner"] for it in world.objects if it["kind"] == "site")
    for it in world.players:
        count = having[it["player"]]
        if count > MOST_SITES:
            yield it["player"], it.fault(f"Rule Sites {it['player']}", "player", f"at most {MOST_SITES} sites of a player", f"{it['player']}, who has {count}")


RULES = [counts, room_twice, corner, serial, id_twice, tile, shared, owner, controllers, ranges, player_twice, sites]


def first_broken(world):
    """The fault of the first rule that is broken, at its least number, or None."""
    for rule in RULES:
        broken = list(rule(world))
        if broken:
            return min(broken, key=lambda it: it[0])[1]
    return None


# ---- warnings


def named(keys):
    return [key.name for key in keys]


def warnings_of(top):
    """What is passed over: each with its place and its text."""
    yield from of_keys(top, "the top", [*named(TOP_KEYS), "players"])
    for number, room in enumerate(entries_of(top, "rooms")):
        name = last_of(room, "name")
        where = f"room {number}" + (f" {name.held}" if name and NAME.read(name) else "")
        yield from of_keys(room, where, named(ROOM_KEYS))
        for at, it in enumerate(entries_of(room, "objects")):
            id, kind = last_of(it, "id"), last_of(it, "kind")
            here = f"{where}, object {at} of its list" + (f", id {id.held}" if id and id.kind == "number" else "")
            yield from of_keys(it, here, named(OBJECT_KEYS))
            if kind and kind.kind == "text" and kind.held in NOT_BUILT:
                yield kind.at, f"{here}: the kind {kind.held} is known and not built yet"
    for number, player in enumerate(entries_of(top, "players")):
        yield from of_keys(player, f"player {number} of the list", named(PLAYER_KEYS))


def last_of(value, key):
    return next((one for name, _, one in reversed(value.held) if name == key), None) if value.kind == "object" else None


def entries_of(value, key):
    found = last_of(value, key)
    return found.held if found and found.kind == "list" else []


def of_keys(value, where, known):
    if value.kind != "object":
        return
    times = Counter(key for key, _, _ in value.held)
    seen = set()
    for key, at, _ in value.held:
        if key not in known:
            yield at, f"{where}: nothing reads the key {brief(key)}"
        elif key in seen:
            yield at, f"{where}: the key {key} stands {'twice' if times[key] == 2 else f'{times[key]} times'}, and the last one counts"
        seen.add(key)


# ---- a file


def place_of(text, at):
    """The line and the column of a place, both from 1 on."""
    line = text.count("\n", 0, at) + 1
    return f"line {line}, column {at - text.rfind(chr(10), 0, at)}"


def lines_of(content):
    """What is printed of a file, and whether it is good."""
    if len(content) > MOST_BYTES:
        return False, ["fault 3 World TooLong", "the file", f"more than {MOST_BYTES} bytes", f"at most {MOST_BYTES} bytes"]
    source = content.decode("utf-8", "surrogateescape")
    fault, top = None, None
    try:
        top = Parser(source).whole()
        world = World(top)
        fault = first_broken(world)
    except Fault as found:
        fault = found
    if fault:
        lines = [f"fault 3 World {fault.name}", f"{place_of(source, fault.at)}: {fault.where}", f"stands there: {fault.found}", f"allowed: {fault.allowed}"]
    else:
        lines = [f"good: rooms {len(world.rooms)} objects {len(world.objects)} players {len(world.players)}"]
    warnings = sorted(warnings_of(top)) if top else []
    return fault is None, lines + [f"warning: {place_of(source, at)}: {text}" for at, text in warnings if not (fault and fault.at == at)]


def main():
    words = sys.argv[1:]
    try:
        if {"-h", "--help"} & set(words):
            good, lines = True, [__doc__.strip()]
        elif len(words) != 1:
            sys.exit("check_world.py: the word is FILE: --help says more")
        else:
            with open(words[0], "rb") as it:
                good, lines = lines_of(it.read(MOST_BYTES + 1))
    except OSError as error:
        sys.exit(f"check_world.py: {error.strerror}: {words[0]}")
    if sys.stdout is None:
        sys.exit("check_world.py: standard output is closed")
    # (keys may have any characters)
    sys.stdout.reconfigure(errors="backslashreplace")
    try:
        print("\n".join(lines), flush=True)
    except OSError as error:
        # (what could not be written would be tried again)
        os.dup2(os.open(os.devnull, os.O_WRONLY), sys.stdout.fileno())
        sys.exit(f"check_world.py: {error.strerror}: standard output")
    sys.exit(0 if good else 1)


if __name__ == "__main__":
    main()
