#!/usr/bin/env python3
"""A reader of journals, written from docs/formats.md alone: it shares nothing with the program, and nothing with the other files of oracle/.

    oracle/journal_reader.py first.journal

prints the lines that the runs which wrote a journal printed of its ticks, or where it is refused. checks/read_journals.py reads journals with it that
are worked out by hand. What a module is, which an accepted upload has to be, is left to whoever reads: here any bytes are one.
"""

import struct
import sys
from collections import namedtuple

SECOND = 1 << 32
MOST_TICK, MOST_ROOMS, MOST_ACCOUNTS, MOST_INTENTS = 1 << 53, 400, 64, 4096
MOST_MODULE, MOST_TEXT, MOST_PARTS, MOST_SITES = 1 << 20, 1 << 16, 50, 100
SOURCE, CONTROLLER, CREEP, SPAWN, EXTENSION, STORAGE, CONTAINER, ROAD, PILE, SITE = range(1, 11)
WORK, CARRY, CLAIM, LAST_PART, LAST_ACTION = 2, 3, 8, 8, 22
BUILDINGS = {SPAWN, EXTENSION, STORAGE, CONTAINER, ROAD}
FIXED = {SOURCE, CONTROLLER, SITE} | BUILDINGS
OBSTRUCTING = {SOURCE, CONTROLLER, SPAWN, EXTENSION, STORAGE}
OWNED = {CREEP, SPAWN, EXTENSION, STORAGE, SITE}
TOTALS = {4: 15_000, 5: 3_000, 6: 30_000, 7: 5_000, 8: 300}
LEVELS = (0, 200, 45_000, 135_000, 405_000, 1_215_000, 3_645_000, 10_935_000, 0)
DOWNGRADES = (0, 20_000, 10_000, 20_000, 40_000, 80_000, 120_000, 150_000, 200_000)
ACCEPTED, WRONG_TOKEN, LAST_RESULT, TRAPPED = 0, 2, 10, 1
RESULTS = "accepted UnknownPlayer WrongToken TooLarge Malformed FloatRefused Invalid UnknownImport ImportKind NoLoop Segment".split()
OUTCOMES = ("finished", "trapped", "spent")

Thing = namedtuple("Thing", "id kind x y owner hits energy timer extra progress other other_ticks body")
Room = namedtuple("Room", "index next things")
Account = namedtuple("Account", "player limit bucket points text")
Intent = namedtuple("Intent", "action actor target amount body")
Upload = namedtuple("Upload", "player result module")
Run = namedtuple("Run", "player outcome trap used intents")
Record = namedtuple("Record", "tick uploads runs accounts rooms")
Journal = namedtuple("Journal", "base worlds records modules gate")


class Wrong(Exception):
    """What a frame fails by."""


class NotAJournal(Exception):
    """Bytes that are no journal, with the place of the gate whose frame fails, and what it fails by."""

    def __init__(self, at, reason):
        super().__init__(f"NotAJournal {at}: {reason}")
        self.at = at


def need(holds, reason):
    if not holds:
        raise Wrong(reason)


# ---- bytes


class Bytes:
    """Numbers and forms, one after the other."""

    def __init__(self, content):
        self.content, self.at = content, 0

    def bytes(self, length):
        need(self.at + length <= len(self.content), "bytes are missing")
        self.at += length
        return self.content[self.at - length : self.at]

    def numbers(self, form):
        return struct.unpack("<" + form, self.bytes(struct.calcsize("<" + form)))

    def number(self, form):
        return self.numbers(form)[0]

    def list(self, read):
        return [read() for _ in range(self.number("I"))]

    def end(self):
        need(self.at == len(self.content), "bytes are left over")

    def body(self):
        parts = self.bytes(self.number("B"))
        need(len(parts) <= MOST_PARTS and all(1 <= part <= LAST_PART for part in parts), "a body is none")
        return parts

    def thing(self):
        it = Thing(*self.numbers("QBBBIIQIIQII"), self.body())
        need(SOURCE <= it.kind <= SITE and it.x < 50 and it.y < 50, "an object has no form")
        return it

    def room(self):
        it = Room(*self.numbers("II"), self.list(self.thing))
        need(it.next >= 1 and is_rising(one.id for one in it.things), "a room has no form")
        return it

    def account(self):
        *numbers, length = self.numbers("IIIQI")
        need(length <= MOST_TEXT, "a memory text is too long")
        return Account(*numbers, self.bytes(length))

    def intent(self):
        it = Intent(*self.numbers("BQQQ"), self.body())
        need(1 <= it.action <= LAST_ACTION, "an action has no such number")
        return it

    def upload(self):
        player, result, length = self.numbers("IBI")
        need(result <= LAST_RESULT and result != WRONG_TOKEN and length <= MOST_MODULE, "an upload has no form")
        return Upload(player, result, self.bytes(length))

    def run(self):
        it = Run(*self.numbers("IBBQ"), self.list(self.intent))
        need(it.outcome < len(OUTCOMES), "a run has no such outcome")
        need(1 <= it.trap <= 9 if it.outcome == TRAPPED else it.trap == 0, "a run has no such trap")
        need(len(it.intents) <= MOST_INTENTS and is_rising(one[:2] for one in it.intents), "the intents of a run are out of order")
        return it


def is_rising(values):
    values = list(values)
    return all(one < other for one, other in zip(values, values[1:]))


# ---- contents


class World:
    """A world: its tick, for each room its name, ground and form, and its accounts by player."""

    def __init__(self, tick, names, grounds, rooms, accounts):
        self.tick, self.names, self.grounds, self.rooms, self.accounts = tick, names, grounds, rooms, accounts

    def after(self, record):
        rooms = list(self.rooms)
        for room in record.rooms:
            rooms[room.index] = room
        return World(record.tick, self.names, self.grounds, rooms, self.accounts | {it.player: it for it in record.accounts})

    def things(self):
        return [it for room in self.rooms for it in room.things]

    def energy(self):
        return sum(it.energy for it in self.things())


def read_base(content):
    it = Bytes(content)
    need(it.bytes(4) == b"SWSJ" and it.number("I") == 1, "it begins with other bytes")
    tick, count = it.numbers("QI")
    need(tick <= MOST_TICK and 1 <= count <= MOST_ROOMS, "the tick or the number of rooms")
    names, grounds, rooms = [], [], []
    for index in range(count):
        names.append(it.numbers("ii"))
        grounds.append(it.bytes(2500))
        rooms.append(it.room())
        need(all(-128 <= place <= 127 for place in names[-1]) and max(grounds[-1]) <= 2 and rooms[-1].index == index, "a room of the base")
    accounts = it.list(it.account)
    it.end()
    players = [one.player for one in accounts]
    need(len(accounts) <= MOST_ACCOUNTS and is_rising([0, *players]), "the accounts of the base")
    return World(tick, names, grounds, rooms, dict(zip(players, accounts)))


def read_tick(content):
    it = Bytes(content)
    need(it.bytes(1) == b"T", "it begins with another byte")
    record = Record(it.number("Q"), it.list(it.upload), it.list(it.run), it.list(it.account), it.list(it.room))
    it.end()
    need(is_rising(one.player for one in record.runs) and is_rising(one.player for one in record.accounts), "players are out of order")
    need(is_rising(one.index for one in record.rooms), "rooms are out of order")
    return record


# ---- the rules that a world keeps


def live(it, part):
    """How many live parts of a kind a creep has."""
    count = len(it.body)
    return sum(one == part and it.hits > 100 * (count - 1 - place) for place, one in enumerate(it.body))


def is_controller(it):
    if it.extra > 8 or (it.owner > 0) != (it.extra > 0) or it.hits or it.energy or it.body:
        return False
    timer = 1 <= it.timer <= DOWNGRADES[it.extra] if it.extra else it.timer == 0
    progress = it.progress < LEVELS[it.extra] if LEVELS[it.extra] else it.progress == 0
    reserved = it.extra == 0 and 1 <= it.other_ticks <= 5000 if it.other else it.other_ticks == 0
    return timer and progress and reserved


def is_creep(it):
    load, life = 50 * live(it, CARRY), 600 if CLAIM in it.body else 1500
    return it.body and 1 <= it.hits <= 100 * len(it.body) and it.energy <= load and 1 <= it.timer <= life and it.extra <= 500


def is_spawn(it):
    return 1 <= it.hits <= 5000 and it.energy <= 300 and it.timer <= 3 * len(it.body) and (it.timer > 0) == (len(it.body) > 0)


# For each kind the fields that it uses, beside the controller's, and what they have to be.
RANGES = {
    SOURCE: ("energy timer", lambda it: it.energy <= 3000 and it.timer <= 300),
    CREEP: ("owner body hits energy timer extra", is_creep),
    SPAWN: ("owner hits energy timer body", is_spawn),
    EXTENSION: ("owner hits energy", lambda it: 1 <= it.hits <= 1000 and it.energy <= 200),
    STORAGE: ("owner hits energy", lambda it: 1 <= it.hits <= 10_000 and it.energy <= 1_000_000),
    CONTAINER: ("hits energy timer", lambda it: 1 <= it.hits <= 250_000 and it.energy <= 2000 and 1 <= it.timer <= 500),
    ROAD: ("hits timer", lambda it: 1 <= it.hits <= 5000 and 1 <= it.timer <= 1000),
    PILE: ("energy", lambda it: 1 <= it.energy <= 1_000_000_000),
    SITE: ("owner extra progress", lambda it: it.extra in TOTALS and it.progress < TOTALS[it.extra]),
}
UNUSED = {kind: [name for name in Thing._fields[4:] if name not in used.split()] for kind, (used, _) in RANGES.items()}


def is_in_range(it):
    if it.kind == CONTROLLER:
        return is_controller(it)
    is_owned = it.kind not in OWNED or it.owner >= 1
    return is_owned and not any(getattr(it, name) for name in UNUSED[it.kind]) and RANGES[it.kind][1](it)


def clash(one, other):
    both = {one, other}
    return both in ({CREEP}, {PILE}) or both <= FIXED or CREEP in both and bool(both & OBSTRUCTING)


def check_room(ground, room):
    standing = {}
    for it in room.things:
        is_border = it.x in (0, 49) or it.y in (0, 49)
        need(ground[50 * it.y + it.x] != 1 or it.kind in (SOURCE, CONTROLLER), f"Tile {it.id}")
        need(not is_border or it.kind in (CREEP, PILE), f"Tile {it.id}")
        need(not any(clash(it.kind, other) for other in standing.get((it.x, it.y), ())), f"Shared {it.id}")
        standing.setdefault((it.x, it.y), []).append(it.kind)
        need(is_in_range(it), f"Range {it.id}")
    need(sum(it.kind == CONTROLLER for it in room.things) <= 1, f"Controllers {room.index}")


def check_things(world, changed):
    """The rules of objects, where these rooms alone are others than in a world that keeps them."""
    ids, sites = set(), {}
    for room in changed:
        check_room(world.grounds[room.index], room)
    for it in world.things():
        index, serial = divmod(it.id, SECOND)
        need(index < len(world.rooms) and 1 <= serial < world.rooms[index].next, f"Serial {it.id}")
        need(it.id not in ids, f"IdTwice {it.id}")
        ids.add(it.id)
        need(it.owner == 0 or it.owner in world.accounts and (it.kind in OWNED or it.kind == CONTROLLER), f"Owner {it.id}")
        need(it.other == 0 or it.other in world.accounts and it.kind == CONTROLLER, f"Owner {it.id}")
        if it.kind == SITE:
            sites[it.owner] = sites.get(it.owner, 0) + 1
    need(max(sites.values(), default=0) <= MOST_SITES, "Sites")


def check_base(world):
    need(len(set(world.names)) == len(world.names), "RoomTwice")
    need(all(ground[corner] == 1 for ground in world.grounds for corner in (0, 49, 2450, 2499)), "Corner")
    check_things(world, world.rooms)


def check_follows(world, record, is_module):
    need(record.tick == world.tick + 1, "the tick is not the next one")
    need(all(room.index < len(world.rooms) for room in record.rooms), "a room of another world")
    need(all(it.player in world.accounts for it in (*record.runs, *record.accounts)), "a player of another world")
    for it in record.uploads:
        need(it.result != ACCEPTED or it.player in world.accounts and is_module(it.module), "an upload that was accepted")
    check_things(world.after(record), record.rooms)


# ---- a journal


def is_empty(journal):
    return len(journal) <= 1 or journal[0] == 0


def frame_at(journal, gate):
    """The content of the frame behind an open gate, and the place of the next gate."""
    need(gate + 9 <= len(journal), "the frame is cut")
    (length,) = struct.unpack_from("<Q", journal, gate + 1)
    need(gate + 9 + length < len(journal), "the frame is cut")
    return journal[gate + 9 : gate + 9 + length], gate + 9 + length


def read(journal, is_module=lambda _: True):
    """The journal that these bytes are: its base content, its worlds, that of the base first, the record of each tick, each player's last accepted
    module, and the place of its closed gate. Empty ones are None."""
    if is_empty(journal):
        return None
    base, worlds, records, modules, gate = None, [], [], {}, 0
    while True:
        try:
            need(gate < len(journal), "there is no gate")
            if journal[gate] == 0:
                return Journal(base, worlds, records, modules, gate)
            content, following = frame_at(journal, gate)
            if base is None:
                world = read_base(content)
                check_base(world)
                base = content
            else:
                record = read_tick(content)
                check_follows(worlds[-1], record, is_module)
                world = worlds[-1].after(record)
                records.append(record)
                modules |= {it.player: it.module for it in record.uploads if it.result == ACCEPTED}
            worlds.append(world)
        except Wrong as it:
            raise NotAJournal(gate, it) from None
        gate = following


def start_line(world):
    return f"start tick {world.tick} rooms {len(world.rooms)} objects {len(world.things())} players {len(world.accounts)}\n"


def tick_lines(record, world):
    """The lines that a run prints of a tick."""
    results = [RESULTS[it.result] if it.result == ACCEPTED else f"refused {RESULTS[it.result]}" for it in record.uploads]
    lines = [f"upload player {it.player} {result}\n" for it, result in zip(record.uploads, results)]
    lines += [f"player {it.player} {OUTCOMES[it.outcome]} {it.used}\n" for it in record.runs]
    intents = sum(len(it.intents) for it in record.runs)
    return "".join(lines) + f"tick {world.tick} objects {len(world.things())} intents {intents} energy {world.energy()}\n"


def lines_of(journal):
    return start_line(journal.worlds[0]) + "".join(map(tick_lines, journal.records, journal.worlds[1:]))


def framed(*contents, gates=None):
    """The bytes of a journal of these contents, one frame each."""
    gates = gates or [1] * len(contents) + [0]
    frames = [len(content).to_bytes(8, "little") + content for content in contents] + [b""]
    return b"".join(bytes([gate]) + it for gate, it in zip(gates, frames))


def main():
    if len(sys.argv) != 2:
        sys.exit("journal_reader.py: JOURNAL")
    try:
        with open(sys.argv[1], "rb") as it:
            found = read(it.read())
    except OSError as error:
        sys.exit(f"journal_reader.py: {error.strerror}: {sys.argv[1]}")
    except NotAJournal as it:
        sys.exit(f"journal_reader.py: {it}")
    print(lines_of(found) if found else "nothing was recorded", end="" if found else "\n")


if __name__ == "__main__":
    main()
