"""Journals as docs/formats.md has them, for the scripts beside this module: frames, bases, ticks and the worlds after them.

A world is made tick by tick in place, so that a walk over a journal takes time in proportion to its bytes, and memory to one frame and one world:

    with open("first.journal", "rb") as file:
        for record, world in worlds_in(file):
            print(world.tick, len(world.rooms[0].objects))

`worlds_of` does the same with bytes.

The first record is None, as no tick makes the world of the base. Who keeps a world beyond one turn of the walk has to copy it.
"""

import io
import struct
from collections import namedtuple

KINDS = ["source", "controller", "creep", "spawn", "extension", "storage", "container", "road", "pile", "site"]
PARTS = ["move", "work", "carry", "attack", "ranged_attack", "tough", "heal", "claim"]
FIELDS = ["owner", "hits", "energy", "timer", "extra", "progress", "other", "other_ticks"]
GROUNDS = ["plain", "wall", "swamp"]
ACTIONS = [
    "drop", "transfer", "withdraw", "pickup", "heal", "ranged_heal", "dismantle", "attack", "harvest", "repair", "build",
    "ranged_mass_attack", "ranged_attack", "suicide", "claim_controller", "upgrade", "reserve", "attack_controller",
    "create_site", "remove_site", "spawn_creep", "move",
]  # fmt: skip
# The steps of the directions 1 to 8, clockwise from the top.
STEPS = [(0, -1), (1, -1), (1, 0), (1, 1), (0, 1), (-1, 1), (-1, 0), (-1, -1)]
RESULTS = [
    "accepted", "UnknownPlayer", "WrongToken", "TooLarge", "Malformed", "FloatRefused", "Invalid", "UnknownImport", "ImportKind", "NoLoop", "Segment",
]  # fmt: skip
OUTCOMES = ["finished", "trapped", "spent"]
SIDE = 50
TILES = SIDE * SIDE
PIECE = 1 << 20

Upload = namedtuple("Upload", "player result module")
# `body` is a list of the names of parts.
Intent = namedtuple("Intent", "action actor target amount body")
Run = namedtuple("Run", "player outcome trap used intents")
Account = namedtuple("Account", "player limit bucket points memory")
# `rooms` are (index, next, objects), where an object is a dictionary by the names of its fields.
Record = namedtuple("Record", "tick uploads runs accounts rooms")


class NotAJournal(Exception):
    """The bytes are no journal; the message says what is wrong, and where."""


class Room:
    """A room: its column and row, its ground (a byte a tile, row by row), the serial of its next object, and its objects in rising id."""

    def __init__(self, column, row, ground, next, objects):
        self.column, self.row, self.ground, self.next, self.objects = column, row, ground, next, objects

    @property
    def name(self):
        """As world files spell it: W0 is the column -1 and N0 the row -1."""
        across = f"E{self.column}" if self.column >= 0 else f"W{-1 - self.column}"
        return across + (f"S{self.row}" if self.row >= 0 else f"N{-1 - self.row}")


class World:
    """A world: its tick, its rooms by index, and its accounts by player."""

    def __init__(self, tick, rooms, accounts):
        self.tick, self.rooms, self.accounts = tick, rooms, accounts

    def follow(self, record):
        """Becomes the world after a tick."""
        self.tick = record.tick
        for index, next, objects in record.rooms:
            self.rooms[index].next, self.rooms[index].objects = next, objects
        self.accounts.update((account.player, account) for account in record.accounts)


class Reader:
    """Numbers, bytes and forms, one after the other. What isn't there, or is no form, is NotAJournal."""

    def __init__(self, content, place=0):
        self.content, self.at, self.place = content, 0, place

    def fail(self, what):
        raise NotAJournal(f"{what} at byte {self.place + self.at}")

    def take(self, form):
        """Numbers, little endian, by their letters of `struct`; one alone where there is one letter."""
        if self.at + struct.calcsize("<" + form) > len(self.content):
            self.fail("numbers are cut off")
        found = struct.unpack_from("<" + form, self.content, self.at)
        self.at += struct.calcsize("<" + form)
        return found if len(found) > 1 else found[0]

    def bytes(self, length):
        if length > len(self.content) - self.at:
            self.fail(f"{length} bytes are cut off")
        self.at += length
        return self.content[self.at - length : self.at]

    def named(self, names, number, first=1):
        """The name of a number, where they count from `first`."""
        if not first <= number < first + len(names):
            self.fail(f"the number {number} names nothing")
        return names[number - first]

    def list(self, entry):
        """As many entries as the number in front of them says."""
        return [entry() for _ in range(self.take("I"))]

    def body(self):
        return [self.named(PARTS, part) for part in self.bytes(self.take("B"))]

    def object(self):
        id, kind, x, y, *fields = self.take("QBBBIIQIIQII")
        if x >= SIDE or y >= SIDE:
            self.fail(f"the tile {x}, {y} is in no room")
        return {"id": id, "kind": self.named(KINDS, kind), "x": x, "y": y, **dict(zip(FIELDS, fields)), "body": self.body()}

    def room(self):
        index, next = self.take("II")
        return index, next, self.list(self.object)

    def account(self):
        player, limit, bucket, points, length = self.take("IIIQI")
        return Account(player, limit, bucket, points, self.bytes(length))

    def upload(self):
        player, result = self.take("IB")
        return Upload(player, self.named(RESULTS, result, 0), self.bytes(self.take("I")))

    def intent(self):
        action, actor, target, amount = self.take("BQQQ")
        return Intent(self.named(ACTIONS, action), actor, target, amount, self.body())

    def run(self):
        player, outcome, trap, used = self.take("IBBQ")
        return Run(player, self.named(OUTCOMES, outcome, 0), trap, used, self.list(self.intent))

    def base(self):
        """The world that a journal begins with."""
        if self.bytes(4) != b"SWSJ" or self.take("I") != 1:
            self.fail("the first frame is no base of a world")
        tick, count = self.take("Q"), self.take("I")
        rooms = {}
        for _ in range(count):
            column, row = self.take("ii")
            ground = self.bytes(TILES)
            if max(ground) >= len(GROUNDS):
                self.fail("a tile has no ground")
            index, next, objects = self.room()
            rooms[index] = Room(column, row, ground, next, objects)
        world = World(tick, rooms, {account.player: account for account in self.list(self.account)})
        self.end()
        return world

    def tick(self):
        """What a tick records."""
        if self.bytes(1) != b"T":
            self.fail("a frame is no tick")
        record = Record(self.take("Q"), self.list(self.upload), self.list(self.run), self.list(self.account), self.list(self.room))
        self.end()
        return record

    def end(self):
        if self.at != len(self.content):
            self.fail("bytes are left over")


def taken(file, length):
    """So many bytes of a file, or as many as it has, piece by piece: a length that no file has takes no memory."""
    pieces = []
    while length > 0 and (piece := file.read(min(length, PIECE))):
        pieces.append(piece)
        length -= len(piece)
    return b"".join(pieces)


def frames_in(file):
    """A reader of each frame's content of a file that is open to read bytes, up to the closed gate; one frame at a time is in memory. A run may add
    to the file meanwhile. An empty journal has none."""
    gate, at = file.read(1), 0
    while gate not in (b"", b"\0"):
        head = taken(file, 8)
        if at == 0 and not head:
            return
        (length,) = struct.unpack("<Q", head) if len(head) == 8 else (None,)
        content = taken(file, length or 0)
        following = file.read(1)
        if len(content) != length or not following:
            raise NotAJournal(f"a frame is cut off at byte {at}")
        yield Reader(content, at + 9)
        gate, at = following, at + 9 + len(content)


def worlds_in(file):
    """The record and the world of each tick of a file, first None and the base; the world is one that goes on from turn to turn."""
    world = None
    for reader in frames_in(file):
        if world is None:
            world = reader.base()
            yield None, world
            continue
        record = reader.tick()
        if record.tick != world.tick + 1 or any(index not in world.rooms for index, _, _ in record.rooms):
            reader.fail(f"a tick that doesn't follow tick {world.tick} ends")
        world.follow(record)
        yield record, world


def frames_of(journal):
    """The frames of a journal's bytes."""
    return frames_in(io.BytesIO(journal))


def worlds_of(journal):
    """The records and worlds of a journal's bytes."""
    return worlds_in(io.BytesIO(journal))
