"""Worlds that are made of a number, their players' module and its uploads: a second writing of the generator, from docs/hosting.md and the definitions of
`world_gen` (docs/definitions.md). It shares nothing with the program, and nothing with the other files of oracle/: it spells the bytes of the module
by itself.
"""

import struct

STATES = 1 << 64

# ---- the module


def unsigned(number):
    front, number = number & 127, number >> 7
    return bytes([front | 128]) + unsigned(number) if number else bytes([front])


def signed(number):
    front, number = number & 127, number >> 7
    if number == (-1 if front & 64 else 0):
        return bytes([front])
    return bytes([front | 128]) + signed(number)


def read(local):
    return b"\x20" + unsigned(local)


def write(local):
    return b"\x21" + unsigned(local)


def short(number):
    return b"\x41" + signed(number)


def wide(number):
    return b"\x42" + signed(number)


def call(name):
    return b"\x10" + unsigned([name for name, _ in HOST].index(name))


def when(code, other=None):
    return b"\x04\x40" + code + (b"" if other is None else b"\x05" + other) + b"\x0b"


def again(code):
    return b"\x03\x40" + code + b"\x0b"


I32, I64 = b"\x7f", b"\x7e"
TYPES = [((), I32), ((I32, I32), I64), ((I64, I64), I32), ((I64, I64, I32), I32), ((I64, I32), I32), ((), None)]
HOST = [("count", 0), ("me", 0), ("get", 1), ("harvest", 2), ("transfer", 3), ("drop", 4), ("move", 4)]
CREEP, TARGET, CODE = 0, 1, 2
ID, KIND, ROOM, X, Y, OWNER, ENERGY, CAPACITY = 0, 1, 2, 3, 4, 5, 8, 9
NOT, EQUAL, LESS, AND, ADD, SUB, MUL = b"\x45", b"\x46", b"\x49", b"\x71", b"\x6a", b"\x6b", b"\x6c"
SAME, BELOW, ABOVE, SHIFT, WRAP, EXTEND = b"\x51", b"\x53", b"\x55", b"\x88", b"\xa7", b"\xad"
FORGET, TO_LOOP = b"\x1a", b"\x0c\x01"
# left and top, top, right and top, left, none, right, left and bottom, bottom, right and bottom
DIRECTIONS = sum(direction << 4 * at for at, direction in enumerate([8, 1, 2, 7, 0, 3, 6, 5, 4]))


def field(local, number):
    return read(local) + short(number) + call("get")


def both(number):
    return field(TARGET, number) + field(CREEP, number)


def of_kind(local, kind):
    return field(local, KIND) + wide(kind) + SAME


def own(local):
    return field(local, OWNER) + call("me") + EXTEND + SAME


def seen(local):
    return read(local) + call("count") + LESS


def next_of(local):
    return read(local) + short(1) + ADD + write(local) + TO_LOOP


def seek(sought):
    return short(0) + write(TARGET) + again(seen(TARGET) + sought + NOT + AND + when(next_of(TARGET)))


def sign(number):
    return both(number) + ABOVE + both(number) + BELOW + SUB


def on_code(code, then):
    return read(CODE) + short(code) + EQUAL + when(then)


def body():
    near = both(ROOM) + SAME
    ids = field(CREEP, ID) + field(TARGET, ID)
    harvests = seek(of_kind(TARGET, 1) + near + AND) + ids + call("harvest") + write(CODE)
    drops = field(CREEP, ID) + short(0) + call("drop") + FORGET
    spawn = of_kind(TARGET, 4) + own(TARGET) + AND + near + AND
    delivers = seek(spawn) + ids + short(0) + call("transfer") + write(CODE) + on_code(-8, drops)
    number = sign(X) + sign(Y) + short(3) + MUL + ADD + short(4) + ADD
    direction = wide(DIRECTIONS) + number + short(4) + MUL + EXTEND + SHIFT + WRAP + short(15) + AND
    steps = field(CREEP, ID) + direction + call("move") + FORGET
    room = field(CREEP, ENERGY) + field(CREEP, CAPACITY) + BELOW
    turn = room + when(harvests, delivers) + on_code(-9, steps)
    visit = of_kind(CREEP, 3) + own(CREEP) + AND + when(turn) + next_of(CREEP)
    return again(seen(CREEP) + when(visit))


def listed(parts):
    return unsigned(len(parts)) + b"".join(parts)


def named(text):
    return unsigned(len(text)) + text.encode()


def section(number, parts):
    content = listed(parts)
    return bytes([number]) + unsigned(len(content)) + content


def module():
    types = [b"\x60" + listed(params) + listed([gives] if gives else []) for params, gives in TYPES]
    imports = [named("screeps") + named(name) + b"\x00" + unsigned(kind) for name, kind in HOST]
    code = listed([unsigned(3) + I32]) + body() + b"\x0b"
    sections = [(1, types), (2, imports), (3, [unsigned(5)]), (7, [named("loop") + b"\x00" + unsigned(7)]), (10, [unsigned(len(code)) + code])]
    return b"\x00asm\x01\x00\x00\x00" + b"".join(section(*one) for one in sections)


def uploads(rooms):
    whole = module()
    return b"".join(struct.pack("<QII", 0, player, len(whole)) + whole for player in range(1, players_of(rooms) + 1))


# ---- the world


def players_of(rooms):
    return min(8, rooms)


def draws(state):
    while True:
        state = (state * 6364136223846793005 + 1442695040888963407) % STATES
        yield state >> 33


def ground(x, y, drawn):
    if x in (0, 49) or y in (0, 49):
        along = y if x in (0, 49) else x
        return "0" if 20 <= along <= 29 else "1"
    return "2" if next(drawn) % 8 == 0 else "0"


def room_of(index, players, drawn):
    terrain = "".join(ground(x, y, drawn) for y in range(50) for x in range(50))
    u, v, first, player = next(drawn), next(drawn), index << 32, index + 1
    controller = {"id": first + 1, "kind": "controller", "x": 10, "y": 10}
    objects = [controller, {"id": first + 2, "kind": "source", "x": 15 + u % 20, "y": 15 + v % 10, "energy": 1500}]
    if index < players:
        controller.update(owner=player, extra=1, timer=20000)
        parts = ["work", "carry", "move", "move"]
        objects.append({"id": first + 3, "kind": "spawn", "x": 25, "y": 30, "owner": player, "energy": 300})
        objects.append({"id": first + 4, "kind": "creep", "x": 25, "y": 28, "owner": player, "timer": 1500, "body": parts})
    return {"name": f"E{index % 20}S{index // 20}", "next": 5, "terrain": terrain, "objects": objects}


def world(seed, rooms):
    drawn, players = draws(seed), players_of(rooms)
    return {
        "version": 1,
        "tick": 0,
        "rooms": [room_of(index, players, drawn) for index in range(rooms)],
        "players": [{"player": player, "limit": 20, "bucket": 1000} for player in range(1, players + 1)],
    }
