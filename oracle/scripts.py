"""Players for the checks: modules that are lists of instructions, and what each of them does with what its player sees.

The answers of the host's calls stand here by a writing of the table in docs/players.md that shares nothing with the program.
"""

import struct

from game import (
    FULL,
    GLOBAL_LEVEL_NOT_ENOUGH,
    INVALID,
    KINDS,
    MOST_PARTS,
    NOT_FOUND,
    PARTS,
    capacity,
    first_failing,
    global_level,
    hits_max,
    of_removal,
    of_site,
    of_spawn,
    part_hits,
    place_of,
    refusal,
    sees,
)
from module_bytes import HOST_CALLS, I32, leb, player_module, signed_leb
from worlds import UNIT, Run, account_of, allowance, objects_of, part_bytes

PAGE = 1 << 16
MOST_TEXT = 65_536
MOST_ENTRIES = 4096


def signed(value, bits):
    value %= 1 << bits
    return value - (1 << bits) if value >> (bits - 1) else value


# ---- what a player sees


def body_in(memory, at, length):
    """The parts in a span of a memory, where each byte is the number of one. None where one isn't, or the span passes the end, or has too many."""
    found = memory[at : at + length]
    if length > MOST_PARTS or at + length > len(memory) or not all(1 <= number <= len(PARTS) for number in found):
        return None
    return [PARTS[number - 1] for number in found]


class Desk:
    """What answers the calls of a player: what he sees, what he wants so far, and his memory text."""

    def __init__(self, world, player):
        self.world, self.account = world, account_of(world, player)
        self.player = player
        self.rooms = [index for index, room in enumerate(world["rooms"]) if sees(player, room["objects"])]
        self.objects = sorted(((index, one) for index in self.rooms for one in world["rooms"][index]["objects"]), key=lambda seen: seen[1]["id"])
        self.places = {one["id"]: place for place, (_, one) in enumerate(self.objects)}
        self.text = bytes.fromhex(self.account["memory"])
        self.sites = sum(one["kind"] == "site" and one["owner"] == player for one in objects_of(world))
        self.entries = {}

    def answer(self, name, arguments, memory):
        return getattr(self, "answer_" + name)(memory, *arguments)

    def answer_tick(self, _):
        return self.world["tick"]

    def answer_me(self, _):
        return signed(self.player, 32)

    def answer_allowance(self, _):
        return allowance(self.account)

    def answer_bucket(self, _):
        return self.account["bucket"]

    def answer_points(self, _):
        return self.account["points"]

    def answer_level(self, _):
        return global_level(self.account["points"])

    def answer_rooms(self, _):
        return len(self.rooms)

    def answer_room(self, _, at):
        return self.rooms[at] if 0 <= at < len(self.rooms) else INVALID

    def answer_room_name(self, _, index):
        if index not in self.rooms:
            return INVALID
        column, row = place_of(self.world["rooms"][index]["name"])
        return (column + 128) * 256 + row + 128

    def answer_terrain(self, _, index, x, y):
        if index not in self.rooms or not 0 <= x < 50 or not 0 <= y < 50:
            return INVALID
        return int(self.world["rooms"][index]["terrain"][50 * y + x])

    def answer_count(self, _):
        return len(self.objects)

    def answer_find(self, _, id):
        return self.places.get(id, NOT_FOUND)

    def answer_get(self, _, at, field):
        if not 0 <= at < len(self.objects):
            return INVALID
        index, one = self.objects[at]
        body = one["body"]
        if 100 <= field < 100 + len(body):
            return (1 + PARTS.index(body[field - 100])) * 1000 + part_hits(one, field - 100)
        fields = [one["id"], 1 + KINDS.index(one["kind"]), index, one["x"], one["y"], one["owner"], one["hits"]]
        fields += [hits_max(one), one["energy"]]
        fields += [capacity(one, self.world["rooms"][index]["objects"]), one["timer"], one["extra"], one["progress"], one["other"]]
        fields += [one["other_ticks"], len(body)]
        return fields[field] if 0 <= field < len(fields) else INVALID

    def answer_memory_length(self, _):
        return len(self.text)

    def answer_memory_read(self, memory, at):
        at %= 1 << 32
        if at + len(self.text) > len(memory):
            return INVALID
        memory[at : at + len(self.text)] = self.text
        return 0

    def answer_memory_write(self, memory, at, length):
        at, length = at % (1 << 32), length % (1 << 32)
        if length > MOST_TEXT or at + length > len(memory):
            return INVALID
        self.text = bytes(memory[at : at + length])
        return 0

    def seen(self, id):
        return self.objects[self.places[id]] if id in self.places else None

    def room_of(self, id):
        """What stands in the room of an object that is seen."""
        seen = self.seen(id)
        return self.world["rooms"][seen[0]]["objects"] if seen else []

    def recorded(self, code, name, actor, *wanted):
        """What is wanted is recorded where no check of the call failed and the record takes it."""
        if code:
            return code
        if (name, actor) not in self.entries and len(self.entries) == MOST_ENTRIES:
            return FULL
        self.entries[name, actor] = wanted
        return 0

    def others(self, name, actor):
        """What is recorded for other actors of an action, by them."""
        return {it: wanted for (other, it), wanted in self.entries.items() if other == name and it != actor}

    def acted(self, name, id, target=0, amount=0, further=()):
        """A call of a creep, which may have further checks that its rule hasn't."""
        code = refusal(name, self.player, self.seen(id), self.seen(target), amount, max(1, amount), self.room_of(id))
        return self.recorded(code or first_failing(further), name, id, target, amount)

    def answer_drop(self, _, id, amount):
        return self.acted("drop", id, amount=amount)

    def answer_transfer(self, _, id, target, amount):
        return self.acted("transfer", id, target, amount)

    def answer_withdraw(self, _, id, target, amount):
        return self.acted("withdraw", id, target, amount)

    def answer_pickup(self, _, id, target):
        return self.acted("pickup", id, target)

    def answer_heal(self, _, id, target):
        return self.acted("heal", id, target)

    def answer_ranged_heal(self, _, id, target):
        return self.acted("ranged_heal", id, target)

    def answer_dismantle(self, _, id, target):
        return self.acted("dismantle", id, target)

    def answer_attack(self, _, id, target):
        return self.acted("attack", id, target)

    def answer_harvest(self, _, id, target):
        return self.acted("harvest", id, target)

    def answer_repair(self, _, id, target):
        return self.acted("repair", id, target)

    def answer_build(self, _, id, target):
        return self.acted("build", id, target)

    def answer_ranged_mass_attack(self, _, id):
        return self.acted("ranged_mass_attack", id)

    def answer_ranged_attack(self, _, id, target):
        return self.acted("ranged_attack", id, target)

    def answer_suicide(self, _, id):
        return self.acted("suicide", id)

    def answer_claim_controller(self, _, id, target):
        """His controllers, and those that other creeps of his are to claim, have to be fewer than his global level."""
        owned = sum(one["kind"] == "controller" and one["owner"] == self.player for _, one in self.objects)
        held = owned + len(self.others("claim_controller", id))
        is_able = held < global_level(self.account["points"])
        return self.acted("claim_controller", id, target, further=((is_able, GLOBAL_LEVEL_NOT_ENOUGH),))

    def answer_upgrade(self, _, id, target):
        return self.acted("upgrade", id, target)

    def answer_reserve(self, _, id, target):
        return self.acted("reserve", id, target)

    def answer_attack_controller(self, _, id, target):
        return self.acted("attack_controller", id, target)

    def answer_create_site(self, _, index, x, y, kind):
        if index not in self.rooms:
            return NOT_FOUND
        tile = 2500 * index + 50 * y + x
        others = self.others("create_site", tile)
        recorded = sum(other // 2500 == index and number == kind for other, (_, number) in others.items())
        code = first_failing(of_site(self.player, kind, x, y, self.world["rooms"][index], recorded, self.sites + len(others)))
        return self.recorded(code, "create_site", tile, 0, kind)

    def answer_remove_site(self, _, id):
        seen = self.seen(id)
        return self.recorded(first_failing(of_removal(self.player, seen and seen[1])), "remove_site", id, 0, 0)

    def answer_spawn_creep(self, memory, id, at, length):
        seen, body = self.seen(id), body_in(memory, at % (1 << 32), length % (1 << 32))
        code = first_failing(of_spawn(self.player, seen and seen[1], body, self.room_of(id)))
        return self.recorded(code, "spawn_creep", id, 0, 0, body)

    def answer_move(self, _, id, direction):
        return self.acted("move", id, amount=direction)


# ---- instructions: a word and its numbers

PLAIN = {
    "nop": b"\x01",
    "unreachable": b"\x00",
    "drop": b"\x1a",
    "extend": b"\xac",
    "store": b"\x37\x03\x00",
    "size": b"\x3f\0",
    "grow": b"\x40\0",
    "return": b"\x0f",
    # (what does not come back, with the instructions that it takes)
    "spin": b"\x03\x40\x0c\0\x0b",
}


def call(name, *arguments):
    """The instructions of a call, which leave its answer."""
    return [("i32" if kind == I32[0] else "i64", value) for kind, value in zip(HOST_CALLS[name][0], arguments)] + [("call", name)]


def kept(address, name, *arguments):
    """A call whose answer is stored in the memory, in eight bytes."""
    wide = [] if HOST_CALLS[name][1] != I32 else [("extend",)]
    return [("i32", address), *call(name, *arguments), *wide, ("store",)]


def unkept(name, *arguments):
    return [*call(name, *arguments), ("drop",)]


def compared(answer, name, *arguments):
    """A call that has to give this answer: any other is a trap."""
    return [*call(name, *arguments), ("i32" if HOST_CALLS[name][1] == I32 else "i64", answer), ("differs", name), ("trap_if",)]


class Spent(Exception):
    pass


class Trapped(Exception):
    pass


class Script:
    """A module whose `loop` is a list of instructions, run one after the other, with `start` before it where there is one.

    Where it has a trap, that is the number of the one in which the last instruction ends, which is code and how
    many instructions that takes."""

    refusal = None

    def __init__(self, loop, pages=1, data=(0, b""), start=None, helpers=(), table=b"", elements=b"", trap=None):
        self.loop, self.start, self.pages, self.data, self.trap = list(loop), start, pages, data, trap
        self.calls = sorted({it[1] for it in [*self.loop, *(start or ())] if it[0] == "call"}, key=list(HOST_CALLS).index)
        segment = b"\0\x41" + signed_leb(data[0]) + b"\x0b" + leb(len(data[1])) + data[1] if data[1] else b""
        after = trap[1] if trap else b""
        self.content = player_module(
            self.spelled(self.loop) + after, self.calls, None if start is None else self.spelled(start), helpers, pages, table, elements, segment
        )

    def spelled(self, code):
        out = []
        for word, *values in code:
            if word == "i32":
                out.append(b"\x41" + signed_leb(signed(values[0], 32)))
            elif word == "i64":
                out.append(b"\x42" + signed_leb(signed(values[0], 64)))
            elif word == "call":
                out.append(b"\x10" + leb(self.calls.index(values[0])))
            elif word == "differs":
                out.append(b"\x47" if HOST_CALLS[values[0]][1] == I32 else b"\x52")
            elif word == "trap_if":
                out.append(b"\x04\x40\0\x0b")
            else:
                out.append(PLAIN[word])
        return b"".join(out)

    def run(self, world, player):
        desk = Desk(world, player)
        machine = Machine(desk, UNIT * allowance(desk.account), bytearray((self.pages or 0) * PAGE))
        at, content = self.data
        machine.memory[at : at + len(content)] = content
        try:
            machine.all(self.start or ())
            machine.all(self.loop)
            if self.trap:
                machine.take(self.trap[2])
                raise Trapped(self.trap[0])
            outcome, trap = "finished", 0
        except Spent:
            outcome, trap = "spent", 0
        except Trapped as it:
            outcome, trap = "trapped", it.args[0]
        return Run(player, outcome, machine.used, desk.text, desk.entries, trap)


class Machine:
    """Runs instructions until its fuel is spent."""

    def __init__(self, desk, fuel, memory):
        self.desk, self.fuel, self.memory, self.stack, self.used = desk, fuel, memory, [], 0

    def take(self, count):
        if self.used + count > self.fuel:
            self.used = self.fuel
            raise Spent()
        self.used += count

    def all(self, code):
        for word, *values in code:
            if word == "spin":
                self.take(self.fuel + 1)
            self.take(1)
            if word == "return":
                return
            getattr(self, "do_" + word)(*values)

    def do_nop(self):
        pass

    def do_unreachable(self):
        raise Trapped(1)

    def do_i32(self, value):
        self.stack.append(signed(value, 32))

    def do_i64(self, value):
        self.stack.append(signed(value, 64))

    def do_call(self, name):
        count = len(HOST_CALLS[name][0])
        arguments = self.stack[len(self.stack) - count :]
        del self.stack[len(self.stack) - count :]
        self.stack.append(self.desk.answer(name, arguments, self.memory))

    def do_drop(self):
        self.stack.pop()

    def do_extend(self):
        pass

    def do_store(self):
        value, address = self.stack.pop(), self.stack.pop()
        self.memory[address : address + 8] = struct.pack("<q", value)

    def do_size(self):
        self.stack.append(len(self.memory) // PAGE)

    def do_grow(self):
        by, size = self.stack.pop(), len(self.memory) // PAGE
        grows = 0 <= by and size + by <= 256
        self.memory += bytes(by * PAGE if grows else 0)
        self.stack.append(size if grows else -1)

    def do_differs(self, _):
        self.stack.append(int(self.stack.pop() != self.stack.pop()))

    def do_trap_if(self):
        if self.stack.pop():
            self.take(1)
            raise Trapped(1)


class Body:
    """Bytes that a call finds in the memory: the parts of a creep, or numbers of which some are none."""

    def __init__(self, *parts):
        self.content = b"".join(part_bytes([it]) if it in PARTS else bytes([it]) for it in parts)

    def __repr__(self):
        return f"Body({self.content.hex()})"


def laid_out(calls, at):
    """Calls with the addresses and the lengths of their bodies, which stand in the memory from here on, and the bytes of these."""
    places, content, found = {}, b"", []
    for name, *arguments in calls:
        for place, it in enumerate(arguments):
            if not isinstance(it, Body):
                continue
            if it.content not in places:
                places[it.content] = at + len(content)
                content += it.content
            arguments[place : place + 1] = [places[it.content], len(it.content)]
        found.append((name, *arguments))
    return found, content


class Table(Script):
    """A module that makes a list of calls, keeps the answer of each, and leaves them all as its memory text. Behind the answers stand the bodies that
    calls are given."""

    def __init__(self, calls, **others):
        calls = list(calls)
        end = 8 * len(calls)
        self.listed, bodies = laid_out(calls, end)
        if bodies:
            others = {"data": (end, bodies), "pages": -(-(end + len(bodies)) // PAGE), **others}
        code = [instruction for place, it in enumerate(self.listed) for instruction in kept(8 * place, *it)]
        super().__init__([*code, *unkept("memory_write", 0, end)], **others)
