#!/usr/bin/env python3
"""Measures ticks with players in the built program: python3 bench/players.py PROGRAM [--quick].

Run it in the repository's top folder once the program is built (README.md), where `wat2wasm` of wabt is installed. A tick's time is the
difference of runs of several ticks and of one, over the ticks between them, so that the reading of files is left out; the best of some
rounds counts. The journals lie in memory where there is /dev/shm, so that no disk is measured.

The first table has the loops of bench/machine.py as players of 5,000,000 instructions a tick, beside the same in machine_bench, which is
looked for beside PROGRAM and in crates/machine_bench/out. The second has ticks by how many players there are and what they see, with an
empty `loop` for each, beside the same without modules; in its last row each asks for a site in every room. The third has the modules that a player would write to hurt, and the time for an
instruction that they pay for, beside that of a plain loop; what the tick takes besides is left out, for which it is measured with an empty
`loop`, or where a record is full with a module that fills it and no more. The fourth has the calls that ask how much there is, the same way. The fifth has those that hardly pay for any, and the time for
each player; where the module's instance begins with much, beside the time in which as many bytes are cleared by memset and copied by memcpy, from the
places of 64 modules in turn. The sixth has streams of uploads, by their entries and bytes, and the most memory that the program took (its least is what
Python takes, which starts it).

The times depend on the machine and on what else it does: compare figures of one run alone. With --quick each row is run once, in fewer
ticks, which shows that it runs and little else.
"""

import ctypes
import json
import os
import struct
import subprocess
import sys
import tempfile
import time

TOP = os.path.dirname(os.path.dirname(os.path.abspath(__file__)))
sys.path[:0] = [os.path.join(TOP, it) for it in ("oracle", "checks/inputs")]
import machine  # noqa: E402
from game import SECOND, thing  # noqa: E402
from large_modules import empty_data, empty_elements, filled, many_exports, many_functions, many_globals, many_imports, many_types  # noqa: E402
from module_bytes import leb, player_module  # noqa: E402
from plain_worlds import EMPTY, UNITS, apart, creep, for_each, of_rooms, players_of, road, together  # noqa: E402
from scripts import Script, unkept  # noqa: E402
from worlds import MIB, bytes_of, upload_entry  # noqa: E402

FUEL = 10_000 * UNITS


# ---- worlds


def wide():
    """A player who sees 300 rooms of 19,294 objects, and has 2,048 creeps with loads in each of the first two."""
    rooms = [[creep(index, serial, 1, 50) for serial in range(1, 2049)] for index in range(2)]
    rooms += [[creep(index, 1, 1), *[road(index, serial) for serial in range(2, 52)]] for index in range(2, 300)]
    return of_rooms(rooms, players_of(1))


def built():
    """The same with a room of the player's at level 8, with a spawn, 50 full extensions and a storage, and a creep beside a free controller in the next."""
    it = json.loads(wide())
    home, free = it["rooms"][2], it["rooms"][3]
    extensions = [thing("extension", 2 * SECOND + 102 + place, place % 25 + 1, 40 + place // 25, owner=1, energy=200, hits=1000) for place in range(50)]
    home["objects"] += [thing("controller", 2 * SECOND + 100, 45, 45, owner=1, extra=8, timer=150_000), thing("spawn", 2 * SECOND + 101, 44, 45, owner=1, energy=300, hits=5000), *extensions, thing("storage", 2 * SECOND + 152, 46, 45, owner=1, hits=10_000)]
    claimer = {**creep(3, 101, 1), "x": 44, "y": 44, "body": ["claim", "move"], "energy": 0, "hits": 200, "timer": 600}
    free["objects"] += [thing("controller", 3 * SECOND + 100, 45, 45), claimer]
    it["players"] = players_of(1, points=100_000_000)
    return bytes_of(it)


def crowded(count, creeps):
    """So many players with so many creeps with loads each, 2,000 to a room."""
    rooms = []
    for number in range(count * creeps):
        if number % 2000 == 0:
            rooms.append([])
        rooms[-1].append(creep(len(rooms) - 1, number % 2000 + 1, number // creeps + 1))
    return of_rooms(rooms, players_of(count))


# ---- modules

IMPORTS = {
    "tick": "(result i64)",
    "me": "(result i32)",
    "allowance": "(result i32)",
    "bucket": "(result i32)",
    "rooms": "(result i32)",
    "room": "(param i32) (result i32)",
    "room_name": "(param i32) (result i32)",
    "terrain": "(param i32 i32 i32) (result i32)",
    "level": "(result i32)",
    "points": "(result i64)",
    "count": "(result i32)",
    "find": "(param i64) (result i32)",
    "get": "(param i32 i32) (result i64)",
    "memory_length": "(result i32)",
    "memory_read": "(param i32) (result i32)",
    "memory_write": "(param i32 i32) (result i32)",
    "drop": "(param i64 i32) (result i32)",
    "transfer": "(param i64 i64 i32) (result i32)",
    "withdraw": "(param i64 i64 i32) (result i32)",
    "pickup": "(param i64 i64) (result i32)",
    "harvest": "(param i64 i64) (result i32)",
    "repair": "(param i64 i64) (result i32)",
    "build": "(param i64 i64) (result i32)",
    "claim_controller": "(param i64 i64) (result i32)",
    "create_site": "(param i32 i32 i32 i32) (result i32)",
    "remove_site": "(param i64) (result i32)",
    "spawn_creep": "(param i64 i32 i32) (result i32)",
    "move": "(param i64 i32) (result i32)",
}
STEP = "(local.set $i (i32.add (local.get $i) (i32.const 1)))"
SCRAMBLED = "(i32.shr_u (i32.mul (local.get $i) (i32.const 0x9E3779B1)) (i32.const 8))"


def text_of(calls, body, more="", before=""):
    """A module that does something without end, with a counter."""
    imports = " ".join(f'(import "screeps" "{name}" (func ${name} {IMPORTS[name]}))' for name in calls)
    return f'(module {imports} {more} (func (export "loop") (local $i i32) {before} (loop $l {body} {STEP} (br $l))))'


def calling(name, *arguments, more="", before=""):
    return text_of([name], f"(drop (call ${name} {' '.join(arguments)}))", more, before)


def id_of(number):
    """The id of a creep of the wide world, by its number below 4,096."""
    index = f"(i64.shl (i64.extend_i32_u (i32.shr_u {number} (i32.const 11))) (i64.const 32))"
    return f"(i64.add {index} (i64.extend_i32_u (i32.add (i32.and {number} (i32.const 2047)) (i32.const 1))))"


ENTRY = "(i32.and (local.get $i) (i32.const 4095))"
FILL = f"(loop $f (drop (call $drop {id_of('(local.get $i)')} (i32.const 1))) {STEP} (br_if $f (i32.lt_u (local.get $i) (i32.const 4096))))"
FILLING = f'(module (import "screeps" "drop" (func $drop {IMPORTS["drop"]})) (func (export "loop") (local $i i32) {FILL}))'
SCRAMBLED_ENTRY = f"(i32.and {SCRAMBLED} (i32.const 4095))"
MEMORY = "(memory 2)"
WHOLE_TEXT = "(drop (call $memory_write (i32.const 0) (i32.const 65536)))"

# Modules of a player who sees the wide world, with the CPU units that he has, and with the module whose tick is left out, where that is
# another than an empty `loop`.
COSTLY = {
    "an endless loop": ('(module (func (export "loop") (loop $l (br $l))))', 500),
    "a start that never ends": ('(module (func $s (loop $l (br $l))) (start $s) (func (export "loop")))', 500),
    "tick": (calling("tick"), 500),
    "me": (calling("me"), 500),
    "allowance": (calling("allowance"), 500),
    "bucket": (calling("bucket"), 500),
    "points": (calling("points"), 500),
    "rooms": (calling("rooms"), 500),
    "room": (calling("room", f"(i32.rem_u {SCRAMBLED} (i32.const 300))"), 500),
    "room, past the last": (calling("room", "(i32.const -1)"), 500),
    "room_name": (calling("room_name", f"(i32.rem_u {SCRAMBLED} (i32.const 300))"), 500),
    "terrain": (calling("terrain", f"(i32.rem_u {SCRAMBLED} (i32.const 300))", "(i32.const 48)", "(i32.const 47)"), 500),
    "terrain of the last room": (calling("terrain", "(i32.const 299)", "(i32.const 49)", "(i32.const 49)"), 500),
    "level": (calling("level"), 500),
    "count": (calling("count"), 500),
    "find of 4,096 creeps": (calling("find", id_of(SCRAMBLED_ENTRY)), 500),
    "find of nothing": (calling("find", f"(i64.extend_i32_u {SCRAMBLED})"), 500),
    "get of ids": (calling("get", f"(i32.rem_u {SCRAMBLED} (i32.const 19294))", "(i32.const 0)"), 500),
    "get of capacities": (calling("get", f"(i32.rem_u {SCRAMBLED} (i32.const 19294))", "(i32.const 9)"), 500),
    "get of a creep's capacity": (calling("get", "(i32.const 7)", "(i32.const 9)"), 500),
    "get of the last part": (calling("get", f"(i32.rem_u {SCRAMBLED} (i32.const 2048))", "(i32.const 149)"), 500),
    "a full record, its last entry again": (calling("drop", "(i64.const 1)", "(i32.const 1)", before=FILL), 500, FILLING),
    "a full record, its first entry again": (calling("drop", id_of(ENTRY), "(i32.const 1)", before=FILL), 500, FILLING),
    "a full record, any entry again": (calling("drop", id_of(SCRAMBLED_ENTRY), "(i32.const 1)", before=FILL), 500, FILLING),
    "a record of one entry": (calling("drop", "(i64.const 1)", "(i32.const 1)"), 500),
    "drops that are refused": (calling("drop", id_of(SCRAMBLED_ENTRY), "(i32.const 51)"), 500),
    "transfers that are refused": (calling("transfer", id_of(SCRAMBLED_ENTRY), id_of(f"(i32.xor {SCRAMBLED_ENTRY} (i32.const 1))"), "(i32.const 51)"), 500),
    "pickups of what is no pile": (calling("pickup", id_of(SCRAMBLED_ENTRY), id_of(f"(i32.xor {SCRAMBLED_ENTRY} (i32.const 1))")), 500),
    "harvests without WORK": (calling("harvest", id_of(SCRAMBLED_ENTRY), "(i64.const 1)"), 500),
    "moves without MOVE": (calling("move", id_of(SCRAMBLED_ENTRY), f"(i32.add (i32.and {SCRAMBLED} (i32.const 7)) (i32.const 1))"), 500),
    "moves in no direction": (calling("move", id_of(SCRAMBLED_ENTRY), "(i32.const 9)"), 500),
    "memory_length": (calling("memory_length"), 500),
    "memory_write of 64 KiB": (calling("memory_write", "(i32.const 0)", "(i32.const 65536)", more=MEMORY), 10),
    "memory_read of 64 KiB": (text_of(["memory_read", "memory_write"], "(drop (call $memory_read (i32.const 0)))", MEMORY, WHOLE_TEXT), 10),
    "memory_write of nothing": (calling("memory_write", "(i32.const 0)", "(i32.const 0)", more=MEMORY), 500),
    "memory_write that is refused": (calling("memory_write", "(i32.const 1)", "(i32.const -1)", more=MEMORY), 500),
}


# The same of the calls that ask how much there is, in the world with a room that is built on. A record is full of drops but for its last
# entry, which is made again and again, or refused.
ALMOST = FILL.replace("(i32.const 4096)", "(i32.const 4095)")
ALMOST_FILLING = FILLING.replace(FILL, ALMOST)
BODY = '(memory 1) (data (i32.const 0) "' + "\\01" * 50 + '\\09")'
SITES = """(loop $s (drop (call $create_site (i32.const 2) (i32.add (i32.const 1) (i32.rem_u (local.get $i) (i32.const 11)))
    (i32.add (i32.const 10) (i32.div_u (local.get $i) (i32.const 11))) (i32.const 8))) (local.set $i (i32.add (local.get $i) (i32.const 1)))
    (br_if $s (i32.lt_u (local.get $i) (i32.const 99))))"""


MASK = (1 << 64) - 1
GROUPS = 512


def folded(a, b):
    return (a * b & MASK) ^ (a * b >> 64)


def hash_of(action, actor):
    """The hash of an entry's key, whose seed is fixed: so a player can choose keys that collide."""
    state = folded(0x243F6A8885A308D3 ^ action * 0x010101, 0x9E3779B97F4A7C15 ^ 2)
    return folded(state ^ actor, 0x9E3779B97F4A7C15 ^ 16)


def colliding(count):
    """Tiles of the rooms that are seen, whose entries for sites all belong into one group of the table of a record."""
    tiles = ((room, x, y) for room in range(3, 300) for y in range(10, 49) for x in range(1, 49))
    found = [it for it in tiles if hash_of(19, it[0] * 2500 + it[2] * 50 + it[1]) % GROUPS == 7]
    return found[:count]


def sites_again(tiles):
    """A module that makes sites on these tiles without end, which stand in its memory as bytes: the room's two, x and y."""
    data = "".join("\\%02x" % byte for room, x, y in tiles for byte in (*room.to_bytes(2, "little"), x, y))
    at = f"(local.set $i (i32.rem_u (local.get $i) (i32.const {4 * len(tiles)})))"
    call = "(drop (call $create_site (i32.load16_u (local.get $i)) (i32.load8_u offset=2 (local.get $i)) (i32.load8_u offset=3 (local.get $i)) (i32.const 8)))"
    return text_of(["create_site"], f"{at} {call} (local.set $i (i32.add (local.get $i) (i32.const 3)))", f'(memory 1) (data (i32.const 0) "{data}")')


def again(name, *arguments, more="", before=ALMOST, also=("drop",)):
    return text_of([name, *also], f"(drop (call ${name} {' '.join(arguments)}))", more, before)


def number_of(room, serial):
    return f"(i64.const {room * SECOND + serial})"


def tile_of(x, y):
    return f"(i32.const {x})", f"(i32.const {y})"


ROOM, ROAD, TILE = "(i32.const 2)", "(i32.const 8)", tile_of(20, 20)
FIFTY, ONE = ("(i32.const 0)", "(i32.const 50)"), ("(i32.const 0)", "(i32.const 1)")
ASKING = {
    "create_site, its entry again": (again("create_site", ROOM, *TILE, ROAD), ALMOST_FILLING),
    "create_site, for which there is no entry left": (again("create_site", ROOM, *TILE, ROAD, before=FILL), FILLING),
    "create_site beside 99 others": (again("create_site", ROOM, *TILE, ROAD, before=SITES, also=()), None),
    "create_site of 99, any of them again": (again("create_site", ROOM, f"(i32.add (i32.const 1) (i32.rem_u {SCRAMBLED} (i32.const 9)))", f"(i32.add (i32.const 10) (i32.rem_u (local.get $i) (i32.const 9)))", ROAD, before=SITES, also=()), None),
    "create_site of 99 whose keys collide, again": (sites_again(colliding(99)), None),
    "create_site, one too many of a kind": (again("create_site", ROOM, *TILE, "(i32.const 6)", before="", also=()), None),
    "create_site on any tile of any room": (again("create_site", f"(i32.rem_u {SCRAMBLED} (i32.const 300))", f"(i32.and {SCRAMBLED} (i32.const 63))", f"(i32.and (local.get $i) (i32.const 63))", ROAD, before="", also=()), None),
    "create_site in a room with 2,048 creeps": (again("create_site", "(i32.const 0)", f"(i32.and {SCRAMBLED} (i32.const 31))", "(i32.const 20)", "(i32.const 4)", before="", also=()), None),
    "remove_site of what is none": (again("remove_site", id_of(SCRAMBLED_ENTRY), before="", also=()), None),
    "claim_controller, its entry again": (again("claim_controller", number_of(3, 101), number_of(3, 100)), ALMOST_FILLING),
    "claim_controller, for which there is no entry left": (again("claim_controller", number_of(3, 101), number_of(3, 100), before=FILL), FILLING),
    "claim_controller of one far away": (again("claim_controller", number_of(3, 101), number_of(2, 100), before="", also=()), None),
    "spawn_creep of 50 parts, its entry again": (again("spawn_creep", number_of(2, 101), *FIFTY, more=BODY), ALMOST_FILLING),
    "spawn_creep, for which there is no entry left": (again("spawn_creep", number_of(2, 101), *FIFTY, more=BODY, before=FILL), FILLING),
    "spawn_creep of 50 parts, the last of which is none": (again("spawn_creep", number_of(2, 101), "(i32.const 1)", "(i32.const 50)", more=BODY, before="", also=()), None),
    "spawn_creep of one part, its entry again": (again("spawn_creep", number_of(2, 101), *ONE, more=BODY), ALMOST_FILLING),
}


def full_table():
    """65,536 entries that are filled."""
    elements = b"\0\x41\0\x0b" + leb(65_536) + bytes(65_536)
    return player_module(b"", table=b"\x70\0" + leb(65_536), elements=elements)


def much_data():
    """A mebibyte of data in 256 pages."""
    count = MIB - 100
    return player_module(b"", pages=256, data=b"\0\x41\0\x0b" + leb(count) + bytes(count))


CHEAP = {
    "an empty loop": EMPTY,
    "a trap at the first instruction": player_module(b"\0"),
    "one mebibyte in a custom section": filled(EMPTY),
    "9,999 functions in a mebibyte": many_functions(),
    "200,000 globals in a mebibyte": many_globals(),
    "a table of 65,536 entries, filled": full_table(),
    "256 pages": player_module(b"", pages=256),
    "256 pages and a mebibyte of data": much_data(),
    "a memory that grows from 0 to 256 pages": player_module(b"\x41\x80\x02\x40\0\x1a", pages=0),
    "empty data segments in a mebibyte": empty_data(),
    "empty element segments in a mebibyte": empty_elements(),
    "types in a mebibyte": many_types(),
    "exports in a mebibyte": many_exports(),
    "imports in a mebibyte": many_imports(),
}

# What the instances of some of them begin with: the bytes of zeros, and those that are copied, eight for each global and entry of a table.
BEGINS = {
    "200,000 globals in a mebibyte": (0, 200_000 * 8),
    "a table of 65,536 entries, filled": (0, 65_536 * 8),
    "256 pages": (256 * 65_536, 0),
    "256 pages and a mebibyte of data": (256 * 65_536, MIB - 100),
    "a memory that grows from 0 to 256 pages": (256 * 65_536, 0),
}


# ---- times


def copying(cleared, copied):
    """The seconds in which so many bytes are cleared by memset, and so many copied by memcpy, all in the same memory, from 64 places in turn."""
    room = ctypes.create_string_buffer(max(cleared, copied))
    places = [ctypes.create_string_buffer(b"\1" * copied, copied) for _ in range(64 if copied else 1)]
    best = float("inf")
    for _ in range(20):
        began = time.perf_counter()
        for place in places:
            ctypes.memset(room, 0, cleared)
            ctypes.memmove(room, place, copied)
        best = min(best, (time.perf_counter() - began) / len(places))
    return best


def seconds(command, stdout=subprocess.PIPE):
    began = time.perf_counter()
    done = subprocess.run(command, stdout=stdout, check=True)
    return time.perf_counter() - began, (done.stdout or b"").decode()


# Runs a command and prints the most memory in KiB that it took. A process begins with the memory of the one that started it, and so one
# that holds little has to.
PEAK = """import resource, subprocess, sys
subprocess.run(sys.argv[1:], stdout=subprocess.DEVNULL, check=True)
print(resource.getrusage(resource.RUSAGE_CHILDREN).ru_maxrss)
"""


class Bench:
    """A folder in memory, and the times of the program in it."""

    def __init__(self, program, folder, quick):
        self.program, self.folder, self.rounds, self.quick = program, folder, 1 if quick else 3, quick

    def path(self, name):
        return os.path.join(self.folder, name)

    def module(self, text):
        with open(self.path("it.wat"), "w") as it:
            it.write(text)
        subprocess.run(["wat2wasm", self.path("it.wat"), "-o", self.path("it.wasm")], check=True)
        with open(self.path("it.wasm"), "rb") as it:
            return it.read()

    def put(self, name, content):
        with open(self.path(name), "wb") as it:
            it.write(content)

    def command(self, ticks):
        """The words of a run, for which the old journal is taken away."""
        if os.path.exists(self.path("journal")):
            os.remove(self.path("journal"))
        return [self.program, "run", self.path("world"), self.path("uploads"), self.path("journal"), "--ticks", str(ticks)]

    def once(self, ticks):
        return seconds(self.command(ticks))

    def tick(self, first, stream, more):
        """Seconds of a tick after the first one, by so many more, and the instructions that were used in it."""
        self.put("world", first)
        self.put("uploads", stream)
        more = min(more, 3) if self.quick else more
        one = min(self.once(1)[0] for _ in range(self.rounds))
        tries = [self.once(1 + more) for _ in range(self.rounds)]
        lines = [line.split() for line in tries[0][1].splitlines() if line.startswith("player ")]
        used = sum(int(words[3]) for words in lines) * more // (1 + more)
        return (min(tries)[0] - one) / more, used / more

    def first_tick(self, first, stream):
        """Seconds of a run of one tick."""
        self.put("world", first)
        self.put("uploads", stream)
        return min(seconds(self.command(1), subprocess.DEVNULL)[0] for _ in range(self.rounds))

    def peak(self):
        """The most memory in MiB of a run of one tick with the files of the last one."""
        done = subprocess.run([sys.executable, "-I", "-S", "-c", PEAK, *self.command(1)], stdout=subprocess.PIPE, check=True)
        return int(done.stdout) / 1024


# ---- tables


def machine_at(program):
    for path in (os.path.join(os.path.dirname(program), "machine_bench"), "crates/machine_bench/out/machine_bench"):
        if os.path.isfile(path):
            return os.path.abspath(path)
    return None


def loops(bench, other):
    """The machine's loops as players."""
    print(f"{'module':38}{'tick ms':>9}{'start ms':>10}{'ns each':>9}{'machine_bench':>15}{'times':>7}")
    some, none = of_rooms([[]], players_of(1)), of_rooms([[]], [{"player": 1, "limit": 0}])
    for name, text in machine.ORDINARY.items():
        module = bench.module(text)
        tick, used = bench.tick(some, upload_entry(0, 1, module), 10)
        start, _ = bench.tick(none, upload_entry(0, 1, module), 200)
        each = (tick - start) * 1e9 / used
        row = f"{name:38}{tick * 1e3:9.2f}{start * 1e3:10.3f}{each:9.2f}"
        if other:
            path = bench.path("it.wasm")
            idle = min(seconds([other, path, "0"])[0] for _ in range(bench.rounds))
            whole = min(seconds([other, path, str(10 * FUEL)])[0] for _ in range(bench.rounds))
            alone = (whole - idle) * 1e9 / (10 * FUEL)
            row += f"{alone:15.2f}{each / alone:7.2f}"
        print(row, flush=True)


# A module that asks once for a site in each of 300 rooms, at a border, which has what stands there counted and is refused.
EACH_ROOM = f"""(module (import "screeps" "create_site" (func $create_site {IMPORTS["create_site"]})) (func (export "loop") (local $i i32)
    (loop $l (drop (call $create_site (local.get $i) (i32.const 0) (i32.const 0) (i32.const 8))) {STEP} (br_if $l (i32.lt_u (local.get $i) (i32.const 300))))))"""


def crowds(bench):
    """Ticks by how many players there are and what they see."""
    print(f"{'players, rooms that each sees':38}{'objects':>9}{'modules ms':>12}{'no modules ms':>15}{'times':>7}")
    rows = [(f"{count} of {seen}, with {objects} objects each", count * seen * objects, apart(count, seen, objects), count, EMPTY) for seen, objects in ((1, 1), (5, 50)) for count in (1, 8, 64)]
    rows += [(f"{count} of the same {seen}", count * seen, together(count, seen), count, EMPTY) for count, seen in ((1, 300), (8, 300), (64, 5), (64, 300))]
    rows.append(("64 of the same 300, asked for each", 64 * 300, together(64, 300), 64, bench.module(EACH_ROOM)))
    for name, objects, first, count, module in rows:
        more = 200 if objects < 1000 else 60
        with_modules, _ = bench.tick(first, for_each(count, module), more)
        without, _ = bench.tick(first, b"", more)
        print(f"{name:38}{objects:9,}{with_modules * 1e3:12.3f}{without * 1e3:15.3f}{with_modules / without:7.2f}", flush=True)


def costly(bench):
    """Modules that pay for what they do: the time of an instruction, without that of a tick with an empty loop."""
    print(f"{'module':38}{'instructions':>13}{'tick ms':>10}{'ns each':>10}{'of plain':>10}")
    first = wide()
    empty, _ = bench.tick(first, upload_entry(0, 1, EMPTY), 10)
    print(f"{'  an empty loop':38}{0:13,}{empty * 1e3:10.2f}", flush=True)
    full, filling = bench.tick(first, upload_entry(0, 1, bench.module(FILLING)), 5)
    print(f"{'  a record that is filled':38}{filling:13,.0f}{full * 1e3:10.2f}", flush=True)
    plain = None
    for name, (text, units, *without) in {"plain": (machine.ORDINARY["plain"], UNITS), **COSTLY}.items():
        module = bench.module(text)
        it = first.replace(f'"limit": {UNITS}'.encode(), f'"limit": {units}'.encode())
        tick, used = bench.tick(it, upload_entry(0, 1, module), 5)
        assert used == 10_000 * units, f"{name}: used {used}"
        rest, paid = (full, filling) if without else (empty, 0)
        each = (tick - rest) * 1e9 / (used - paid)
        plain = plain or each
        print(f"{name:38}{used:13,.0f}{tick * 1e3:10.2f}{each:10.2f}{each / plain:10.2f}", flush=True)


def asking(bench):
    """The calls that ask how much there is, beside a plain loop."""
    print(f"{'module':52}{'instructions':>13}{'tick ms':>10}{'ns each':>10}{'of plain':>10}")
    first = built()
    bare = {None: bench.tick(first, upload_entry(0, 1, EMPTY), 10)}
    plain = None
    for name, (text, filling) in {"plain": (machine.ORDINARY["plain"], None), **ASKING}.items():
        if filling not in bare:
            bare[filling] = bench.tick(first, upload_entry(0, 1, bench.module(filling)), 5)
        (rest, paid), (tick, used) = bare[filling], bench.tick(first, upload_entry(0, 1, bench.module(text)), 5)
        assert used == 10_000 * UNITS, f"{name}: used {used}"
        each = (tick - rest) * 1e9 / (used - (paid if filling else 0))
        plain = plain or each
        print(f"{name:52}{used:13,.0f}{tick * 1e3:10.2f}{each:10.2f}{each / plain:10.2f}", flush=True)


def dropping(number, creeps):
    """A module of a list of drops, of each creep of the player in the crowded world."""
    ids = [place // 2000 * SECOND + place % 2000 + 1 for place in range((number - 1) * creeps, number * creeps)]
    return Script([instruction for id in ids for instruction in unkept("drop", id, 1)], pages=None).content


def cheap(bench):
    """Modules that hardly pay: the time for each of 64 players, without that of a tick without modules."""
    print(f"{'64 players with':40}{'instructions':>13}{'tick ms':>10}{'ms each':>10}{'upload ms':>11}{'a copy ms':>11}{'times':>7}")
    first = apart(64, 1, 1)
    none, _ = bench.tick(first, b"", 50)
    idle = bench.first_tick(first, b"")
    rows = [(name, first, for_each(64, module), none, idle, 64) for name, module in CHEAP.items()]
    texts = of_rooms([[creep(n, 1, n + 1)] for n in range(64)], players_of(64, memory="5a" * 65_536))
    rows.append(("an empty loop and 64 KiB of text", texts, for_each(64, EMPTY), bench.tick(texts, b"", 20)[0], bench.first_tick(texts, b""), 64))
    for count, creeps in ((64, 312), (4, 4096)):
        it = crowded(count, creeps)
        stream = b"".join(upload_entry(0, number, dropping(number, creeps)) for number in range(1, count + 1))
        rows.append((f"{creeps:,} drops, {count} players", it, stream, bench.tick(it, b"", 20)[0], bench.first_tick(it, b""), count))
    for name, it, stream, base, start, count in rows:
        # (the first tick of some takes seconds, which is to be little beside the others)
        tick, used = bench.tick(it, stream, 100 if name in BEGINS else 20)
        upload = bench.first_tick(it, stream) - start
        each = (tick - base) / count
        row = f"{name:40}{used / count:13,.0f}{tick * 1e3:10.2f}{each * 1e3:10.3f}{upload * 1e3 / count:11.3f}"
        if name in BEGINS:
            copy = copying(*BEGINS[name])
            row += f"{copy * 1e3:11.3f}{each / copy:7.2f}"
        print(row, flush=True)


def uploads(bench):
    """Streams of uploads: the time of a run of one tick beside that without, and of a tick behind it."""
    print(f"{'stream':38}{'bytes':>13}{'ms':>10}{'ns an entry':>13}{'ns a byte':>11}{'peak MiB':>10}{'tick us':>9}")
    first = of_rooms([[]], players_of(1))
    idle = bench.first_tick(first, b"")
    count = 10_000 if bench.quick else 200_000
    nops = player_module(b"\1" * (MIB - 60))
    streams = [
        ("entries of nobody without bytes", struct.pack("<QII", 0, 9, 0) * count, count),
        ("entries for a later tick", struct.pack("<QII", 10**6, 1, 0) * count, count),
        ("entries that are Malformed", upload_entry(0, 1, b"") * count, count),
        ("empty modules", upload_entry(0, 1, EMPTY) * (count // 4), count // 4),
        ("modules of nops, 1 MiB each", upload_entry(0, 1, nops) * 16, 16),
        ("modules of 9,999 functions", upload_entry(0, 1, many_functions()) * 16, 16),
        ("modules of 200,000 globals", upload_entry(0, 1, many_globals()) * 16, 16),
        ("bytes of 0, 1 MiB each", upload_entry(0, 1, bytes(MIB)) * 16, 16),
        ("no entry", b"", 0),
    ]
    for name, stream, entries in streams:
        tick, _ = bench.tick(first, stream, 1000)
        print(f"{uploads_row(bench, first, idle, name, stream, entries)}{tick * 1e6:9.1f}", flush=True)
    # (256 MiB, of which each entry has a line and is recorded; no longer than the others where it has to be quick)
    longest = (MIB if bench.quick else 256 * MIB) // 16
    print(uploads_row(bench, first, idle, "entries of nobody, the longest stream", struct.pack("<QII", 0, 9, 0) * longest, longest), flush=True)


def uploads_row(bench, first, idle, name, stream, entries):
    took = bench.first_tick(first, stream) - idle
    each, of_byte = (took * 1e9 / count if count else 0.0 for count in (entries, len(stream)))
    return f"{name:38}{len(stream):13,}{took * 1e3:10.2f}{each:13,.0f}{of_byte:11.2f}{bench.peak():10.1f}"


def main():
    words = [word for word in sys.argv[1:] if word != "--quick"]
    if len(words) != 1 or not os.path.isfile(words[0]):
        sys.exit("no program: python3 bench/players.py PROGRAM [--quick]")
    program = os.path.abspath(words[0])
    place = "/dev/shm" if os.path.isdir("/dev/shm") else None
    with tempfile.TemporaryDirectory(dir=place) as folder:
        bench = Bench(program, folder, "--quick" in sys.argv)
        loops(bench, machine_at(program))
        crowds(bench)
        costly(bench)
        asking(bench)
        cheap(bench)
        uploads(bench)


if __name__ == "__main__":
    main()
