#!/usr/bin/env python3
"""Runs, replays and shows what a player or a host may choose to be dear, each call within a limit of processor time.

No clause sees a cost, so a body that does its work a hundred times over keeps every contract. Each shape here has a limit of its own, some twenty times
what the program takes, and says which bodies pass it: those that copy, walk or decode once for each call, object, entry or tick what has to be
done once. It is processor time, which other work on the machine hardly changes; the journals lie in memory where there is /dev/shm. That a call ends
as it has to is seen too.

It runs behind `rt ci`, which builds crates/world_server/out/world_server. With --measure it prints what each call takes, as the lines of `MOST_SECONDS` are
written, with twenty times as much. With --quick each shape has less of all, which shows that it ends as it has to and little else. A word more is a part
of the name of a shape, and then it is made alone.
"""

import json
import os
import struct
import sys
import tempfile

TOP = os.path.dirname(os.path.dirname(os.path.abspath(__file__)))
sys.path[:0] = [os.path.join(TOP, it) for it in ("oracle", "checks/harness", "checks/inputs")]
from bounded_calls import JOURNAL, Call, chosen, ended, made, put, words_of  # noqa: E402
from checked_program import Checks, shown  # noqa: E402
from colony_worlds import FREE, PLAYERS, ROOMS, uploads_of, world_of  # noqa: E402
from game import MOST_PARTS, thing  # noqa: E402
from large_modules import empty_data, empty_elements, filled, many_exports, many_functions, many_imports, many_types  # noqa: E402
from large_worlds import INSIDE, TILES, crowd, file_of, full_room, id_of  # noqa: E402
from module_bytes import leb, player_module, signed_leb  # noqa: E402
from plain_worlds import EMPTY, apart, players_of, together  # noqa: E402
from scripts import MOST_ENTRIES, Script, unkept  # noqa: E402
from worlds import (  # noqa: E402
    SMALL,
    base_content,
    bytes_of,
    frame,
    full,
    grounds,
    output_of,
    played,
    room,
    start_line,
    step_lines,
    text_of,
    upload_entry,
    world,
)

checks = Checks(__file__)
WORDS = sys.argv[1:]
PLACE = "/dev/shm" if os.path.isdir("/dev/shm") else None
QUICK = "--quick" in WORDS
NOBODY = 9
ROAD = 8

# ---- limits

# Of each call the seconds of processor time that it may take: some twenty times what it takes, as `--measure` prints it. What has none may take
# `FIRST_GUESS`.
FIRST_GUESS = 60
LEAST_SECONDS = 1
TIMES = 20
MOST_SECONDS = {
    "sites where none may be": 11,
    "a hundred sites, again and again": 21,
    "spawns that are asked again and again": 8,
    "spawns that were asked, replayed": 2,
    "full records, written again and again": 34,
    "full records, replayed": 3,
    "100,000 ticks of 400 rooms, gone on with": 10,
    "100,000 ticks of 400 rooms, the last shown": 8,
    "100,000 ticks of 400 rooms, the first shown": 8,
    "100,000 ticks of a room, gone on with": 2,
    "100,000 ticks of a room, the last shown": 2,
    "100,000 ticks of a room, the first shown": 2,
    "100,000 ticks of a room, replayed": 3,
    "300 ticks of 400 rooms, replayed": 1,
    "10,000 ticks of the small world": 1,
    "10,000 ticks of the small world, replayed": 1,
    "10,000 ticks of the small world, gone on with": 1,
    "300 rooms seen by 64 players": 29,
    "what 64 players see, asked for again and again": 17,
    "1,000 ticks before 200,000 uploads": 1,
    "200,000 uploads of 1,000 ticks": 1,
    "a million uploads in a tick": 3,
    "a million uploads in a tick, replayed": 2,
    "200 ticks of 400 rooms": 3,
    "200 ticks of 400 rooms, gone on with": 1,
    "200 ticks of 400 rooms, replayed": 2,
    "200 ticks of 400 rooms, shown": 1,
    "all kinds of actions in 400 rooms": 6,
    "all kinds of actions in 400 rooms, gone on with": 5,
    "all kinds of actions in 400 rooms, replayed": 4,
    "64 modules of a mebibyte, uploaded": 83,
    "64 modules of a mebibyte, 200 ticks": 125,
    "64 modules of a mebibyte, replayed": 54,
    "a row that stays, ids to the wall": 11,
    "a row that stays, ids to the wall, shown": 5,
    "a row that stays, ids from the wall": 13,
    "a row that stays, ids from the wall, shown": 5,
}


def most_seconds(name):
    return MOST_SECONDS.get(name, FIRST_GUESS)


# ---- sizes


def scaled(number, least=1):
    """A number of ticks, entries or calls, or a hundredth of it where it has to be quick."""
    return max(least, number // 100) if QUICK else number


UNITS = scaled(500)


# ---- modules that never end

COUNTER = b"\x20\0"
STEP = COUNTER + b"\x41\1\x6a\x21\0"
ADD, MUL, DIVIDE, REST, SHIFT_RIGHT, EXTEND, WIDE_ADD, WIDE_SHIFT = b"\x6a", b"\x6c", b"\x6e", b"\x70", b"\x76", b"\xad", b"\x7c", b"\x86"
DROP = b"\x1a"


def short(number):
    return b"\x41" + signed_leb(number)


def wide(number):
    return b"\x42" + signed_leb(number)


def rest_of(code, number):
    return code + short(number) + REST


def looping(call, arguments, **others):
    """A module that makes a call again and again until its fuel is spent. A local counts the rounds."""
    code = b"\x03\x40" + arguments + b"\x10\0" + DROP + STEP + b"\x0c\0\x0b"
    return player_module(b"\x10\2", [call], helpers=[(0, b"\1\1\x7f", code)], **others)


# A number that is another in each round, and comes in no order.
SCRAMBLED = COUNTER + short(-1640531535) + MUL + short(8) + SHIFT_RIGHT


def placing(index):
    """Asks for a road on each tile of a room in turn, without end."""
    x, y = short(1) + rest_of(COUNTER, 48) + ADD, short(1) + rest_of(COUNTER + short(48) + DIVIDE, 48) + ADD
    return looping("create_site", short(index) + x + y + short(ROAD))


def spawning(index, first, count):
    """Asks each of so many spawns in turn for a creep of 50 parts, without end."""
    id = wide(id_of(index, first)) + rest_of(SCRAMBLED, count) + EXTEND + WIDE_ADD
    return looping("spawn_creep", id + short(0) + short(MOST_PARTS), pages=1, data=b"\0\x41\0\x0b" + leb(MOST_PARTS) + b"\1" * MOST_PARTS)


def dropping_again(first, most):
    """Lets each of so many creeps of `crowd` from this one on drop something, in turn, and without end."""
    number = short(first) + rest_of(SCRAMBLED, most) + ADD
    id = number + short(len(TILES)) + DIVIDE + EXTEND + wide(32) + WIDE_SHIFT + rest_of(number, len(TILES)) + short(1) + ADD + EXTEND + WIDE_ADD
    return looping("drop", id + short(1))


def for_each(modules):
    return b"".join(upload_entry(0, player, module) for player, module in enumerate(modules, 1))


# ---- what has to come


def stays(_):
    """(a journal of which nothing is said)"""
    return []


def limited(it, units=UNITS):
    """The world whose players have so many CPU units in each tick, and fewer objects where it has to be quick."""
    for account in it["players"]:
        account["limit"] = units
    for place in it["rooms"]:
        place["objects"] = place["objects"][:: 100 if QUICK and len(place["objects"]) > 1000 else 1]
    return it


def spent(players, intents, ticks=1, units=UNITS):
    """That in each tick so many players used up their fuel, and together recorded so many intents, where that is said."""

    def faults(out):
        lines = out.decode().splitlines()
        runs = [line for line in lines if line.startswith("player ")]
        wrong = [line for line in runs if not line.endswith(f" spent {10_000 * units}")]
        told = [line.split()[5] for line in lines if line.startswith("tick ")]
        faults = [f"{len(runs)} runs, {wrong[:3]}"] if wrong or len(runs) != players * ticks else []
        # (with less fuel less is recorded)
        is_told = told == [str(intents)] * ticks or intents is None or QUICK
        return faults + ([] if is_told else [f"intents {told[:5]}, wanted {intents} in {ticks} ticks"])

    return faults


def last_line(start):
    """That the last line of the output begins so."""

    def faults(out):
        last = out.splitlines()[-1:]
        return [] if last and last[0].startswith(start) else [f"the last line is {shown(last)}, wanted {start}"]

    return faults


def begins(it):
    return start_line(it).encode()


# ---- the shapes


def of_sites(folder):
    """Six players each ask for some 190,000 sites in a room with 7,296 objects, all of whose tiles are taken; and three in one with 2,496 creeps and as many
    piles, where each gets 100. A body that copies the room or the record for each call, or counts the room's buildings or looks for the tile anew by a
    walk over all its objects, takes 7,000 steps for each of a million calls."""
    it = limited(full_room(range(1, 7)))
    put(folder, world=file_of(it), uploads=for_each([placing(0)] * 6), journal=None)
    yield Call("sites where none may be", words_of(1), spent(6, 0), journal=stays)
    it["rooms"][0]["objects"] = [one for one in it["rooms"][0]["objects"] if one["kind"] in ("creep", "pile")]
    put(folder, world=file_of(it), journal=None)
    yield Call("a hundred sites, again and again", words_of(1), spent(6, 600), journal=stays)


def spawn_room():
    """A room full of spawns and extensions of two players, with piles on all its tiles."""
    objects = [thing("pile", id_of(0, 5000 + at), *tile, energy=10**6) for at, tile in enumerate(TILES)]
    for at, tile in enumerate(INSIDE):
        owner, place = at // (len(INSIDE) // 2) + 1, at % (len(INSIDE) // 2)
        fields = {"energy": 300, "hits": 5000} if place < 600 else {"energy": 200, "hits": 1000}
        objects.append(thing("spawn" if place < 600 else "extension", id_of(0, 1 + at), *tile, owner=owner, **fields))
    return world(room("E0S0", 9000, *objects), players=[{"player": number, "limit": 500} for number in (1, 2)])


def of_spawns(folder):
    """Two players each ask their 600 spawns for creeps of 50 parts some 200,000 times, in a room in which each has 1,152 spawns and extensions, so that all of
    their energy is asked for. A body that adds it up anew for each call takes 1,152 steps for each, and one that looks over the room 4,800."""
    put(folder, world=file_of(limited(spawn_room())), uploads=for_each([spawning(0, 1, 600), spawning(0, 1 + len(INSIDE) // 2, 600)]), journal=None)
    yield Call("spawns that are asked again and again", words_of(1), spent(2, 1200), journal=stays)
    yield Call("spawns that were asked, replayed", ["replay", JOURNAL], b"replayed 1\n")


def of_records(folder):
    """Four players with 4,096 creeps each write their full records again and again, in no order, in three ticks. A body that walks the record for each call,
    or copies it, takes 4,096 steps for each of 200,000 calls."""
    it = limited(crowd(7, 5))
    modules = [dropping_again(MOST_ENTRIES * number, MOST_ENTRIES) for number in range(scaled(4))]
    put(folder, world=file_of(it), uploads=for_each(modules), journal=None)
    yield Call("full records, written again and again", words_of(3), spent(len(modules), 4 * MOST_ENTRIES, 3), journal=stays)
    yield Call("full records, replayed", ["replay", JOURNAL], b"replayed 3\n")


def quiet(ticks, base, first):
    """The journal of so many ticks in which nothing changes, made by hand, from this base on."""
    contents = (b"T" + struct.pack("<Q", first + 1 + tick) + bytes(16) for tick in range(ticks))
    return b"\1" + frame(base) + b"".join(b"\1" + frame(content) for content in contents) + b"\0"


def still_world(rooms, objects):
    """A world in which nothing changes: sources that are full, in rooms without exits."""
    ground = grounds({50 * y + x: "1" for y in range(50) for x in range(50) if x in (0, 49) or y in (0, 49)})
    places = [[thing("source", id_of(index, 1 + at), *INSIDE[at], energy=1500) for at in range(objects)] for index in range(rooms)]
    return world(*[room(f"E{index % 20}S{index // 20}", objects + 1, *it, terrain=ground) for index, it in enumerate(places)])


def of_long_journals(folder):
    """100,000 ticks in which nothing changes, in 400 rooms with 20,000 objects: a body that copies the world, or looks at all its rooms, for each tick that it
    reads takes a megabyte, or 400 steps, a hundred thousand times. In a world of one room they are replayed too: there one that reads from the front for
    each tick takes five thousand million."""
    ticks = scaled(100_000)
    for name, it in (("400 rooms", still_world(scaled(400), scaled(50))), ("a room", still_world(1, 1))):
        last = {**full(it), "tick": ticks}
        put(folder, world=file_of(it), uploads=b"", journal=quiet(ticks, base_content(it), 0))
        yield Call(f"100,000 ticks of {name}, gone on with", words_of(0), begins(last))
        yield Call(f"100,000 ticks of {name}, the last shown", ["show", JOURNAL, str(ticks)], text_of(last) + b"\n")
        yield Call(f"100,000 ticks of {name}, the first shown", ["show", JOURNAL, "0"], text_of(full(it)) + b"\n")
    yield Call("100,000 ticks of a room, replayed", ["replay", JOURNAL], b"replayed %d\n" % ticks)
    it, ticks = still_world(scaled(400), 1), scaled(300)
    put(folder, world=file_of(it), journal=quiet(ticks, base_content(it), 0))
    yield Call("300 ticks of 400 rooms, replayed", ["replay", JOURNAL], b"replayed %d\n" % ticks)


def of_changing_ticks(folder):
    """10,000 ticks of the small world, made by the program: in each a pile or a source changes. A body that opens, reads or copies the journal anew for each
    tick that it writes takes some ten thousand times a megabyte."""
    ticks = scaled(10_000)
    steps = played(SMALL, ticks)
    put(folder, world=bytes_of(SMALL), uploads=b"", journal=None)
    yield Call("10,000 ticks of the small world", words_of(ticks), output_of(SMALL, steps), journal=stays)
    yield Call("10,000 ticks of the small world, replayed", ["replay", JOURNAL], b"replayed %d\n" % ticks)
    yield Call("10,000 ticks of the small world, gone on with", words_of(0), begins(steps[-1].world))


def of_views(folder):
    """64 players see the same 300 rooms of 19,200 objects and ask for a site in each room in turn, 10,000 times in each of three ticks. A body that makes a view
    of its own for each call, or counts the room for each, takes 64 steps or 19,200 for each of two million calls; one that makes all views by a
    walk for each player and room takes 64 * 300 * 19,200 steps in each tick."""
    players, rooms, units = scaled(64, 4), scaled(300, 10), scaled(20)
    it = limited(json.loads(together(players, rooms)), units)
    asking = looping("create_site", rest_of(COUNTER, rooms) + short(1) + short(48) + short(ROAD))
    put(folder, world=file_of(it), uploads=for_each([asking] * players), journal=None)
    yield Call("300 rooms seen by 64 players", words_of(3), spent(players, None, 3, units), journal=stays)
    getting = looping("get", rest_of(SCRAMBLED, players * rooms) + short(9))
    put(folder, uploads=for_each([getting] * players), journal=None)
    yield Call("what 64 players see, asked for again and again", words_of(3), spent(players, 0, 3, units), journal=stays)


def of_later_uploads(folder):
    """1,000 ticks before 200,000 entries of the stream, all for later ones. A body that walks the stream in each tick takes two hundred million steps."""
    ticks, count = scaled(1000), scaled(200_000)
    steps, each = played(SMALL, ticks), count // ticks
    put(folder, world=bytes_of(SMALL), uploads=struct.pack("<QII", 10**6, 1, 0) * count, journal=None)
    yield Call("1,000 ticks before 200,000 uploads", words_of(ticks), output_of(SMALL, steps), journal=stays)
    put(folder, uploads=b"".join(struct.pack("<QII", at // each, NOBODY, 0) for at in range(count)), journal=None)
    lines = [line for step in steps for line in [*[f"upload player {NOBODY} refused UnknownPlayer\n"] * each, step_lines(step)]]
    yield Call("200,000 uploads of 1,000 ticks", words_of(ticks), (start_line(SMALL) + "".join(lines)).encode(), journal=stays)


def of_many_uploads(folder):
    """A million uploads of nobody in one tick: a body that joins their lines, or their forms, one behind the other by copies of all before takes half a
    million million steps."""
    count, line = scaled(1_000_000), f"upload player {NOBODY} refused UnknownPlayer\n"
    put(folder, world=bytes_of(SMALL), uploads=struct.pack("<QII", 0, NOBODY, 0) * count, journal=None)
    wanted = start_line(SMALL) + line * count + step_lines(played(SMALL, 1)[0])
    yield Call("a million uploads in a tick", words_of(1), wanted.encode(), journal=stays)
    yield Call("a million uploads in a tick, replayed", ["replay", JOURNAL], b"replayed 1\n")


def generated(folder, rooms, part):
    return ended(["gen", "7", str(rooms), part], folder).out


def of_rooms(folder):
    """200 ticks of 400 rooms, of which eight change, and some ticks of 400 with 20,000 objects and all kinds of actions by 64 players. A body that copies the whole
    world for each room, or looks for each creep's target by a walk over all objects, takes 400 or 20,000 times as much; one that rules all rooms for each
    player 64 times."""
    ticks, rooms = scaled(200), scaled(400)
    put(folder, world=generated(folder, rooms, "world"), uploads=generated(folder, rooms, "uploads"), journal=None)
    yield Call("200 ticks of 400 rooms", words_of(ticks), last_line(b"tick %d " % ticks), journal=stays)
    yield Call("200 ticks of 400 rooms, gone on with", words_of(0), last_line(b"start tick %d rooms %d " % (ticks, rooms)))
    yield Call("200 ticks of 400 rooms, replayed", ["replay", JOURNAL], b"replayed %d\n" % ticks)
    end = b'"tick":%d,"version":1}\n' % ticks
    yield Call("200 ticks of 400 rooms, shown", ["show", JOURNAL, str(ticks)], lambda out: [] if out.endswith(end) else [shown(out[-60:])])
    players, rooms = scaled(PLAYERS, 4), scaled(ROOMS, 20)
    first, calls = world_of(players, rooms, scaled(FREE))
    put(folder, world=first, uploads=uploads_of(calls), journal=None)
    yield Call("all kinds of actions in 400 rooms", words_of(5), last_line(b"tick 5 "), journal=stays)
    yield Call("all kinds of actions in 400 rooms, gone on with", words_of(0), last_line(b"start tick 5 rooms %d " % rooms))
    yield Call("all kinds of actions in 400 rooms, replayed", ["replay", JOURNAL], b"replayed 5\n")


def of_modules(folder):
    """64 players with modules of a mebibyte, of seven sorts, in 200 ticks. A body that decodes, checks or links a module in each tick takes 200 times what their
    uploads take, and one that copies each module's instructions in each tick some hundred times a tick's time."""
    sorts = [filled(EMPTY), many_functions(), many_types(), many_exports(), many_imports(), empty_data(), empty_elements()]
    ticks, players = scaled(200, 3), scaled(64, 2)
    modules = [sorts[player % len(sorts)] for player in range(players)]
    put(folder, world=apart(players, 1, 1), uploads=for_each(modules), journal=None)
    yield Call("64 modules of a mebibyte, uploaded", words_of(1), last_line(b"tick 1 "), journal=stays)
    yield Call("64 modules of a mebibyte, 200 ticks", words_of(ticks), last_line(b"tick %d " % (ticks + 1)), journal=stays)
    yield Call("64 modules of a mebibyte, replayed", ["replay", JOURNAL], b"replayed %d\n" % (ticks + 1))


def snake(is_turned):
    """A room full of creeps that each want to step to the next one's tile, row by row and back, and the last onto a wall; ids rise to it, or from it."""
    tiles = [(x if y % 2 else 49 - x, y) for y in range(1, 49) for x in range(1, 49)]
    ground = grounds({50 * y + x: "1" for y in range(50) for x in range(50) if x in (0, 49) or y in (0, 49)})
    objects, code = [], []
    for at, (x, y) in enumerate(tiles):
        to_x, to_y = tiles[at + 1] if at + 1 < len(tiles) else (x, y + 1)
        id = id_of(0, len(tiles) - at if is_turned else 1 + at)
        objects.append(thing("creep", id, x, y, owner=1, body=["move"], hits=100, timer=1500))
        code += unkept("move", id, {(1, 0): 3, (-1, 0): 7, (0, 1): 5}[to_x - x, to_y - y])
    return world(room("E0S0", 3000, *objects, terrain=ground), players=players_of(1)), Script(code)


def of_snakes(folder):
    """2,304 creeps in a row of which none can step, as the first one stands before a wall, in 200 ticks. A body that looks at all of them again as long as one more
    has to stay takes 2,304 * 2,304 steps in each tick."""
    ticks = scaled(200)
    for name, is_turned in (("to the wall", False), ("from the wall", True)):
        it, module = snake(is_turned)
        put(folder, world=file_of(it), uploads=upload_entry(0, 1, module.content), journal=None)
        wanted = {**full(it), "tick": ticks}
        for one in wanted["rooms"][0]["objects"]:
            one["timer"] -= ticks
        yield Call(f"a row that stays, ids {name}", words_of(ticks), last_line(b"tick %d objects 2304 intents 2304 " % ticks), journal=stays)
        # (a unit is used in each tick, as some 9,000 instructions are)
        wanted["players"][0]["bucket"] = min(10_000, 499 * ticks)
        yield Call(f"a row that stays, ids {name}, shown", ["show", JOURNAL, str(ticks)], text_of(wanted) + b"\n")


SHAPES = [
    of_sites,
    of_spawns,
    of_records,
    of_long_journals,
    of_changing_ticks,
    of_views,
    of_later_uploads,
    of_many_uploads,
    of_rooms,
    of_modules,
    of_snakes,
]


def calls():
    """Each call of the shapes, with the folder in which it is made next."""
    for shape in chosen(SHAPES, WORDS):
        with tempfile.TemporaryDirectory(dir=PLACE) as folder:
            for call in shape(folder):
                yield call, folder


def measured():
    """Prints what each call takes, as the lines of `MOST_SECONDS` are written."""
    for call, folder in calls():
        faults, found = made(call, folder)
        checks.note(call.name, faults)
        print(f'    "{call.name}": {max(LEAST_SECONDS, round(TIMES * found.seconds + 0.5))},  # {found.seconds:.3f}', flush=True)
    checks.finish()


def check():
    for call, folder in calls():
        faults, _ = made(call, folder, seconds=most_seconds(call.name))
        checks.note(call.name, faults)
    checks.finish()


if "--measure" in WORDS:
    measured()
check()
