#!/usr/bin/env python3
"""Runs, replays and shows worlds, streams and journals at the top of what the rules and the formats leave, each with its expected result, and each within
a limit of memory of its own.

Want of memory is the one answer that a call of the program may always give. So a body that gave it at some great size would keep every contract; and
so would one that reserves many times what it holds. Here calls of great sizes have to be done, under a limit (RLIMIT_AS) that leaves some half more
than they need: a table, a view, a record or a reader that takes sixteen times its need ends by status 11. What is compared with comes from
oracle/worlds.py, or is made by hand from docs/formats.md.

It runs behind `rt ci`, which builds crates/world_server/out/world_server. With --measure it prints the least limit under which each call is done, as the
lines of `MOST_MIB` are written, with half of it more. With --without-limits no memory is limited, as a program needs that reserves room for itself. A word
more is a part of the name of a shape, and then it is made alone.
"""

import os
import struct
import sys
import tempfile

TOP = os.path.dirname(os.path.dirname(os.path.abspath(__file__)))
sys.path[:0] = [os.path.join(TOP, it) for it in ("oracle", "checks/harness", "checks/inputs")]
from bounded_calls import FILES, JOURNAL, MIB, WORLD, Again, Call, chosen, ended, hash_of, least_limit, made, put, words_of  # noqa: E402
from checked_program import Checks, shown, write_files  # noqa: E402
from large_worlds import INSIDE, Longest, creep, crowd, dropping, file_of, full_room, full_world, ids_of, wanting, writing  # noqa: E402
from scripts import MOST_ENTRIES, Script, unkept  # noqa: E402
from worlds import (  # noqa: E402
    SMALL,
    Refused,
    Upload,
    base_content,
    bytes_of,
    contents_of,
    frame,
    full,
    gated,
    journal_of,
    object_bytes,
    objects_of,
    output_of,
    played,
    room,
    room_bytes,
    start_line,
    stream_of,
    text_of,
    tick_content,
    upload_bytes,
    upload_entry,
    world,
)

checks = Checks(__file__)
WORDS = sys.argv[1:]
PLACE = "/dev/shm" if os.path.isdir("/dev/shm") else None
NOBODY = 9
GIB = 1 << 30
MOST_FILE, MOST_STREAM = 64 * MIB, 256 * MIB
# The greatest `next` with which a room goes on.
LAST_NEXT = 2**32 - 2**20
LONGEST_PATH = 4095

# ---- limits

# Of each call how many MiB of memory it may take beyond those with which the program begins at all: about one and a half times what it needs, as
# `--measure` prints it, and 8 at least. What has none may take `FIRST_GUESS`.
FIRST_GUESS = 1024
LEAST_MIB = 8
MOST_MIB = {
    "the full world, run": 913,
    "the full world, gone on with": 817,
    "the full world, replayed": 277,
    "the full world, shown": 265,
    "the full world, its first world shown": 277,
    "the full world, its text run": 211,
    "the full world, its text shown again": 211,
    "the full room, run": 76,
    "the full room, gone on with": 77,
    "the full room, replayed": 44,
    "the full room, shown": 80,
    "the full room, its first world shown": 80,
    "the full room, its text run": 79,
    "the full room, its text shown again": 80,
    "192 creeps that cross into a room, run": 43,
    "192 creeps that cross into a room, gone on with": 41,
    "192 creeps that cross into a room, replayed": 8,
    "192 creeps that cross into a room, shown": 23,
    "192 creeps that cross into a room, its first world shown": 23,
    "192 creeps that cross into a room, its text run": 23,
    "192 creeps that cross into a room, its text shown again": 23,
    "the last serials, run": 23,
    "the last serials, gone on with": 41,
    "the last serials, replayed": 10,
    "the last serials, shown": 22,
    "the last serials, its first world shown": 22,
    "the last serials, its text run": 23,
    "the last serials, its text shown again": 22,
    "no serials are left": 23,
    "a next that is the greatest number": 23,
    "its next tick": 23,
    "39,936 objects, run": 181,
    "39,936 objects, gone on with": 181,
    "39,936 objects, replayed": 74,
    "39,936 objects, shown": 223,
    "39,936 objects, its first world shown": 178,
    "the text of 39,936 objects": 229,
    "a base of 25,000 objects, replayed": 46,
    "a base of 25,000 objects, its world 0 shown": 217,
    "a base of 25,000 objects, its world 1 shown": 217,
    "a base of 25,000 objects, its world 2 shown": 217,
    "10,001 ticks of a demo": 28,
    "a world file of 64 MiB, spaces": 193,
    "a world file of 64 MiB, one text": 289,
    "a world file of 64 MiB, a text of escapes": 229,
    "a world file of 64 MiB, numbers": 1729,
    "a world file of 64 MiB, keys": 193,
    "a world file of 64 MiB, ticks, of which the last counts": 193,
    "a world file of a byte more": 97,
    "a world file of brackets": 193,
    "a world file without an end": 97,
    "a stream without an end": 385,
    "a module without an end": 8,
    "a frame of 70 MiB, run": 301,
    "a frame of 70 MiB, gone on with": 409,
    "a frame of 70 MiB, replayed": 211,
    "a frame of 70 MiB, shown": 211,
    "a frame of 70 MiB, its first world shown": 211,
    "a frame of 70 MiB, its text run": 8,
    "a frame of 70 MiB, its text shown again": 8,
    "1,100,000 entries of a tick": 65,
    "1,100,000 entries of a tick, replayed": 112,
    "1,100,000 entries of later ticks": 49,
    "an entry behind 1,100,000 whose tick is less": 49,
    "an entry behind 1,100,000 that is cut short": 49,
    "a stream of 256 MiB of later ticks": 385,
    "a stream of a byte more": 385,
    "an upload of 256 MiB": 385,
    "a journal of 300 MiB, replayed": 151,
    "a journal of 300 MiB, shown": 151,
    "a journal of 300 MiB, gone on with": 151,
    "5 GiB behind the closed gate, replayed": 8,
    "5 GiB behind the closed gate, shown": 8,
    "5 GiB behind the closed gate, gone on with": 8,
    "5 GiB of zeros, shown": 8,
    "5 GiB of zeros, begun anew": 8,
    "an open gate before what isn't there": 8,
    "an open gate before 200 MiB of zeros": 301,
    "a base of 5 GiB that isn't there": 8,
    "a damaged journal, gone on with": 31,
    "a damaged journal, shown": 8,
    "a damaged journal, replayed": 8,
    "a tick that isn't there": 8,
    "the last tick that can be asked for": 8,
    "another world": 31,
    "a tick that the rules don't make": 16,
    "17 words": 8,
    "10000 words": 8,
    "a word of 100,000 bytes": 8,
    "paths of 4,095 bytes, run": 8,
    "a path of 4,095 bytes, shown": 8,
    "a path of 4,095 bytes, replayed": 8,
    "a world's path of 4,096 bytes": 8,
    "a journal's path of 4,096 bytes": 8,
    "the check of a module of a mebibyte by a path of 4,095 bytes": 26,
}


def most_memory(call, least):
    return None if least is None else least + MOST_MIB.get(call.sort, FIRST_GUESS) * MIB


# ---- calls with what they have to come to


def shown_world(it):
    return text_of(it) + b"\n"


def no_ticks(name, it):
    """A run that goes on and makes no tick."""
    return Call(name, words_of(0), start_line(it).encode())


def went_on(name, it, steps, journal=None):
    """A run of these steps from this world on."""
    return Call(name, words_of(len(steps)), output_of(it, steps), journal=journal)


def refused(name, words, status, text, out=b"", sort=None):
    return Call(name, words, out, status, f"fault {status} {text}\n".encode(), sort=sort)


def of_shown(folder, name, it, journal):
    """The text of a world that was shown is taken as a world file, into a journal of its own that shows it again."""
    text = shown_world(it)
    put(folder, world=text, uploads=b"", journal=None)
    yield Call(f"{name}, its text run", words_of(0), start_line(it).encode(), journal=gated([base_content(it)]))
    yield Call(f"{name}, its text shown again", ["show", JOURNAL, str(it["tick"])], text)
    put(folder, journal=journal)


def of_steps(folder, name, first, steps, uploads, more=1):
    """A run of these steps but for the last ones, which a second run makes; then the journal is replayed, and its last world shown."""
    front, kept = steps[: len(steps) - more], journal_of(first, steps)
    put(folder, world=file_of(first), uploads=stream_of(uploads), journal=None)
    yield went_on(f"{name}, run", first, front, journal_of(first, front))
    yield went_on(f"{name}, gone on with", front[-1].world, steps[len(steps) - more :], kept)
    yield Call(f"{name}, replayed", ["replay", JOURNAL], b"replayed %d\n" % len(steps))
    last = steps[-1].world
    yield Call(f"{name}, shown", ["show", JOURNAL, str(last["tick"])], shown_world(last))
    yield Call(f"{name}, its first world shown", ["show", JOURNAL, str(first["tick"])], shown_world(full(first)))
    if len(objects_of(last)) <= 20_000:
        yield from of_shown(folder, name, last, kept)


# ---- worlds


def of_full_world(folder):
    """All at once: 400 rooms, 64 players with texts of 65,536 bytes and modules of a mebibyte, 20,000 objects with bodies of 50 parts, a room with as many
    as a room can have, and two players whose records are full. The frame of the first tick has 70 MiB."""
    it = full_world()
    uploads = [Upload(0, player, Longest(wanting(it, player, 0)) if player <= 2 else writing(player)) for player in range(1, 65)]
    steps = played(it, 3, uploads)
    most = [len(run.entries) for run in steps[0].runs[:2]]
    assert most == [MOST_ENTRIES] * 2 and all(len(upload.module.content) == MIB for upload in uploads)
    yield from of_steps(folder, "the full world", it, steps, uploads)


def of_full_room(folder):
    """The full room by itself, in which each of 64 players sees all."""
    it = full_room(range(1, 65), memory="00" * 65_536)
    uploads = [Upload(0, player, Script(wanting(it, player, 0))) for player in range(1, 65)]
    yield from of_steps(folder, "the full room", it, played(it, 2, uploads), uploads)


def crossing_world():
    """A room with a creep on each tile inside, and four around it in which 48 creeps each stand one step from its border."""
    along = range(1, 49)
    sides = {"E4S5": [(48, n) for n in along], "E6S5": [(1, n) for n in along], "E5S4": [(n, 48) for n in along], "E5S6": [(n, 1) for n in along]}
    rooms = [room("E5S5", 3000, *[creep(0, 1 + at, tile, 2) for at, tile in enumerate(INSIDE)])]
    rooms += [room(name, 100, *[creep(index, 1 + at, tile, 1) for at, tile in enumerate(tiles)]) for index, (name, tiles) in enumerate(sides.items(), 1)]
    return world(*rooms, players=[{"player": number, "limit": 500} for number in (1, 2)])


def of_crossings(folder):
    it = crossing_world()
    ways = {1: 3, 2: 7, 3: 5, 4: 1}
    walking = Script([instruction for index, way in ways.items() for id in ids_of(it, 1, index) for instruction in unkept("move", id, way)])
    uploads = [Upload(0, 1, walking)]
    steps = played(it, 2, uploads)
    assert len(steps[0].world["rooms"][0]["objects"]) == len(INSIDE) + 192
    yield from of_steps(folder, "192 creeps that cross into a room", it, steps, uploads)


def of_last_serials(folder):
    """A room whose serials last for one tick more, in which it makes 2,496 things; and one whose serials don't last for a tick."""
    it = crowd(1, 1)
    it["rooms"][0]["next"] = LAST_NEXT
    uploads = [Upload(2, 1, Script(dropping(ids_of(it, 1))))]
    steps = played(it, 3, uploads)
    assert steps[1].world["rooms"][0]["next"] == LAST_NEXT and steps[2].world["rooms"][0]["next"] == LAST_NEXT + 2496
    yield from of_steps(folder, "the last serials", it, steps, uploads)
    put(folder, world=file_of(it), uploads=stream_of(uploads))
    yield refused("no serials are left", words_of(1), 10, "IdsExhausted 0", start_line(steps[-1].world).encode())
    it["rooms"][0]["next"] = 2**32 - 1
    put(folder, world=file_of(it), journal=None)
    yield Call("a next that is the greatest number", words_of(0), start_line(it).encode(), journal=gated([base_content(it)]))
    yield refused("its next tick", words_of(1), 10, "IdsExhausted 0", start_line(it).encode())


def of_many_objects(folder):
    """A world of 19,968 creeps whose players drop something with each: 39,936 objects, twice as many as a world file may have."""
    it = crowd(8, 5)
    uploads = [Upload(0, player, Script(dropping(ids_of(it, player), 10))) for player in range(1, 6)]
    steps = played(it, 2, uploads)
    last = steps[-1].world
    assert len(objects_of(last)) == 39_936
    yield from of_steps(folder, "39,936 objects", it, steps, uploads)
    put(folder, world=shown_world(last), journal=None)
    yield refused("the text of 39,936 objects", words_of(0), 3, "World Rule Counts 0")


def of_base_of_many(folder):
    """A journal whose base has 25,000 objects, which no world file may: it is shown and replayed."""
    it = crowd(11, 7)
    for place in it["rooms"]:
        place["objects"] = place["objects"][:2273]
    it["rooms"][0]["objects"] = it["rooms"][0]["objects"][: 25_000 - 10 * 2273]
    steps = played(it, 2)
    put(folder, journal=journal_of(it, steps))
    yield Call("a base of 25,000 objects, replayed", ["replay", JOURNAL], b"replayed 2\n")
    for at, place in enumerate([full(it), *(step.world for step in steps)]):
        yield Call(f"a base of 25,000 objects, its world {at} shown", ["show", JOURNAL, str(at)], shown_world(place))


def of_demo(folder):
    """10,001 ticks in memory print what a run of them comes to."""
    # (a disk would take its time for twenty thousand syncs)
    with tempfile.TemporaryDirectory(dir=PLACE) as place:
        put(place, **{part: ended(["gen", "7", "1", part], place).out for part in ("world", "uploads")})
        found = ended(words_of(10_001), place)
        wanted = found.out.splitlines(True)[-1] + b"journal %d\n" % os.path.getsize(os.path.join(place, JOURNAL))
    yield Call("10,001 ticks of a demo", ["demo", "7", "1", "10001"], wanted)


# ---- long files


def with_more(front, piece, end):
    """The small world's file with something at a key that nothing reads, of so many pieces that the file has 64 MiB."""
    head, tail = b'{"more":' + front, end + b"," + bytes_of(SMALL)[1:]
    count, rest = divmod(MOST_FILE - len(head) - len(tail), len(piece))
    return head + piece * count + tail + b" " * rest


def of_longest_files(folder):
    """World files of 64 MiB, and of a byte more. (Of lists and objects that are passed over a file may have so many that gigabytes are held for them;
    the numbers stand for these.)"""
    small, steps = bytes_of(SMALL), played(SMALL, 1)
    files = {
        "spaces": small + b" " * (MOST_FILE - len(small)),
        "one text": with_more(b'"', b"a", b'"'),
        "a text of escapes": with_more(b'"', b"\\u00e9", b'"'),
        "numbers": with_more(b"[0", b",0", b"]"),
        "keys": with_more(b'{"a":0', b',"b":0', b"}"),
        "ticks, of which the last counts": with_more(b"0", b',"tick":7', b""),
    }
    for name, content in files.items():
        assert len(content) == MOST_FILE
        put(folder, world=content, uploads=b"", journal=None)
        yield went_on(f"a world file of 64 MiB, {name}", SMALL, steps, journal_of(SMALL, steps))
    put(folder, world=files["spaces"] + b" ", journal=None)
    yield refused("a world file of a byte more", words_of(1), 3, "World TooLong")
    put(folder, world=b"[" * MOST_FILE)
    yield refused("a world file of brackets", words_of(1), 3, "World NotJson")
    put(folder, world=small)
    endless = "/dev/zero"
    yield refused("a world file without an end", words_of(1, [endless, *FILES[1:]]), 3, "World TooLong")
    yield refused("a stream without an end", words_of(1, [FILES[0], endless, FILES[2]]), 4, f"Uploads {MOST_STREAM}")
    yield refused("a module without an end", ["check", endless], 12, "Refused TooLarge", b"refused TooLarge\n")


def of_nobody(tick, count, length):
    return [Upload(tick, NOBODY, Refused("Malformed", bytes(length)))] * count


def of_long_frame(folder):
    """A tick whose frame has 70 MiB, written and read."""
    uploads = of_nobody(0, 70, MIB)
    yield from of_steps(folder, "a frame of 70 MiB", SMALL, played(SMALL, 3, uploads), uploads)


def of_entries(folder):
    """1,100,000 entries of an upload stream: all of a tick, all of later ones, and one that is bad behind them; and a stream of 256 MiB."""
    uploads = of_nobody(0, 1_100_000, 0)
    steps = played(SMALL, 1, uploads)
    put(folder, world=bytes_of(SMALL), uploads=stream_of(uploads), journal=None)
    yield went_on("1,100,000 entries of a tick", SMALL, steps, journal_of(SMALL, steps))
    yield Call("1,100,000 entries of a tick, replayed", ["replay", JOURNAL], b"replayed 1\n")
    later, steps = b"".join(upload_entry(tick, NOBODY, b"") for tick in range(5, 1_100_005)), played(SMALL, 2)
    put(folder, uploads=later, journal=None)
    yield went_on("1,100,000 entries of later ticks", SMALL, steps, journal_of(SMALL, steps))
    put(folder, uploads=later + upload_entry(4, NOBODY, b""), journal=None)
    yield refused("an entry behind 1,100,000 whose tick is less", words_of(2), 4, f"Uploads {len(later)}")
    put(folder, uploads=later + upload_entry(1 << 63, NOBODY, bytes(9))[:-1])
    yield refused("an entry behind 1,100,000 that is cut short", words_of(2), 4, f"Uploads {len(later)}")
    longest = upload_entry(5, NOBODY, b"") * (MOST_STREAM // 16)
    put(folder, uploads=longest)
    yield went_on("a stream of 256 MiB of later ticks", SMALL, steps, journal_of(SMALL, steps))
    put(folder, uploads=longest + b"\0", journal=None)
    yield refused("a stream of a byte more", words_of(2), 4, f"Uploads {MOST_STREAM}")
    put(folder, uploads=(struct.pack("<QII", 0, NOBODY, MOST_STREAM - 16), MOST_STREAM))
    steps = played(SMALL, 1, [Upload(0, NOBODY, Refused("TooLarge", bytes(MIB + 1)))])
    yield went_on("an upload of 256 MiB", SMALL, steps, journal_of(SMALL, steps))


# ---- long journals


def write_sparse(path, first, ticks, count):
    """Writes a journal of ticks in each of which so many uploads of nobody came, of a MiB of zeros each, for which the file takes no room."""
    last = first
    with open(path, "wb") as it:
        it.write(b"\1" + frame(base_content(first)))
        for step in played(first, ticks):
            content = tick_content(full(last), step)
            front, behind = content[:9] + struct.pack("<I", count), content[13:]
            head = upload_bytes(NOBODY, "UnknownPlayer", b"")[:-4] + struct.pack("<I", MIB)
            it.write(b"\1" + struct.pack("<Q", len(front) + count * (len(head) + MIB) + len(behind)) + front)
            for _ in range(count):
                it.write(head)
                it.seek(MIB, os.SEEK_CUR)
            it.write(behind)
            last = step.world
        it.write(b"\0")
    return last


def goes_on_with(path, length, last, steps):
    """That a journal is what it was up to its closed gate, the last of so many bytes, and has these steps behind it."""
    with open(path, "rb") as it:
        it.seek(length - 1)
        worlds, more = [last, *(step.world for step in steps)], b""
        for before, step in zip(worlds, steps):
            more += b"\1" + frame(tick_content(before, step))
        got = it.read(len(more) + 2)
    return [] if got == more + b"\0" else [f"behind its closed gate it has {shown(got)}, wanted {shown(more)}"]


def of_long_journal(folder):
    """A journal of 300 MiB, whose frames have 50 MiB each."""
    path = os.path.join(folder, JOURNAL)
    put(folder, world=bytes_of(SMALL), uploads=b"")
    last = write_sparse(path, SMALL, 6, 50)
    length, before = os.path.getsize(path), hash_of(path)
    assert length > 300 * MIB
    yield Call("a journal of 300 MiB, replayed", ["replay", JOURNAL], b"replayed 6\n")
    yield Call("a journal of 300 MiB, shown", ["show", JOURNAL, "6"], shown_world(last))
    steps = played(last, 2)
    yield went_on("a journal of 300 MiB, gone on with", last, steps, lambda path: goes_on_with(path, length, last, steps))
    with open(path, "r+b") as it:
        it.truncate(length)
        it.seek(length - 1)
        it.write(b"\0")
    checks.note("a journal of 300 MiB is as it was", [] if hash_of(path) == before else ["what stood has changed"])
    os.remove(path)


def of_hole(folder):
    """5 GiB behind a closed gate are no part of the journal: they are not read, and the next run cuts them off."""
    steps, path = played(SMALL, 3), os.path.join(folder, JOURNAL)
    kept = journal_of(SMALL, steps[:2])
    put(folder, world=bytes_of(SMALL), uploads=b"", journal=(kept, 5 * GIB))
    yield Call("5 GiB behind the closed gate, replayed", ["replay", JOURNAL], b"replayed 2\n")
    yield Call("5 GiB behind the closed gate, shown", ["show", JOURNAL, "2"], shown_world(steps[1].world))
    yield went_on("5 GiB behind the closed gate, gone on with", steps[1].world, steps[2:], journal_of(SMALL, steps))
    put(folder, journal=5 * GIB)
    yield refused("5 GiB of zeros, shown", ["show", JOURNAL, "0"], 15, "NoJournal")
    yield went_on("5 GiB of zeros, begun anew", SMALL, steps[:2], kept)
    os.remove(path)


def of_open_gates(folder):
    """Gates that are open before frames that don't lie in the file, or that lie there and are none."""
    kept = journal_of(SMALL, played(SMALL, 2))
    open_front, at = kept[:-1] + b"\1", len(kept) - 1
    files = {
        "an open gate before 5 GiB that aren't there": open_front + struct.pack("<Q", 5 * GIB) + bytes(100),
        "an open gate before 5 GiB, one byte of which isn't there": (open_front + struct.pack("<Q", 5 * GIB), len(open_front) + 8 + 5 * GIB - 1),
        "an open gate before 5 GiB, behind which no gate is": (open_front + struct.pack("<Q", 5 * GIB), len(open_front) + 8 + 5 * GIB),
        "an open gate before 2^63 bytes": open_front + struct.pack("<Q", 1 << 63),
        "an open gate before 2^64 - 1 bytes": (open_front + struct.pack("<Q", (1 << 64) - 1), 5 * GIB),
        "an open gate before 200 MiB of zeros": (open_front + struct.pack("<Q", 200 * MIB), len(open_front) + 8 + 200 * MIB + 1),
    }
    put(folder, world=bytes_of(SMALL), uploads=b"")
    for name, journal in files.items():
        put(folder, journal=journal)
        for what, words in (("gone on with", words_of(1)), ("shown", ["show", JOURNAL, "0"]), ("replayed", ["replay", JOURNAL])):
            yield refused(f"{name}, {what}", words, 8, f"NotAJournal {at}", sort=name if "200 MiB" in name else "an open gate before what isn't there")
    put(folder, journal=(b"\1" + struct.pack("<Q", 5 * GIB) + b"SWSJ\1\0\0\0", 5 * GIB))
    yield refused("a base of 5 GiB that isn't there", words_of(1), 8, "NotAJournal 0")
    put(folder, journal=None)


# ---- damaged journals


def changed_at(content, at, piece):
    return content[:at] + piece + content[at + len(piece) :]


def bases_of(it, content):
    """Contents that are no base, or whose world breaks a rule, each by the change of a few bytes of a base. Behind the first room's ground stands its
    form."""
    things, accounts = 20 + 2508 + 12, len(content) - sum(24 + len(account["memory"]) // 2 for account in it["players"])
    places = [things + at for at in offsets_of(it["rooms"][0]["objects"])]
    yield "other letters", changed_at(content, 0, b"SWSK")
    yield "another version", changed_at(content, 4, b"\2")
    yield "a tick above 2^53", changed_at(content, 8, struct.pack("<Q", 2**53 + 1))
    yield "no rooms", changed_at(content, 16, bytes(4))
    yield "401 rooms", changed_at(content, 16, struct.pack("<I", 401))
    yield "4,294,967,295 rooms", changed_at(content, 16, b"\xff" * 4)
    yield "a column of 128", changed_at(content, 20, struct.pack("<i", 128))
    yield "a tile of 3", changed_at(content, 28 + 2498, b"\3")
    yield "a corner that is no wall", changed_at(content, 28 + 2499, b"\0")
    yield "another room's index", changed_at(content, 28 + 2500, b"\1")
    yield "4,294,967,295 objects", changed_at(content, 20 + 2508 + 8, b"\xff" * 4)
    yield "an object less", changed_at(content, 20 + 2508 + 8, struct.pack("<I", len(places) - 1))
    yield "4,294,967,295 accounts", changed_at(content, accounts - 4, b"\xff" * 4)
    yield "65 accounts", changed_at(content, accounts - 4, struct.pack("<I", 65))
    yield "an account of player 0", changed_at(content, accounts, bytes(4))
    yield "a memory text of 65,537 bytes", changed_at(content, accounts + 20, struct.pack("<I", 65_537))
    yield "a byte more", content + b"\0"
    yield "a byte less", content[:-1]
    last = places[-1]
    yield "an id past the next", changed_at(content, last, struct.pack("<Q", 10_000))
    yield "ids that do not rise", changed_at(content, last, struct.pack("<Q", 1))
    yield "an object of kind 11", changed_at(content, last + 8, b"\x0b")
    yield "a road on the border", changed_at(content, last + 9, b"\0")
    yield "a road on another's tile", changed_at(content, last + 9, b"\1\1")
    yield "a road that is a player's", changed_at(content, last + 11, b"\1")
    yield "a road of 5,001 hits", changed_at(content, last + 15, struct.pack("<I", 5001))
    yield "a creep of a player who isn't listed", changed_at(content, places[0] + 11, struct.pack("<I", 99))
    site = next(place for place, one in zip(places, it["rooms"][0]["objects"]) if one["kind"] == "site" and one["owner"] == 2)
    yield "a 101st site of a player", changed_at(content, site + 11, b"\1")


def offsets_of(objects):
    """Where the forms of objects begin, in a room's list of them."""
    at = 0
    for one in objects:
        yield at
        at += 52 + len(one["body"])


def ticks_of(before, step, content):
    """Contents that are no tick behind this world, or whose world breaks a rule. The tick has no uploads, and the runs of two players whose records are
    full."""
    after, runs = step.world, 13 + 4
    second = runs + 18 + sum(27 - 1 + len(body[0] if body else ()) for _, _, *body in step.runs[0].entries.values())
    rooms = content.rindex(struct.pack("<III", 0, after["rooms"][0]["next"], len(after["rooms"][0]["objects"])))
    places = [rooms + 12 + at for at in offsets_of(after["rooms"][0]["objects"])]
    yield "another letter", changed_at(content, 0, b"U")
    yield "the tick of the one before", changed_at(content, 1, struct.pack("<Q", after["tick"] - 1))
    yield "4,294,967,295 uploads", changed_at(content, 9, b"\xff" * 4)
    yield "an upload of an empty module that is accepted", content[:9] + struct.pack("<I", 1) + upload_bytes(1, "accepted", b"") + content[13:]
    yield "an upload of a byte more than a mebibyte", content[:9] + struct.pack("<I", 1) + upload_bytes(1, "Malformed", bytes(MIB + 1)) + content[13:]
    yield "a run of a player who isn't listed", changed_at(content, second, struct.pack("<I", 99))
    yield "runs whose players do not rise", changed_at(content, second, struct.pack("<I", 1))
    yield "an outcome of 3", changed_at(content, second + 4, b"\3")
    yield "a trap of a run that finished", changed_at(content, second + 5, b"\1")
    yield "4,097 intents", changed_at(content, second + 14, struct.pack("<I", 4097))
    yield "an action of 23", changed_at(content, second + 18, b"\x17")
    yield "intents out of order", changed_at(content, second + 19, b"\xff" * 8)
    yield "an index of no room", changed_at(content, rooms, struct.pack("<I", 1))
    yield "a next of 0", changed_at(content, rooms + 4, bytes(4))
    yield "4,294,967,295 objects", changed_at(content, rooms + 8, b"\xff" * 4)
    yield "a byte more", content + b"\0"
    yield "a byte less", content[:-1]
    last = places[-1]
    yield "an id past the next", changed_at(content, last, struct.pack("<Q", 1 << 31))
    yield "ids that do not rise", changed_at(content, last, struct.pack("<Q", 1))
    yield "a last object on the border", changed_at(content, last + 9, b"\0")
    yield "a last object on another's tile", changed_at(content, last + 9, b"\1\1")
    yield "a last object that is a player's", changed_at(content, last + 11, b"\1")
    yield "a last object of the greatest hits", changed_at(content, last + 15, b"\xff" * 4)
    yield "a creep of a player who isn't listed", changed_at(content, places[0] + 11, struct.pack("<I", 99))


def of_damaged(folder):
    """Each refusal of a damaged journal, of one that has the full room in its base and its ticks."""
    it = full_room((1, 2))
    uploads = [Upload(0, player, Script(wanting(it, player, 0))) for player in (1, 2)]
    steps = played(it, 2, uploads)
    contents = contents_of(journal_of(it, steps))
    at = 1 + 8 + len(contents[0])
    second = at + 1 + 8 + len(contents[1])
    damages = [(f"base, {name}", gated([content, *contents[1:]]), 0) for name, content in bases_of(full(it), contents[0])]
    damages += [(f"last tick, {name}", gated([*contents[:2], content]), second) for name, content in ticks_of(steps[0].world, steps[1], contents[2])]
    damages += [("no gate at its end", gated(contents)[:-1], second), ("a byte of the last frame less", gated(contents)[:-2], second)]
    damages += [("the first tick left out", gated([contents[0], contents[2]]), at), ("a base behind the base", gated([contents[0], *contents[:2]]), at)]
    put(folder, world=file_of(it), uploads=stream_of(uploads))
    for name, journal, place in damages:
        put(folder, journal=journal)
        for what, words in (("gone on with", words_of(1)), ("shown", ["show", JOURNAL, "0"]), ("replayed", ["replay", JOURNAL])):
            yield refused(f"a damaged journal, {name}, {what}", words, 8, f"NotAJournal {place}", sort=f"a damaged journal, {what}")
    yield from of_others(folder, contents, steps[0].world["rooms"][0])


def of_others(folder, contents, after):
    """Journals that stand, and aren't what is asked for."""
    put(folder, journal=gated(contents))
    yield refused("a tick that isn't there", ["show", JOURNAL, "3"], 13, "NoSuchTick 0 2")
    yield refused("the last tick that can be asked for", ["show", JOURNAL, str(2**64 - 1)], 13, "NoSuchTick 0 2")
    other = full_room((1, 2))
    other["players"][1]["memory"] = "00"
    put(folder, world=file_of(other))
    place = next(at for at, (one, two) in enumerate(zip(contents[0], base_content(other))) if one != two)
    yield refused("another world", words_of(1), 9, f"OtherWorld {place} {contents[0][place]} {base_content(other)[place]}")
    # (the timer of the room's last object is one less than the rules make it)
    form = room_bytes(0, after)
    at = form.rindex(object_bytes(after["objects"][-1])) + 27
    kept = contents[1].rindex(form)
    put(folder, journal=gated([contents[0], changed_at(contents[1], kept + at, bytes([form[at] - 1]))]))
    yield refused("a tick that the rules don't make", ["replay", JOURNAL], 14, f"Differs 1 0 {at} {form[at] - 1} {form[at]}")


# ---- words


def long_path(name, length):
    """A path of so many bytes to a file of the folder."""
    return "./" * ((length - len(name)) // 2) + ("/" if (length - len(name)) % 2 else "") + name


def of_words(folder):
    """As many words as no command has, and paths as long as the system takes them."""
    steps = played(SMALL, 2)
    put(folder, world=bytes_of(SMALL), uploads=b"", journal=None)
    for count in (17, 10_000):
        for words in (["run"] * count, [*words_of(1), *["x"] * (count - 6)], ["--"] * count, ["--ticks"] * count):
            yield refused(f"{count} words, {words[0]} .. {words[-1]}", words, 2, "Usage", sort=f"{count} words")
    yield refused("a word of 100,000 bytes", ["run" * 33_333], 2, "Usage")
    paths = [long_path(name, LONGEST_PATH) for name in FILES]
    assert {len(path) for path in paths} == {LONGEST_PATH}
    yield Call("paths of 4,095 bytes, run", words_of(2, paths), output_of(SMALL, steps), journal=journal_of(SMALL, steps))
    yield Call("a path of 4,095 bytes, shown", ["show", paths[2], "2"], shown_world(steps[-1].world))
    yield Call("a path of 4,095 bytes, replayed", ["replay", paths[2]], b"replayed 2\n")
    yield refused("a world's path of 4,096 bytes", words_of(2, [long_path(WORLD, 4096), *FILES[1:]]), 5, "ReadFault")
    yield refused("a journal's path of 4,096 bytes", words_of(2, [*FILES[:2], long_path(JOURNAL, 4096)]), 7, "DiskFault")
    write_files(folder, {"module.wasm": writing(5).content})
    yield Call("the check of a module of a mebibyte by a path of 4,095 bytes", ["check", long_path("module.wasm", LONGEST_PATH)], b"accepted\n")


# ---- all of them

SHAPES = [
    of_full_world,
    of_full_room,
    of_crossings,
    of_last_serials,
    of_many_objects,
    of_base_of_many,
    of_demo,
    of_longest_files,
    of_long_frame,
    of_entries,
    of_long_journal,
    of_hole,
    of_open_gates,
    of_damaged,
    of_words,
]


def check(least):
    """Makes each call within its limit."""
    for shape in chosen(SHAPES, WORDS):
        with tempfile.TemporaryDirectory() as folder:
            for call in shape(folder):
                faults, _ = made(call, folder, most_memory(call, least))
                checks.note(call.name, faults)
    checks.finish()


def least_of(call, folder, least):
    """The least MiB, but for a thirty-second of it, beyond the least limit within which a call is done as it has to be. It is left as done."""
    again = Again(folder)

    def is_done(mib):
        again.back()
        return not made(call, folder, least + mib * MIB)[0]

    low, high = -1, 1
    while not is_done(high):
        low, high = high, 2 * high
        if high > 1 << 14:
            return None
    while high - low > max(1, high // 32):
        middle = (low + high) // 2
        low, high = (low, middle) if is_done(middle) else (middle, high)
    is_done(high)
    again.forget()
    return high


def measured(least):
    """Prints the greatest of the least limits of each sort of calls, as the lines of `MOST_MIB` are written."""
    print(f"# (the program begins with {least // MIB} MiB)")
    for shape in chosen(SHAPES, WORDS):
        found = {}
        with tempfile.TemporaryDirectory() as folder:
            for call in shape(folder):
                mib = least_of(call, folder, least)
                checks.note(call.name, [] if mib is not None else ["it is done under no limit"])
                found[call.sort] = max(found.get(call.sort, 0), mib or 0)
        for sort, mib in found.items():
            print(f'    "{sort}": {max(LEAST_MIB, mib + mib // 2 + 1)},  # {mib}', flush=True)
    checks.finish()


def main():
    with tempfile.TemporaryDirectory() as folder:
        least = None if "--without-limits" in WORDS else least_limit(folder)
    if least is None and "--without-limits" not in WORDS:
        sys.exit(f"{checks.path}: the program begins under no limit of memory")
    if "--measure" in WORDS:
        measured(least)
    else:
        check(least)


main()
