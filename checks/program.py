#!/usr/bin/env python3
"""Runs the built program over real files and compares all that it does: exit status, standard output and
standard error byte for byte, and each file of the folder that it runs in, before and after.

It runs behind `rt ci`, which builds crates/world_server/out/world_server. What is compared with comes from
a second, slow writing of the formats and of the tick in oracle/worlds.py, or from the documents: each example of
README.md and docs/ that calls the built program is run, and has to print what stands there (those of docs/faq.md by checks/walk.py); each that makes an
upload stream is run too, and has to make the file of the repository. What players do is the subject of checks/desk.py.
"""

import contextlib
import copy
import os
import re
import shutil
import subprocess
import sys
import tempfile

TOP = os.path.dirname(os.path.dirname(os.path.abspath(__file__)))
sys.path[:0] = [os.path.join(TOP, it) for it in ("oracle", "checks/harness")]
from checked_program import Checks, run, shown  # noqa: E402
from game import KINDS, MOST_SITES, SECOND  # noqa: E402
from module_bytes import HOST_CALLS, I32, OPENING, func_type, host_import, leb, listed, section  # noqa: E402
from worlds import (  # noqa: E402
    CLOSED,
    MIB,
    OPEN,
    SMALL,
    Run,
    Step,
    base_content,
    bytes_of,
    frame,
    full,
    grounds,
    journal_of,
    output_of,
    played,
    room,
    room_bytes,
    start_line,
    step_lines,
    text_of,
    thing,
    tick_content,
    ticked,
    upload_entry,
    world,
)

FULL = "/dev/full"
MOST_NEXT = 2**32 - 2**20
ROAD = KINDS.index("road") + 1

checks = Checks(__file__)
check, note = checks.check, checks.note


# ---- worlds


def journal(first, ticks):
    return journal_of(first, played(first, ticks))


def lines(first, ticks):
    return output_of(first, played(first, ticks))


WIDE = world(
    room("W3N7", 9, thing("pile", 8, 0, 20, energy=1), thing("source", 3, 1, 1, energy=3000, timer=300), thing("pile", 5, 1, 1, energy=3)),
    room(
        "E127S127",
        5,
        thing("source", SECOND + 1, 5, 5, energy=1499),
        thing("pile", SECOND + 4, 49, 7, energy=1_000_000_000),
        thing("pile", 7, 6, 6, energy=2000),
        terrain=grounds(tiles={5 * 50 + 5: "1", 30: "2"}),
    ),
    tick=2**53 - 7,
)


HELD = world(
    room(
        "E0S0",
        99,
        thing("controller", 4, 5, 5, owner=1, extra=1, timer=20000),
        thing("source", 1, 10, 10, energy=1500),
        thing("source", 2, 12, 12, energy=7, timer=2),
        thing("creep", 3, 20, 20, owner=1, body=["work", "carry", "move"], energy=50, timer=1500),
        thing("spawn", 5, 22, 20, owner=1, energy=300),
        thing("extension", 6, 23, 20, owner=2, hits=3),
        thing("storage", 7, 24, 20, owner=2, energy=9),
        thing("container", 8, 25, 20, timer=1),
        thing("road", 9, 26, 20, timer=1),
        thing("site", 10, 27, 20, owner=1, extra=8, progress=299),
    ),
    room("W0N0", 9, thing("controller", SECOND + 1, 5, 5, other=2, other_ticks=1), thing("source", SECOND + 2, 10, 10, timer=1)),
    room("W1N0", 9, thing("controller", 2 * SECOND + 1, 5, 5), thing("source", 2 * SECOND + 2, 10, 10, timer=1)),
    players=[
        {"player": 2, "token": "!~a", "limit": 500, "bucket": 9_000, "points": 2**53, "memory": "00ff7a"},
        {"player": 1, "limit": 0, "bucket": 3},
    ],
)


def refused(number, text):
    return f"fault {number} {text}\n".encode()


RUN = ["run", "world.json", "uploads.bin", "journal.bin", "--ticks", "1"]


def inputs(first=None, uploads=b"", **others):
    return {"world.json": bytes_of(SMALL) if first is None else first, "uploads.bin": uploads, **others}


def ticks(n):
    return [*RUN[:-1], str(n)]


STRANGERS = start_line(SMALL).encode() + b"upload player 0 refused UnknownPlayer\n" * 2 + step_lines(played(SMALL, 1)[0]).encode()


def strangers(count):
    """The journal of a tick with so many uploads of player 0, without bytes."""
    (step,) = played(SMALL, 1)
    return journal_of(SMALL, [Step([(0, "UnknownPlayer", b"")] * count, [], step.world)])


def check_forms():
    """Lengths and bytes that are worked out by hand."""
    base, tick = base_content(SMALL), tick_content(full(SMALL), played(SMALL, 1)[0])
    wanted = [(len(base), 2648), (len(tick), 141), (base[2611:2613], b"\xe9\x03"), (base[:8], b"SWSJ\1\0\0\0"), (tick[:9], b"T\1" + bytes(7))]
    wanted += [(len(journal(SMALL, 0)), 2658), (len(journal(SMALL, 1)), 2808), (journal(SMALL, 0), OPEN + frame(base) + CLOSED)]
    note("the forms of the journal's contents", [f"{got} and not {want}" for got, want in wanted if got != want])
    said = b"start tick 0 rooms 1 objects 2 players 0\ntick 1 objects 2 intents 0 energy 2499\n"
    note("the lines of the small world", [] if lines(SMALL, 1) == said else [f"{lines(SMALL, 1)}"])


def check_runs():
    check("a run of one tick", RUN, inputs(), 0, lines(SMALL, 1), after={"journal.bin": journal(SMALL, 1)})
    check("a run of no tick", ticks(0), inputs(), 0, lines(SMALL, 0), after={"journal.bin": journal(SMALL, 0)})
    check("a run of many ticks", ticks("0305"), inputs(), 0, lines(SMALL, 305), after={"journal.bin": journal(SMALL, 305)})
    check("uploads of nobody", RUN, inputs(uploads=bytes(32)), 0, after={"journal.bin": strangers(2)}, out=STRANGERS)
    check("an empty journal", RUN, inputs(**{"journal.bin": b""}), 0, lines(SMALL, 1), after={"journal.bin": journal(SMALL, 1)})
    check("two rooms", ticks(9), inputs(bytes_of(WIDE)), 0, lines(WIDE, 9), after={"journal.bin": journal(WIDE, 9)})
    check("all kinds, controllers and players", ticks(9), inputs(bytes_of(HELD)), 0, lines(HELD, 9), after={"journal.bin": journal(HELD, 9)})
    check("all kinds as they are written", RUN, inputs(text_of(HELD)), 0, lines(HELD, 1), after={"journal.bin": journal(HELD, 1)})
    check("a world as it is written", RUN, inputs(text_of(WIDE)), 0, lines(WIDE, 1), after={"journal.bin": journal(WIDE, 1)})
    other = {"one": bytes_of(WIDE), "two": b"", "world.json": bytes_of(SMALL), "uploads.bin": b"x", "journal.bin": b"kept"}
    words = ["run", "one", "two", "three", "--ticks", "2"]
    check("each path is the one that was given", words, other, 0, lines(WIDE, 2), after={"three": journal(WIDE, 2)})
    big = world(*[room(f"E{n % 20}S{n // 20}", 51, *[thing("pile", (n << 32) + k, k, 3, energy=10**9) for k in range(1, 49)]) for n in range(400)])
    check("400 rooms", RUN, inputs(bytes_of(big)), 0, lines(big, 1), after={"journal.bin": journal(big, 1)})


def check_refusals():
    made = {"journal.bin": b""}
    entry = upload_entry(3, 1, LOOP)
    streams = [
        (b"\0", 0),
        (b"uploads", 0),
        (bytes(100_001), 100_000),
        (entry[:-1], 0),
        (entry + entry[:-1], len(entry)),
        (entry + upload_entry(2, 1, LOOP), len(entry)),
        (upload_entry(1, 1, b"") + upload_entry(0, 1, b""), 16),
    ]
    for uploads, at in streams:
        check(f"uploads that are bad at {at}", RUN, inputs(uploads=uploads), 4, err=refused(4, f"Uploads {at}"), after=made)
    for kept, at in ((b"hello", 0), (journal(SMALL, 1)[:-1], 2657), (OPEN + CLOSED, 0)):
        files = inputs(**{"journal.bin": kept})
        check(f"a journal of {len(kept)} bytes", RUN, files, 8, err=refused(8, f"NotAJournal {at}"))
        check(f"a world file that is refused, and a journal of {len(kept)} bytes", RUN, {**files, "world.json": b""}, 3, err=refused(3, "World NotJson"))
    check("the world file before the uploads", RUN, inputs(b"", b"x"), 3, err=refused(3, "World NotJson"), after=made)
    check("the uploads before the journal", RUN, inputs(uploads=b"x", **{"journal.bin": b"kept"}), 4, err=refused(4, "Uploads 0"))
    check("good uploads, and a journal", RUN, inputs(uploads=entry, **{"journal.bin": b"kept"}), 8, err=refused(8, "NotAJournal 0"))


# The small world with a pile of one more, in ten rooms, and with a player.
OTHERS_OF_SMALL = (
    (world(room("E0S0", 3, thing("source", 1, 10, 10, timer=1), thing("pile", 2, 20, 20, energy=1002))), "2611 233 234"),
    (world(*SMALL["rooms"], tick=1), "8 0 1"),
    (world(*SMALL["rooms"], *[room(f"E{n}S0", 1) for n in range(1, 10)]), "16 1 10"),
    (world(*SMALL["rooms"], players=[{"player": 1, "limit": 0}]), "2644 0 1"),
)


def check_kept():
    """Journals that a run finds: it goes on with that of its world, and with one alone."""
    steps = played(SMALL, 5)
    for name, count, left in (("that ends in its gate", 2, b""), ("with bytes behind its gate", 2, b"what is left of a frame"), ("of no tick", 0, b"\1")):
        lines_of_rest = start_line(steps[count - 1].world if count else SMALL) + "".join(map(step_lines, steps[count:]))
        files = inputs(**{"journal.bin": journal(SMALL, count) + left})
        check(f"a journal {name}", ticks(5 - count), files, 0, lines_of_rest.encode(), after={"journal.bin": journal(SMALL, 5)})
        said = lines_of_rest.splitlines(keepends=True)[0].encode()
        check(f"a journal {name}, and no tick", ticks(0), files, 0, said, after={"journal.bin": journal(SMALL, count)})
    for kept in (b"", b"h", CLOSED, CLOSED + b"hello"):
        check(f"the empty journal {kept}", RUN, inputs(**{"journal.bin": kept}), 0, lines(SMALL, 1), after={"journal.bin": journal(SMALL, 1)})
    for other, said in OTHERS_OF_SMALL:
        at, kept, given = said.split()
        files = inputs(bytes_of(other), **{"journal.bin": journal(SMALL, 2)})
        check(f"a journal of another world, at {at}", RUN, files, 9, err=refused(9, f"OtherWorld {said}"))
        files = inputs(**{"journal.bin": journal(other, 2) + b"left"})
        cut = {"journal.bin": journal(other, 2)}
        check(f"another world's journal, at {at}", RUN, files, 9, err=refused(9, f"OtherWorld {at} {given} {kept}"), after=cut)


def check_serials():
    """Rooms that have used up their serials."""
    rooms = [room(f"E{n}S0", MOST_NEXT, thing("pile", (n << 32) + 1, 5, 5, energy=9000)) for n in range(3)]
    first = world(*rooms)
    check("rooms at their last serials", ticks(3), inputs(bytes_of(first)), 0, lines(first, 3), after={"journal.bin": journal(first, 3)})
    for at in range(3):
        past = copy.deepcopy(first)
        for place in past["rooms"][at:]:
            place["next"] = MOST_NEXT + 1
        kept = {"journal.bin": journal(past, 0)}
        check(f"room {at} has none left", ticks(3), inputs(bytes_of(past)), 10, lines(past, 0), refused(10, f"IdsExhausted {at}"), after=kept)
        check(f"room {at} has none left, and no tick", ticks(0), inputs(bytes_of(past)), 0, lines(past, 0), after=kept)


def changed(**keys):
    """The small world with keys of its parts changed; a key that is given None is taken out."""
    it = copy.deepcopy(SMALL)
    places = {"top": it, "room": it["rooms"][0], "source": it["rooms"][0]["objects"][0], "pile": it["rooms"][0]["objects"][1]}
    for place, values in keys.items():
        for key, value in values.items():
            if value is None:
                del places[place][key]
            else:
                places[place][key] = value
    return bytes_of(it)


def check_world_faults():
    made = {"journal.bin": b""}
    cases = [
        ("NotJson", b""),
        ("NotJson", b"{"),
        ("NotJson", b"\xff"),
        ("NotJson", bytes_of(SMALL) + b"x"),
        ("Missing Version", b"{}"),
        ("Missing Version", b"[]"),
        ("Missing Tick", changed(top={"tick": None})),
        ("Missing Rooms", changed(top={"rooms": None})),
        ("BadValue Version 0", changed(top={"version": 2})),
        ("BadValue Tick 0", changed(top={"tick": 2**53 + 1})),
        ("BadValue Tick 0", changed(top={"tick": -1})),
        ("BadValue Tick 0", changed(top={"tick": 1.0})),
        ("BadValue Rooms 0", changed(top={"rooms": {}})),
        ("Missing Player", changed(top={"players": [{}]})),
        ("Missing Name", changed(room={"name": None})),
        ("Missing Terrain", changed(room={"terrain": None})),
        ("Missing Next", changed(room={"next": None})),
        ("Missing Objects", changed(room={"objects": None})),
        ("BadValue Name 0", changed(room={"name": "E128S0"})),
        ("BadValue Name 0", changed(room={"name": "E00S0"})),
        ("BadValue Terrain 0", changed(room={"terrain": grounds()[:-1]})),
        ("BadValue Terrain 0", changed(room={"terrain": grounds(tiles={7: "3"})})),
        ("BadValue Next 0", changed(room={"next": 0})),
        ("BadValue Next 0", changed(room={"next": 2**32})),
        ("BadValue Objects 0", changed(room={"objects": 0})),
        ("Missing Id", changed(source={"id": None})),
        ("Missing Kind", changed(pile={"kind": None})),
        ("Missing X", changed(pile={"x": None})),
        ("Missing Y", changed(source={"y": None})),
        ("BadValue Id 1", changed(pile={"id": 0})),
        ("BadValue Kind 1", changed(pile={"kind": "heap"})),
        ("Rule Range 2", changed(pile={"kind": "creep"})),
        ("NotBuilt Tower", changed(pile={"kind": "tower"})),
        ("BadValue X 0", changed(source={"x": 50})),
        ("BadValue Y 1", changed(pile={"y": 50})),
        ("BadValue Owner 1", changed(pile={"owner": 2**32})),
        ("BadValue Body 0", changed(source={"body": ["leg"]})),
        ("BadValue Hits 0", changed(source={"hits": "1"})),
        ("BadValue Energy 1", changed(pile={"energy": 2**53 + 1})),
        ("BadValue Timer 0", changed(source={"timer": 2**32})),
        ("BadValue Extra 0", changed(source={"extra": []})),
        ("BadValue Progress 0", changed(source={"progress": 2**53 + 1})),
        ("BadValue Other 0", changed(source={"other": True})),
        ("BadValue OtherTicks 0", changed(source={"other_ticks": 2**32})),
        ("Rule Counts 0", bytes_of(world())),
        ("Rule RoomTwice 1", bytes_of(world(room("E0S0", 3), room("E0S0", 3)))),
        ("Rule Corner 0", changed(room={"terrain": grounds(tiles={2499: "0"})})),
        ("Rule Serial 3", changed(pile={"id": 3})),
        ("Rule Serial 4294967297", changed(pile={"id": SECOND + 1})),
        ("Rule IdTwice 2", changed(source={"id": 2})),
        ("Rule Tile 2", changed(room={"terrain": grounds(tiles={20 * 50 + 20: "1"})})),
        ("Rule Tile 1", changed(source={"x": 0})),
        ("Rule Shared 2", changed(pile={"kind": "source", "energy": 0, "x": 10, "y": 10})),
        ("Rule Owner 1", changed(source={"owner": 1})),
        ("Rule Range 1", changed(source={"energy": 3001})),
        ("Rule Range 1", changed(source={"energy": 3001}, pile={"x": 10, "y": 10})),
        ("Rule Range 2", changed(pile={"energy": 0})),
        ("Rule Range 2", changed(pile={"energy": 1_000_000_001})),
    ]
    for fault, content in cases:
        check(f"World {fault}", RUN, inputs(content), 3, err=refused(3, f"World {fault}"), after=made)
    # (64 MiB are read, and no byte more is looked at)
    check("World TooLong", RUN, inputs(64 * MIB + 1), 3, err=refused(3, "World TooLong"), after=made)
    check("64 MiB of zeros", RUN, inputs(64 * MIB), 3, err=refused(3, "World NotJson"), after=made)


def check_faults():
    made = {"journal.bin": b""}
    fault = refused(5, "ReadFault")
    lacking = {path: content for path, content in inputs().items() if path != "world.json"}
    check("no world file", RUN, lacking, 5, err=fault, after=made)
    check("no upload stream", RUN, {"world.json": bytes_of(SMALL)}, 5, err=fault, after=made)
    check("a folder as the world file", RUN, {**lacking, "world.json": None}, 5, err=fault, after=made)
    check("a folder as the upload stream", RUN, {**inputs(), "uploads.bin": None}, 5, err=fault, after=made)
    check("a world file that is refused, and no upload stream", RUN, {"world.json": b"x"}, 3, err=refused(3, "World NotJson"), after=made)
    check("a world file that is refused, and a folder as the upload stream", RUN, {"world.json": b"x", "uploads.bin": None}, 3, err=refused(3, "World NotJson"), after=made)
    with open(FULL, "wb") as sink:
        kept = {"journal.bin": journal(SMALL, 0)}
        check("a full standard output", ticks(7), inputs(), 6, err=refused(6, "WriteFault"), after=kept, stdout=sink)
    fault = refused(7, "DiskFault")
    check("a journal in no folder", [*RUN[:3], "none/journal.bin", *RUN[4:]], inputs(), 7, err=fault)
    check("a folder as the journal", [*RUN[:3], "none", *RUN[4:]], inputs(none=None), 7, err=fault)
    check("a journal that is full", [*RUN[:3], FULL, *RUN[4:]], inputs(), 7, err=fault)


# ---- the worlds of ticks

SHOW = ["show", "journal.bin"]


def check_shows():
    for name, first in (("the small world", SMALL), ("two rooms", WIDE), ("all kinds", HELD)):
        steps = played(first, 3)
        kept = {"journal.bin": journal_of(first, steps)}
        tick = first["tick"]
        for number, it in enumerate([first, *(step.world for step in steps)], tick):
            check(f"tick {number} of {name}", [*SHOW, f"0{number}"], kept, 0, out=text_of(it) + b"\n")
        outside = refused(13, f"NoSuchTick {tick} {tick + 3}")
        for number in (tick + 4, 2**64 - 1, *([tick - 1, 0] if tick else [])):
            check(f"tick {number} of {name}", [*SHOW, str(number)], kept, 13, err=outside)
    whole = journal(SMALL, 2)
    check("what stands behind the closed gate", [*SHOW, "2"], {"journal.bin": whole + b"\1tail"}, 0, out=text_of(played(SMALL, 2)[1].world) + b"\n")
    for kept in (b"", b"\0", b"\1", b"x", b"\0" + whole):
        check(f"the show of a journal in which nothing was recorded, of {len(kept)} bytes", [*SHOW, "0"], {"journal.bin": kept}, 15, err=refused(15, "NoJournal"))
    start, second = (len(journal(SMALL, count)) - 1 for count in (0, 1))
    faulty = [(b"hello", 0), (b"\1" + frame(b"hello") + b"\0", 0), (whole[:-1], second), (whole[: second + 20], second), (whole[: start + 5], start)]
    faulty += [(whole[:at] + b"\1" + whole[at:], at) for at in (start, second)]
    faulty.append((whole[:start] + whole[second:], start))
    for kept, at in faulty:
        check(f"the show of a journal of {len(kept)} bytes that is faulty at {at}", [*SHOW, "0"], {"journal.bin": kept}, 8, err=refused(8, f"NotAJournal {at}"))
    fault = refused(7, "DiskFault")
    check("the show of no file", [*SHOW, "0"], {}, 7, err=fault)
    check("the show of a folder", [*SHOW, "0"], {"journal.bin": None}, 7, err=fault)
    with open(FULL, "wb") as sink:
        check("a show, to a full standard output", [*SHOW, "1"], {"journal.bin": whole}, 6, err=refused(6, "WriteFault"), stdout=sink)
    dashed = {"-j": whole}
    for words in (["show", "--", "-j", "0"], ["show", "--", "-j", "0000"]):
        check(f"the words {words}", words, dashed, 0, out=text_of(SMALL) + b"\n")
    lists = [["show"], SHOW, [*SHOW, "0", "0"], [*SHOW, "0", "--ticks", "1"], ["show", "0"], ["show", "-j", "0"]]
    lists += [[*SHOW, number] for number in ("", "-1", "+1", str(2**64), "0x1", "1.0", "one")]
    for words in lists:
        check(f"the words {words}", words, {"journal.bin": whole}, 2, err=refused(2, "Usage"))


# ---- the ticks of a journal, ruled again

REPLAY = ["replay", "journal.bin"]


def differing(index, kept_world, ruled_world):
    """The fault line of a replay that finds the one world where the rules make the other, which differ in this room first."""
    kept, ruled = (room_bytes(index, it["rooms"][index]) for it in (kept_world, ruled_world))
    place = next(n for n in range(max(len(kept), len(ruled)) + 1) if kept[n : n + 1] != ruled[n : n + 1])
    one, other = (str(form[place]) if place < len(form) else "none" for form in (kept, ruled))
    return refused(14, f"Differs {kept_world['tick']} {index} {place} {one} {other}")


def other_tick(first, count, at, change):
    """The journal of some ticks of a world, of which one, counted from 0, has another world after it; with the fault line that a replay has to end with."""
    steps = played(first, count)
    world_after = copy.deepcopy(steps[at].world)
    index = change(world_after)
    fault = differing(index, world_after, steps[at].world)
    steps[at] = Step([], [], world_after)
    return journal_of(first, [*steps[: at + 1], *played(world_after, count - at - 1)]), fault


def richer(index, key, more):
    """A change of a world: so much more in this field of the last object of a room, or another next serial."""

    def change(it):
        place = it["rooms"][index]
        (place if key == "next" else place["objects"][-1])[key] += more
        return index

    return change


def crowded(count):
    """A world in which a player has a creep and so many sites, and the journal of a tick in which he makes one more, whether he may or not."""
    sites = [thing("site", at + 1, 1 + at % 48, 1 + at // 48, owner=1, extra=ROAD) for at in range(count)]
    creep = thing("creep", count + 1, 30, 30, owner=1, body=["move"], timer=1500)
    first = world(room("E0S0", count + 2, *sites, creep), players=[{"player": 1, "limit": 20}])
    runs = [Run(1, "finished", 0, b"", {("create_site", 50 * 20 + 20): (0, ROAD)})]
    return first, journal_of(first, [Step([], runs, ticked(full(first), runs))])


def with_site(it):
    """A world with a new site of player 1 in its second room, as an entry of his would make it."""
    it = copy.deepcopy(it)
    place = it["rooms"][1]
    place["objects"].append(full(world(room("E0S0", 2, thing("site", SECOND + place["next"], 20, 20, owner=1, extra=ROAD))))["rooms"][0]["objects"][0])
    place["next"] += 1
    return it


def without_site(it):
    """A world without the site of player 1 in its second room."""
    it = copy.deepcopy(it)
    it["rooms"][1]["objects"] = [one for one in it["rooms"][1]["objects"] if one["id"] != SECOND + 2]
    return it


SEEN_BY = {
    "nothing": (),
    "a site": (thing("site", SECOND + 3, 7, 7, owner=1, extra=8),),
    "a reservation": (thing("controller", SECOND + 3, 7, 7, other=1, other_ticks=9),),
    "a creep": (thing("creep", SECOND + 3, 7, 7, owner=1, body=["move"], timer=1500),),
    "an extension": (thing("extension", SECOND + 3, 7, 7, owner=1),),
    "a controller": (thing("controller", SECOND + 3, 7, 7, owner=1, extra=1, timer=20000),),
}


def check_sights():
    """Entries that make and remove a site of a player in a room that he sees, and in one in which he has nothing by which he does: journals by hand, in which the room is
    as the rules leave it, or as the others would."""
    making, removing = {("create_site", 2500 + 50 * 20 + 20): (0, ROAD)}, {("remove_site", SECOND + 2): (0, 0)}
    for name, owned in SEEN_BY.items():
        may = name in ("a creep", "an extension", "a controller")
        others = thing("creep", SECOND + 1, 5, 5, owner=2, body=["move"], timer=1500)
        players = [{"player": 1, "limit": 20}, {"player": 2, "limit": 20}]
        first = world(
            room("E0S0", 2, thing("creep", 1, 5, 5, owner=1, body=["move"], timer=1500)),
            room("E1S0", 4, others, thing("site", SECOND + 2, 9, 9, owner=1, extra=ROAD), *owned),
            players=players,
        )
        for what, entries, change in (("makes", making, with_site), ("removes", removing, without_site)):
            runs = [Run(1, "finished", 0, b"", entries)]
            still = ticked(full(first), [Run(1, "finished", 0, b"")])
            ruled, other = (change(still), still) if may else (still, change(still))
            assert ticked(full(first), runs) == ruled, (name, what)
            kept, differs = (journal_of(first, [Step([], runs, it)]) for it in (ruled, other))
            check(f"the replay of a tick in which an entry {what} a site, or doesn't, in a room in which its player has {name}", REPLAY, {"journal.bin": kept}, 0, out=b"replayed 1\n")
            check(f"the replay of the other world, where an entry {what} a site and its player has {name}", REPLAY, {"journal.bin": differs}, 14, err=differing(1, other, ruled))


def check_replays():
    for name, first in (("the small world", SMALL), ("two rooms", WIDE), ("all kinds", HELD)):
        for count in (0, 1, 5):
            check(f"the replay of {count} ticks of {name}", REPLAY, {"journal.bin": journal_of(first, played(first, count))}, 0, out=f"replayed {count}\n".encode())
    for first, at, change in ((SMALL, 0, richer(0, "energy", 1)), (SMALL, 2, richer(0, "next", 256)), (WIDE, 1, richer(1, "energy", 1)), (WIDE, 2, richer(0, "next", 1))):
        kept, fault = other_tick(first, 3, at, change)
        check(f"the replay of a journal with another tick {at}", REPLAY, {"journal.bin": kept}, 14, err=fault)
    for first, at in ((SMALL, 0), (SMALL, 2), (WIDE, 1)):
        kept, _ = other_tick(first, 3, at, richer(0, "hits", 2**31))
        fault = refused(8, f"NotAJournal {len(journal_of(first, played(first, at))) - 1}")
        check(f"the replay of a journal in which tick {at} breaks a rule of objects", REPLAY, {"journal.bin": kept}, 8, err=fault)
    for count in (MOST_SITES - 1, MOST_SITES):
        first, kept = crowded(count)
        ending = {"status": 0, "out": b"replayed 1\n"} if count < MOST_SITES else {"status": 8, "err": refused(8, f"NotAJournal {len(journal_of(first, [])) - 1}")}
        check(f"the replay of a tick in which a player of {count} sites makes one more", REPLAY, {"journal.bin": kept}, **ending)
    check_sights()
    past = world(room("E0S0", MOST_NEXT, thing("pile", 1, 5, 5, energy=9000)), room("E1S0", MOST_NEXT + 1, thing("pile", SECOND + 1, 5, 5, energy=9000)))
    check("the replay of a tick that no room could rule", REPLAY, {"journal.bin": journal_of(past, played(past, 1))}, 10, err=refused(10, "IdsExhausted 1"))
    check("the replay of no tick of such a world", REPLAY, {"journal.bin": journal_of(past, [])}, 0, out=b"replayed 0\n")
    whole = journal_of(SMALL, played(SMALL, 2))
    check("the replay of what stands before the closed gate", REPLAY, {"journal.bin": whole + b"\1tail"}, 0, out=b"replayed 2\n")
    for kept in (b"", b"\0", b"\1", b"x"):
        check(f"the replay of a journal in which nothing was recorded, of {len(kept)} bytes", REPLAY, {"journal.bin": kept}, 15, err=refused(15, "NoJournal"))
    for kept, at in ((b"hello", 0), (whole[:-1], len(journal_of(SMALL, played(SMALL, 1))) - 1)):
        check(f"the replay of a journal of {len(kept)} bytes that is faulty at {at}", REPLAY, {"journal.bin": kept}, 8, err=refused(8, f"NotAJournal {at}"))
    fault = refused(7, "DiskFault")
    check("the replay of no file", REPLAY, {}, 7, err=fault)
    check("the replay of a folder", REPLAY, {"journal.bin": None}, 7, err=fault)
    with open(FULL, "wb") as sink:
        check("a replay, to a full standard output", REPLAY, {"journal.bin": whole}, 6, err=refused(6, "WriteFault"), stdout=sink)
    for words in (["replay"], [*REPLAY, "0"], [*REPLAY, "--ticks", "1"], ["replay", "-j"]):
        check(f"the words {words}", words, {"journal.bin": whole}, 2, err=refused(2, "Usage"))


def check_words():
    path, paths = "module.wasm", RUN[1:4]
    orders = [
        ["run", "--ticks", "5", *paths],
        ["run", paths[0], "--ticks", "5", *paths[1:]],
        ["run", *paths[:2], "--ticks=5", paths[2]],
        ["run", *paths, "--ticks=0005"],
        ["run", "--ticks=5", "--", *paths],
        ["run", *paths[:2], "--ticks", "5", "--", paths[2]],
        ["run", *paths, "--ticks", "5", "--"],
    ]
    for words in orders:
        check(f"the words {words}", words, inputs(), 0, lines(SMALL, 5), after={"journal.bin": journal(SMALL, 5)})
    dashed = {"--ticks": bytes_of(SMALL), "--help": b"", "--": b""}
    words = ["run", "--ticks", "2", "--", "--ticks", "--help", "-three"]
    check("paths that begin with -", words, dashed, 0, lines(SMALL, 2), after={"-three": journal(SMALL, 2)})
    words = ["run", "--ticks", "2", "--", "--ticks", "--", "-three"]
    check("a path that is --", words, dashed, 0, lines(SMALL, 2), after={"-three": journal(SMALL, 2)})
    check("a path that is -", ["check", "-"], {"-": LOOP}, 0, b"accepted\n")
    check("a module that is --help", ["check", "--", "--help"], {"--help": LOOP}, 0, b"accepted\n")

    lists = [
        [],
        [""],
        ["help"],
        ["-h"],
        ["--"],
        ["--help", "run"],
        ["--help", "--help"],
        ["--version", "1"],
        ["Run", *RUN[1:]],
        ["run"],
        ["run", "-h"],
        ["run", "--help", "--help"],
        ["run", "--", "--help"],
        [*RUN, "--help"],
        [*RUN, "--version"],
        RUN[:-1],
        RUN[:-2],
        [*RUN, "1"],
        [*RUN, "-t", "1"],
        [*RUN, "-"],
        [*RUN, "--ticks", "1"],
        [*RUN, "--ticks=2"],
        [*RUN[:4], "--tick", "1"],
        [*RUN[:4], "--ticks"],
        [*RUN[:4], "--ticks", "--", "1"],
        [*RUN[:4], "--Ticks", "1"],
        [*RUN[:4], "-ticks", "1"],
        [*RUN[:4], "--", "--ticks", "1"],
        [*RUN[:3], "-three", "--ticks", "1"],
        ["--ticks", "1", "run", *paths],
        ["check"],
        ["check", path, path],
        ["check", path, "--ticks", "1"],
        ["check", "-m"],
        ["check", "--"],
        ["check", "--", path, path],
        ["serve"],
        [*RUN[:2], *RUN[4:]],
        ["run", b"\xff.json", *RUN[2:]],
    ]
    for number in ("", "1000001", "18446744073709551617", "-1", "+1", "1 ", " 1", "0x1", "1.0", "one"):
        lists += [[*RUN[:-1], number], [*RUN[:-2], f"--ticks={number}"]]
    for words in lists:
        files = inputs(**{path: LOOP})
        check(f"the words {words}", words, files, 2, err=refused(2, "Usage"))


def check_pages():
    """What the program says of itself. Its texts are compared in part: docs/hosting.md has their first and last lines."""
    pages = {
        ("--help",): [b"run WORLD UPLOADS JOURNAL --ticks N", b"serve WORLD JOURNAL --ticks N --links M --port P", b"check MODULE", b"gen SEED ROOMS PART", b"demo SEED ROOMS TICKS", b"show JOURNAL TICK", b"replay JOURNAL", b"The guide for hosts", b"the guide for players"],
        ("run", "--help"): [b"WORLD", b"UPLOADS", b"JOURNAL", b"--ticks N", b"--workers K", b"The guide for hosts"],
        ("serve", "--help"): [b"WORLD", b"JOURNAL", b"--ticks N", b"--links M", b"--port P", b"--workers K", b"--pace MS", b"The guide for hosts", b"the page on formats"],
        ("check", "--help"): [b"MODULE", b"The guide for players"],
        ("gen", "--help"): [b"SEED", b"ROOMS", b"PART", b"`world`", b"`uploads`", b"The guide for hosts", b"the page on formats"],
        ("show", "--help"): [b"JOURNAL", b"TICK", b"The guide for hosts", b"the page on formats"],
        ("demo", "--help"): [b"SEED", b"ROOMS", b"TICKS", b"The guide for hosts"],
        ("replay", "--help"): [b"JOURNAL", b"The guide for hosts"],
        ("--version",): [b"world_server 1\n"],
        ("run", "--version"): [b"world_server 1\n"],
        ("serve", "--version"): [b"world_server 1\n"],
        ("check", "--version"): [b"world_server 1\n"],
        ("gen", "--version"): [b"world_server 1\n"],
        ("show", "--version"): [b"world_server 1\n"],
        ("demo", "--version"): [b"world_server 1\n"],
        ("replay", "--version"): [b"world_server 1\n"],
    }
    for words, parts in pages.items():
        with tempfile.TemporaryDirectory() as folder:
            status, out, err = run(words, folder)
            left = os.listdir(folder)
        faults = [] if (status, err, left) == (0, b"", []) else [f"exit status {status}, standard error {shown(err)}, files {left}"]
        faults += [f"{part} doesn't stand there" for part in parts if part not in out]
        faults += [f"a line is too long: {shown(line)}" for line in out.split(b"\n") if len(line) > 112]
        note(f"the words {words}", faults if out.endswith(b"\n") else [*faults, "no line feed at the end"])
        with open(FULL, "wb") as sink:
            check(f"the words {words}, to a full standard output", words, inputs(), 6, err=refused(6, "WriteFault"), stdout=sink)


# ---- modules


NOTHING = b"\1\x60\0\0"


def exported(name):
    """Function 0 under this name."""
    return section(7, b"\1" + leb(len(name)) + name + b"\0\0")


def module(bodies, locals=b"\0", types=NOTHING, imports=b"", before=b"", exports=exported(b"loop"), elements=b"", data=b""):
    """A module of functions with these bodies, which take and give nothing but where there are other types."""
    codes = b"".join(leb(len(locals + body)) + locals + body for body in bodies)
    funcs = section(3, leb(len(bodies)) + b"\0" * len(bodies))
    return OPENING + section(1, types) + imports + funcs + before + exports + elements + section(10, leb(len(bodies)) + codes) + data


LOOP = module([b"\3\x40\x0c\0\x0b\x0b"])


def nest(depth):
    return module([b"\2\x40" * depth + b"\x0b" * (depth + 1)])


def padded(length):
    """The loop module and a custom section, so many bytes long."""
    rest = length - len(LOOP) - 4
    return LOOP + b"\0" + leb(rest).rjust(3, b"\0") + b"\1x" + bytes(rest - 2)


def with_data(offset, count):
    """A module of a memory of one page and a segment of so many bytes from here on."""
    segment = b"\1\0\x41" + offset + b"\x0b" + leb(count) + bytes(count)
    return module([b"\x0b"], before=section(5, b"\1\0\1"), data=section(11, segment))


def with_elements(offset, count):
    """A module of a table of ten entries and a segment of so many functions from here on."""
    segment = b"\1\0\x41" + offset + b"\x0b" + leb(count) + bytes(count)
    return module([b"\x0b"], before=section(4, b"\1\x70\0\x0a"), elements=section(9, segment))


def importing(*entries, types=(), **others):
    """A module with these imports, and a `loop` behind the functions among them."""
    kinds = listed([func_type(b"", b""), *types])
    functions = sum(kind == 0 for kind, _ in entries)
    exports = section(7, b"\1\4loop\0" + leb(functions))
    return module([b"\x0b"], types=kinds, imports=section(2, listed([it for _, it in entries])), **{"exports": exports, **others})


def of_host(name, desc):
    """An import from the host, of something."""
    return desc[0], host_import(name, 0)[:-2] + desc


HOST_TYPES = [func_type(*it) for it in HOST_CALLS.values()]
HOSTED = importing(*[(0, host_import(name, 1 + place)) for place, name in enumerate(HOST_CALLS)], types=HOST_TYPES)
TWICE = [(0, host_import("tick", 1)), (0, host_import("tick", 1))]


def check_modules():
    path = "module.wasm"
    accepted = [
        ("the loop module", LOOP),
        ("a module of one mebibyte", padded(MIB)),
        ("a nest of 200", nest(200)),
        ("10,000 functions", module([b"\x0b"] * 10_000)),
        ("65,536 locals", module([b"\x0b"], b"\1" + leb(65_536) + b"\x7f")),
        ("256 pages", module([b"\x0b"], before=section(5, b"\1\0" + leb(256)))),
        ("65,536 entries", module([b"\x0b"], before=section(4, b"\1\x70\0" + leb(65_536)))),
        ("an import of each call of the host", HOSTED),
        ("an import of a call, twice", importing(*TWICE, types=HOST_TYPES)),
        ("sign extensions", module([b"\x41\0\xc0\xc1\x1a\x42\0\xc2\xc3\xc4\x1a\x0b"])),
        ("data up to the end", with_data(leb(65_535), 1)),
        ("no data at the end", with_data(leb(65_536), 0)),
        ("elements up to the end", with_elements(b"\5", 5)),
    ]
    for name, content in accepted:
        files = {path: content, "other.wasm": b"other"}
        check(name, ["check", path], files, 0, b"accepted\n")
        with open(FULL, "wb") as sink:
            check(f"{name}, to a full standard output", ["check", path], files, 6, err=refused(6, "WriteFault"), stdout=sink)
    malformed = [
        ("no byte", b""),
        ("half the opening", OPENING[:4]),
        ("another version", b"\0asm\2\0\0\0"),
        ("a byte too many", LOOP + b"\0"),
        ("a byte too few", LOOP[:-1]),
        ("a nest of 100,000 that is cut", nest(100_000)[:-1]),
        ("an opcode that is none", module([b"\xc5\x0b"])),
        ("the opcode behind those of sign extension", module([b"\x41\0\xc5\x1a\x0b"])),
        ("one mebibyte of zeros", bytes(MIB)),
    ]
    for name, content in malformed:
        files = {path: content, "other.wasm": LOOP}
        check(name, ["check", path], files, 12, b"refused Malformed\n", refused(12, "Refused Malformed"))
    too_large = [
        ("a byte more than a mebibyte", padded(MIB + 1)),
        ("a hundred mebibytes of zeros", 100 * MIB),
        ("a nest of 201", nest(201)),
        ("a nest of 300,000", nest(300_000)),
        ("10,001 functions", module([b"\x0b"] * 10_001)),
        ("65,537 locals", module([b"\x0b"], b"\2\1\x7f" + leb(65_536) + b"\x7f")),
        ("257 pages", OPENING + section(5, b"\1\0" + leb(257))),
        ("65,537 entries", OPENING + section(4, b"\1\x70\0" + leb(65_537))),
    ]
    for name, content in too_large:
        files = {path: content, "other.wasm": LOOP}
        check(name, ["check", path], files, 12, b"refused TooLarge\n", refused(12, "Refused TooLarge"))
    floats = [
        ("a type with a float", bytes.fromhex("0061736D01000000010501 60017D00")),
        ("a constant that is a float", module([b"\x43\0\0\0\0\x1a\x0b"])),
        ("no local of a float type", module([b"\x0b"], b"\1\0\x7d")),
        ("a float in a module that is not valid", module([b"\x43\0\0\0\0\x0b"])),
    ]
    invalid = [
        ("a value left", module([b"\x41\0\x0b"])),
        ("a sign extension of another width", module([b"\x42\0\xc0\x1a\x0b"])),
        ("no value to drop", module([b"\x1a\x0b"])),
        ("an export of no function", OPENING + section(7, b"\1\1x\0\0")),
        ("an unknown label", module([b"\x0c\1\x0b"])),
        ("an import and a value left", module([b"\x41\0\x0b"], imports=section(2, b"\1\1m\1f\0\0"))),
    ]
    unknown = [
        ("an import of a function", importing((0, b"\1m\1f\0\0"))),
        ("an import of a memory", importing((2, b"\1m\1f\2\0\1"))),
        ("an import of no call of the host", importing((0, host_import("f", 0)))),
        ("an import of a call from another module", importing((0, b"\1m\4tick\0\1"), types=HOST_TYPES)),
        ("an import and no loop", importing((0, b"\1m\1f\0\0"), exports=b"")),
        ("a call of another type, and an import of no call", importing((0, host_import("tick", 2)), (0, b"\1m\1f\0\0"), types=HOST_TYPES)),
    ]
    kind = [
        ("a call of another type", importing((0, host_import("tick", 2)), types=HOST_TYPES)),
        ("a call that gives nothing", importing((0, host_import("tick", 0)))),
        ("a call with an argument more", importing((0, host_import("me", 1)), types=[func_type(I32, I32)])),
        ("a call that is a memory", importing(of_host("tick", b"\2\0\1"))),
        ("a call that is a table", importing(of_host("tick", b"\1\x70\0\1"))),
        ("a call that is a global", importing(of_host("tick", b"\3\x7e\0"))),
        ("a call of another type, and no loop", importing((0, host_import("tick", 0)), exports=b"")),
    ]
    no_loop = [
        ("the least module", OPENING),
        ("a function that is not exported", module([b"\x0b"], exports=b"")),
        ("a function that is exported as Loop", module([b"\x0b"], exports=exported(b"Loop"))),
        ("a loop with a parameter", module([b"\x0b"], types=b"\1\x60\1\x7f\0")),
        ("a loop with a result", module([b"\x41\0\x0b"], types=b"\1\x60\0\1\x7f")),
        ("a memory that is exported as loop", module([b"\x0b"], before=section(5, b"\1\0\1"), exports=section(7, b"\1\4loop\2\0"))),
    ]
    segments = [
        ("data a byte past the end", with_data(leb(65_536), 1)),
        ("no data past the end", with_data(leb(65_537), 0)),
        ("data at the last number", with_data(b"\x7f", 1)),
        ("elements past the end", with_elements(b"\5", 6)),
    ]
    refusals = {
        "FloatRefused": floats,
        "Invalid": invalid,
        "UnknownImport": unknown,
        "ImportKind": kind,
        "NoLoop": no_loop,
        "Segment": segments,
    }
    for refusal, list_ in refusals.items():
        for name, content in list_:
            files = {path: content, "other.wasm": LOOP}
            line = f"refused {refusal}\n".encode()
            check(name, ["check", path], files, 12, line, refused(12, f"Refused {refusal}"))
    fault = refused(5, "ReadFault")
    check("no module", ["check", path], {"other.wasm": LOOP}, 5, err=fault)
    check("a folder as the module", ["check", path], {path: None}, 5, err=fault)
    check("a path that begins with -", ["check", "--", "-m"], {"-m": LOOP}, 0, b"accepted\n")


# ---- the documents

CALL = "crates/world_server/out/world_server "
MAKER = "players/upload_stream.py "
SHOWERS = ("players/show_room.py ", "players/show_run.py ", "worlds/check_world.py ")
# What starts a server, uploads to it, asks or ends it, is run by checks/serve.py.
SERVED = (CALL + "serve worlds/", "players/upload.py ", "kill %1")

# How many examples each document has: one that is lost, or that is no longer found, is a fault as one too many is.
EXAMPLES = {"README.md": 6, "docs/hosting.md": 28, "docs/players.md": 25}

# What the other blocks of these documents begin with, and where they are run, if anywhere.
OF_PLAYERS, OF_PAGES, OF_GATE, OF_WALK = "checks/players.py", "checks/pages.py", ".ci/run", "checks/walk.py"
NOWHERE = "a form, or what takes a prover, a compiler for Rust or another machine"
OTHERS = {
    "README.md": {"rm -f proved.journal && (cd crates/world_server && rt run -- ": OF_WALK, ".ci/run": OF_GATE},
    "docs/hosting.md": {
        "world_server run WORLD ": NOWHERE,
        "world_server run --ticks N -- WORLD ": NOWHERE,
        "world_server check MODULE": NOWHERE,
        "world_server gen SEED ROOMS PART": NOWHERE,
        "world_server demo SEED ROOMS TICKS": NOWHERE,
        "world_server show JOURNAL TICK": NOWHERE,
        "world_server replay JOURNAL": NOWHERE,
        "world_server serve WORLD JOURNAL ": NOWHERE,
        "ssh -N -L 7777:127.0.0.1:7777 ": NOWHERE,
        "socat TCP-LISTEN:7777,": NOWHERE,
        "stream {": NOWHERE,
        "fault 3 World BadValue Energy 1": "checks/shown.py",
    },
    "docs/players.md": {
        "players/build.sh players/dropper.c": OF_PLAYERS,
        "clang --target=wasm32 ": OF_PLAYERS,
        '#include "path.h"': OF_PLAYERS,
        "players/show_page.py colonies.journal": OF_PAGES,
        "players/build_rust.sh players/gatherer.rs": NOWHERE,
    },
    "docs/faq.md": {'#include "screeps.h"': OF_PLAYERS, "players/build.sh logged.c": OF_WALK, "players/show_run.py logged.journal 1 1": OF_PLAYERS},
}


# What is run as one walk, since each step takes what the one before it made, and the first of them a compiler.
WALKED = ("docs/faq.md",)


def openings_of(text):
    """The first line of each indented block."""
    lines = [line for line in text.splitlines() if line.strip()]
    return [line.strip() for before, line in zip(["", *lines], lines) if line.startswith("    ") and not before.startswith("    ")]


def other_faults(text, others):
    """The blocks that are none of the examples and not among these, and those among these that the text doesn't have."""
    found = [line for line in openings_of(text) if line.startswith(tuple(others)) or not line.startswith((CALL, MAKER, *SHOWERS, *SERVED))]
    faults = [f"a block that nothing runs: {line}" for line in found if not line.startswith(tuple(others))]
    return faults + [f"no block begins with {start}" for start in others if not any(line.startswith(start) for line in found)]


def examples_of(text, others=()):
    """The calls of the program and of the scripts for players and for worlds in indented blocks, each with the lines that stand behind it in its
    block. What begins as one of these others is run elsewhere."""
    found, last = [], None
    for line in text.splitlines():
        is_call = line.startswith(tuple("    " + start for start in (CALL, MAKER, *SHOWERS)))
        if line.startswith("    ") and line.strip().startswith(SERVED) or is_call and line.strip().startswith(tuple(others)):
            last = None
        elif is_call:
            last = (line.strip(), [])
            found.append(last)
        elif line.startswith("    ") and last:
            last[1].append(line[4:])
        elif line.strip():
            last = None
    return found


def printed_faults(found, printed):
    """What is wrong of what an example printed, where these lines stand in the document. A line `..` stands for any others."""
    if ".." in printed:
        at = printed.index("..")
        lines, last = found.decode().splitlines(keepends=True), len(printed) - at - 1
        found = "".join([*lines[:at], "..\n", *lines[len(lines) - last :]]).encode() if len(lines) > at + last else found
    wanted = "".join(f"{line}\n" for line in printed).encode()
    return [] if found == wanted else [f"printed {shown(found)}, in the document {shown(wanted)}"]


def call_faults(call, printed, folder):
    """What is wrong of an example that calls the program, on what those before it in its document left. Behind the word > stands the file that it
    prints to."""
    words, _, path = call[len(CALL) :].partition(" > ")
    with open(os.path.join(folder, path), "wb") if path else contextlib.nullcontext() as sink:
        status, out, err = run(words.split(), folder, sink)
    faults = printed_faults(out + err, printed)
    # (a fault line says the exit status)
    said = re.match(rb"fault (\d+) ", err)
    return faults + ([] if status == (int(said[1]) if said else 0) else [f"exit status {status}"])


def maker_faults(call, printed, folder):
    """What is wrong of an example that makes an upload stream, which stands in the repository too."""
    words = call.split()
    made = words[words.index("-o") + 1]
    os.remove(os.path.join(folder, made))
    done = subprocess.run([sys.executable, *words], cwd=folder, stdin=subprocess.DEVNULL, stdout=subprocess.PIPE, stderr=subprocess.STDOUT, timeout=60)
    wanted = "".join(f"{line}\n" for line in printed).encode()
    faults = [] if (done.returncode, done.stdout) == (0, wanted) else [f"exit status {done.returncode}, printed {shown(done.stdout)}"]
    if not os.path.isfile(os.path.join(folder, made)):
        return [*faults, f"{made} is not made"]
    with open(os.path.join(folder, made), "rb") as one, open(os.path.join(TOP, made), "rb") as other:
        return faults if one.read() == other.read() else [*faults, f"{made} is not that of the repository"]


def shower_faults(call, printed, folder):
    """What is wrong of an example that shows what the journal of one before it has, or a world file. One that says a fault ends with the status 1."""
    done = subprocess.run([sys.executable, *call.split()], cwd=folder, stdin=subprocess.DEVNULL, stdout=subprocess.PIPE, stderr=subprocess.STDOUT, timeout=60)
    status = 1 if done.stdout.startswith(b"fault ") else 0
    return printed_faults(done.stdout, printed) + ([] if done.returncode == status else [f"exit status {done.returncode}"])


def check_documents():
    kinds = {CALL: call_faults, MAKER: maker_faults, **{start: shower_faults for start in SHOWERS}}
    paths = [os.path.join(TOP, "README.md")]
    paths += sorted(os.path.join(TOP, "docs", it) for it in os.listdir(os.path.join(TOP, "docs")) if it.endswith(".md"))
    for path in paths:
        document = os.path.relpath(path, TOP)
        with open(path, encoding="utf-8") as it:
            text = it.read()
        found = [] if document in WALKED else examples_of(text, OTHERS.get(document, ()))
        with tempfile.TemporaryDirectory() as folder:
            for part in ("worlds", "modules", "players"):
                shutil.copytree(os.path.join(TOP, part), os.path.join(folder, part))
            for call, printed in found:
                faults = next(of for start, of in kinds.items() if call.startswith(start))(call, printed, folder)
                note(f"{document}: {call}", faults)
        wanted = EXAMPLES.get(document, 0)
        note(f"the examples of {document}", [] if len(found) == wanted else [f"{len(found)} were found, and not {wanted}"])
        if document in OTHERS:
            note(f"the other blocks of {document}", other_faults(text, OTHERS[document]))


def main():
    check_forms()
    check_runs()
    check_refusals()
    check_kept()
    check_serials()
    check_world_faults()
    check_faults()
    check_shows()
    check_replays()
    check_words()
    check_pages()
    check_modules()
    check_documents()
    checks.finish()


if __name__ == "__main__":
    main()
