#!/usr/bin/env python3
"""Measures the ticks of two builds of the program beside each other: python3 bench/rooms.py PROGRAM OTHER_PROGRAM [--quick].

Run it in the repository's top folder once both are built (README.md). A tick's time is that of bench/players.py, the difference of runs of several
ticks and of one; the best of some rounds counts, in which the two programs run in turn, so that what else the machine does meets both. The ratio is the time
of the first program over that of the other.

The rows are the worlds of bench/whole.py, in which 64 players want all kinds of action in 400 rooms, with half and a quarter of it, and without
modules; the worlds of checks/inputs/moving_worlds.py and checks/inputs/fighting_worlds.py, of which some have 20,000 creeps with one entry each in
400 rooms; 400 rooms of 50 objects of bench/ticks.py, with a drop in each and with none; 400 rooms in which nothing is wanted and nothing changes; and
one room with as many objects as may stand there, in which nothing is wanted, or each creep drops something on its pile. Where the two write different
journals a line says so.

Where valgrind is installed further columns have what its callgrind counts of each program: the instructions of the processor in a tick, in millions, which
no noise touches, and the share of them that copies of tables take. Those are of the functions below, with all that they call; what the compiler has put
into other functions isn't seen. With --quick each row is run once, in fewer ticks, and these columns are left out.
"""

import os
import re
import shutil
import sys
import tempfile

TOP = os.path.dirname(os.path.dirname(os.path.abspath(__file__)))
sys.path[:0] = [os.path.join(TOP, it) for it in ("oracle", "checks/harness", "checks/inputs")]
from checked_program import content_of  # noqa: E402
from colony_worlds import FREE, PLAYERS, ROOMS, TICKS as WHOLE_TICKS, uploads_of, world_of  # noqa: E402
from fighting_worlds import SHAPES as FIGHT_SHAPES, Fight  # noqa: E402
from game import SECOND, thing  # noqa: E402
from moving_worlds import SHAPES as MOVE_SHAPES, Movement  # noqa: E402
from plain_worlds import of_rooms, players_of, road  # noqa: E402
from players import Bench  # noqa: E402
from ticks import TICKS, carrier, drops, scattered  # noqa: E402
from whole import ROUNDS, profiled  # noqa: E402
from worlds import bytes_of, room, world  # noqa: E402

# (what takes little is measured over more ticks)
IDLE_TICKS = 40
# A function copies where its name has one of these in it.
COPIES = ("copy", "copied", "filled")
COUNTED_TICKS = 3


# ---- worlds


class Row:
    """A world with its uploads, how many ticks behind the first are measured, and how many objects and entries there are in a tick."""

    def __init__(self, name, first, stream, objects, entries, ticks=TICKS):
        self.name, self.first, self.stream, self.objects, self.entries, self.ticks = name, first, stream, objects, entries, ticks


def unchanging():
    """400 rooms of 50 objects, of which no tick changes any: full sources and free controllers, extensions and storages."""
    rooms = []
    for index in range(ROOMS):
        at = index * SECOND
        objects = [thing("controller", at + 1, 25, 25), *[thing("source", at + 2 + place, 5 + place, 5, energy=1500) for place in range(2)]]
        objects += [thing("extension", at + 4 + place, 1 + place, 40, owner=1, energy=50, hits=1000) for place in range(46)]
        rooms.append([*objects, thing("storage", at + 50, 35, 35, owner=1, energy=500_000, hits=10_000)])
    return of_rooms(rooms, players_of(1))


def largest():
    """A room with a road on each inner tile, and a creep on a pile on every tile but its corners; and the creeps."""
    tiles = [(x, y) for x in range(50) for y in range(50) if not {x, y} <= {0, 49}]
    piles = [thing("pile", 2501 + place, *tile, energy=100_000_000) for place, tile in enumerate(tiles)]
    creeps = [{**carrier(1, 5001 + place, 0), "x": tile[0], "y": tile[1]} for place, tile in enumerate(tiles)]
    objects = [*[road(0, serial) for serial in range(1, 48 * 48 + 1)], *piles, *creeps]
    return bytes_of(world(room("E0S0", 8000, *objects), players=players_of(1))), len(objects), {1: [one["id"] for one in creeps]}


def whole_rows():
    for share in (4, 2, 1):
        players, rooms = PLAYERS // share, ROOMS // share
        first, calls = world_of(players, rooms, FREE // share)
        entries = sum(len(calls[number][1]) for number in calls)
        yield Row(f"{players} players in {rooms} rooms", first, uploads_of(calls), 50 * rooms, entries, WHOLE_TICKS)
    yield Row("the same, without modules", first, b"", 50 * rooms, 0, IDLE_TICKS)


def rows():
    yield from whole_rows()
    for shape in MOVE_SHAPES:
        it = Movement(shape)
        yield Row(f"moves: {shape.name}", it.world(), it.uploads(), it.objects(), it.entries())
    for shape in FIGHT_SHAPES:
        it = Fight(shape)
        yield Row(f"fights: {shape.name}", it.world(), it.uploads(), it.objects(), it.entries())
    first, owned = scattered(True)
    yield Row("400 rooms of 50 objects, a drop in each", first, drops(owned, 1), 20_000, 400)
    yield Row("400 rooms of 50 objects, nothing dropped", scattered(False)[0], b"", 20_000, 0, IDLE_TICKS)
    yield Row("400 rooms in which nothing changes", unchanging(), b"", 20_000, 0, IDLE_TICKS)
    first, objects, owned = largest()
    yield Row("the largest room, nothing wanted", first, b"", objects, 0, IDLE_TICKS)
    yield Row("the largest room, each creep drops", first, drops(owned, 1), objects, len(owned[1]))


# ---- times


def beside(benches, more):
    """Seconds of a tick of each program, and whether all write the same journal."""
    best, journals = {}, []
    for number in range(benches[0].rounds):
        for bench in benches if number % 2 == 0 else benches[::-1]:
            for ticks in (1, 1 + more):
                best[bench, ticks] = min(best.get((bench, ticks), 1e9), bench.once(ticks)[0])
            journals += [content_of(bench.path("journal"))] if number == 0 else []
    return [(best[bench, 1 + more] - best[bench, 1]) / more for bench in benches], journals[0] == journals[1]


# ---- instructions


def is_copy(name):
    return any(word in name for word in COPIES)


def counted(path):
    """Of what callgrind counted all instructions, and those of functions that copy with all that they call."""
    names, at, of_call, whole, found = {}, {}, False, 0, 0
    with open(path) as lines:
        for line in lines:
            named = re.match(r"(c?fn)=\((\d+)\)(?: (.*))?", line)
            if named:
                # (a name stands where its number comes first)
                names.setdefault(named[2], named[3])
                at[named[1]] = names[named[2]]
            elif line.startswith("calls="):
                of_call = True
            elif re.match(r"[0-9+*-]", line):
                count, within = int(line.split()[1]), is_copy(at["fn"])
                whole += 0 if of_call else count
                # (what one of them calls is in what called it first)
                found += count if of_call and is_copy(at["cfn"]) and not within else 0
                of_call = False
    return whole, found


def instructions(bench):
    """The instructions of a tick, and the share of them that copies take."""
    (one, few), (more, many) = (counted(profiled(bench, ticks)) for ticks in (1, 1 + COUNTED_TICKS))
    return (more - one) / COUNTED_TICKS, (many - few) / (more - one)


HEAD = f"{'a tick of':40}{'objects':>8}{'entries':>8}{'ms':>9}{'other':>9}{'ratio':>7}"
COUNTED_HEAD = f"{'M instr.':>10}{'other':>9}{'ratio':>7}{'copies':>8}{'other':>8}"


def ratio(one, other):
    return f"{one / other:7.3f}" if other > 0 else f"{'':7}"


def measure(benches, row, is_counted):
    benches[0].put("world", row.first)
    benches[0].put("uploads", row.stream)
    (one, other), same = beside(benches, min(row.ticks, 3) if benches[0].quick else row.ticks)
    line = f"{row.name:40}{row.objects:8,}{row.entries:8,.0f}{one * 1e3:9.3f}{other * 1e3:9.3f}{ratio(one, other)}"
    if is_counted:
        (one, copies), (other, others) = map(instructions, benches)
        line += f"{one / 1e6:10.2f}{other / 1e6:9.2f}{ratio(one, other)}{100 * copies:7.1f}%{100 * others:7.1f}%"
    print(line, flush=True)
    if not same:
        print("    the two programs write different journals", flush=True)


def main():
    words = [word for word in sys.argv[1:] if word != "--quick"]
    if len(words) != 2 or not all(map(os.path.isfile, words)):
        sys.exit("no two programs: python3 bench/rooms.py PROGRAM OTHER_PROGRAM [--quick]")
    quick = "--quick" in sys.argv
    is_counted = not quick and shutil.which("valgrind") is not None
    place = "/dev/shm" if os.path.isdir("/dev/shm") else None
    with tempfile.TemporaryDirectory(dir=place) as folder:
        # (both take turns in one folder)
        benches = [Bench(os.path.abspath(word), folder, quick) for word in words]
        for bench in benches:
            bench.rounds = 1 if quick else ROUNDS
        print(HEAD + (COUNTED_HEAD if is_counted else ""), flush=True)
        for row in rows():
            measure(benches, row, is_counted)


if __name__ == "__main__":
    main()
