#!/usr/bin/env python3
"""Measures the rules of a tick in the built program: python3 bench/ticks.py PROGRAM [--quick] [--works] [--moves] [--fights].

Run it in the repository's top folder once the program is built (README.md). A tick's time is that of bench/players.py: the difference of
runs of several ticks and of one. Where players drop, the same players make the same calls in a second run, each for more than the creep
carries, so that all are refused by their last check and nothing is recorded: the difference is what the entries take, from the record to the
last step of upkeep and the journal.

The rows are shapes that a world can have: many objects without entries, one entry in each room, rooms full of creeps on full piles, creeps that each
make a pile whose id comes behind all others or in front of them, one pile among few and among many objects, and players who all see the same rooms.
The second table has rooms in which 1,000 creeps each do one thing in every tick (checks/inputs/working_worlds.py), in one room and over 400, beside
the same worlds with an empty `loop` and with the same calls all refused. What an entry takes is there what its call and its rule take together, less
that of the empty `loop`; it should be at most a microsecond, and in no shape more than three times that in another.

The third table has worlds whose creeps move (checks/inputs/moving_worlds.py), in the same columns: rooms that are full of them, in rings and chains,
against walls and all onto few tiles, 20,000 creeps in 400 rooms, and a crosser at each exit. There the same calls are refused because the creeps are
tired.

The fourth table has worlds whose creeps fight (checks/inputs/fighting_worlds.py), in the same columns: a room full of creeps that each attack all
around, groups that shoot one and heal him, and 20,000 creeps that strike each other. A line says what a mass attack takes for each object in its
range. Then come rooms of creeps with full loads that all die of age in one tick, beside the same that live on, and what each death takes; for one
room alone, whose deaths are all in one tick that is measured once, that is hardly more than noise.

Where crates/world_bench is built, a line says what a copy of the tables of 400 rooms takes, to hold the tick without entries against.
Where valgrind is installed the last table has the allocations of a tick and their bytes, by the difference of runs of
three ticks and of one. With --quick each row is run once, in fewer ticks, and there is no last table. With --works there is the second
table alone, with --moves the third, and with --fights the fourth.
"""

import os
import re
import shutil
import subprocess
import sys
import tempfile
import time

TOP = os.path.dirname(os.path.dirname(os.path.abspath(__file__)))
sys.path[:0] = [os.path.join(TOP, it) for it in ("oracle", "checks/inputs")]
from fighting_worlds import SHAPES as FIGHT_SHAPES, Fight, dying, pairs_in_range  # noqa: E402
from game import SECOND, thing  # noqa: E402
from moving_worlds import SHAPES as MOVE_SHAPES, Movement  # noqa: E402
from plain_worlds import EMPTY, TILES, for_each, of_rooms, players_of, road, together  # noqa: E402
from players import Bench  # noqa: E402
from scripts import Script, unkept  # noqa: E402
from working_worlds import SHAPES, Work  # noqa: E402
from worlds import bytes_of, upload_entry  # noqa: E402

TICKS = 20


def pile(index, serial, tile):
    x, y = TILES[tile]
    return thing("pile", index * SECOND + serial, x, y, energy=100_000_000)


def carrier(owner, id, tile):
    x, y = TILES[tile]
    return thing("creep", id, x, y, owner=owner, body=["carry"] * 2, energy=100, timer=1500)


def drops(owned, amount):
    """The uploads of players who each tick drop so much of each of their creeps."""
    stream = b""
    for number, ids in sorted(owned.items()):
        calls = [instruction for id in ids for instruction in unkept("drop", id, amount)]
        stream += upload_entry(0, number, Script(calls, pages=None).content)
    return stream


def scattered(with_creeps):
    """400 rooms of 50 objects, of which one is a creep that stands on a pile or not."""
    rooms, owned = [], {1: []}
    for index in range(400):
        objects = [pile(index, 1, 0), *[road(index, serial) for serial in range(3, 51)]]
        objects.append(carrier(1, index * SECOND + 2, 0) if with_creeps else road(index, 51))
        owned[1] += [index * SECOND + 2] if with_creeps else []
        rooms.append(objects)
    return of_rooms(rooms, players_of(1)), owned


def crowds():
    """8 rooms of 1,200 creeps on 1,200 piles, of 4 players."""
    rooms, owned = [], {number: [] for number in range(1, 5)}
    for index in range(8):
        objects = []
        for tile in range(1200):
            id = index * SECOND + 1201 + tile
            objects += [pile(index, 1 + tile, tile), carrier(index // 2 + 1, id, tile)]
            owned[index // 2 + 1].append(id)
        rooms.append(objects)
    return of_rooms(rooms, players_of(4)), owned


def newcomers(birth):
    """A room of 2,304 creeps that were born in the room of this index, each on a tile of its own without a pile."""
    ids = [birth * SECOND + serial for serial in range(1, 2305)]
    creeps = [carrier(1, id, tile) for tile, id in enumerate(ids)]
    return of_rooms([creeps, []], players_of(1)), {1: ids}


def one_among(objects):
    """8 rooms of so many objects, in each of which a creep stands on a pile: one room for each player."""
    rooms, owned = [], {}
    for index in range(8):
        it = [pile(index, 1, 0), carrier(index + 1, index * SECOND + 2, 0)]
        it += [road(index, serial) for serial in range(3, objects + 1)]
        rooms.append(it)
        owned[index + 1] = [index * SECOND + 2]
    return of_rooms(rooms, players_of(8)), owned


def row(bench, name, first, objects, owned):
    entries = sum(len(ids) for ids in owned.values())
    tick, _ = bench.tick(first, drops(owned, 1) if entries else b"", TICKS)
    each = ""
    if entries:
        refused, _ = bench.tick(first, drops(owned, 1_000_000), TICKS)
        each = f"{(tick - refused) * 1e9 / entries:13,.0f}"
    print(f"{name:52}{objects:9,}{entries:9,}{tick * 1e3:10.2f}{tick * 1e9 / objects:14,.0f}{each}", flush=True)


def entry_head(what):
    print(f"{what:34}{'objects':>8}{'entries':>8}{'tick ms':>9}{'empty':>9}{'refused':>9}{'ns an entry':>13}{'its rule':>12}{'its refusal':>12}")


def entry_row(bench, name, it, other):
    """A row of a world whose creeps act, beside the other in which their calls are refused: nanoseconds an entry."""
    tick, _ = bench.tick(it.world(), it.uploads(), TICKS)
    empty, _ = bench.tick(it.world(), for_each(len(it.players), EMPTY), TICKS)
    refused, _ = bench.tick(other.world(), other.uploads(), TICKS)
    each, ruled, called = ((more - less) * 1e9 / it.entries() for more, less in ((tick, empty), (tick, refused), (refused, empty)))
    print(f"{name:34}{it.objects():8,}{it.entries():8,.0f}{tick * 1e3:9.2f}{empty * 1e3:9.2f}{refused * 1e3:9.2f}{each:13,.0f}{ruled:12,.0f}{called:12,.0f}", flush=True)
    return each


def work_row(bench, shape, rooms):
    name = f"{shape.name}, {rooms} room{'s' if rooms > 1 else ''}"
    return entry_row(bench, name, Work(shape, rooms), Work(shape, rooms, refused=True))


def moves(bench):
    """Creeps that all move, and that can't."""
    entry_head("creeps that move")
    for shape in MOVE_SHAPES:
        entry_row(bench, shape.name, Movement(shape), Movement(shape, refused=True))


def fights(bench):
    """Creeps that all fight, and that can't; and those that die."""
    entry_head("creeps that fight")
    for shape in FIGHT_SHAPES:
        it = Fight(shape)
        each = entry_row(bench, shape.name, it, Fight(shape, refused=True))
        if shape is FIGHT_SHAPES[0]:
            around = pairs_in_range(it.rooms[0]) / it.entries()
            print(f"    with {around:.1f} objects in its range on the average a mass attack takes {each / around:.1f} ns for each")
    print(f"{'creeps that die with full loads':44}{'objects':>8}{'deaths':>8}{'tick ms':>9}{'none dies':>11}{'ns a death':>12}")
    death_row(bench, "one room in one tick", [2])
    death_row(bench, "one room, the piles in front of all ids", [2], [1])
    death_row(bench, "eight rooms in one tick", [2] * 8)
    death_row(bench, "eight rooms, one after the other", range(2, 10))


def death_row(bench, name, timers, births=None):
    """Rooms of creeps whose timers come to their end from the second tick on, beside those that live on."""
    # (with --quick the tick after the first one and two more are played at most)
    ticks, objects = min(max(timers) - 1, 3 if bench.quick else TICKS), len(timers) * len(TILES)
    deaths = sum(it <= 1 + ticks for it in timers) * len(TILES) / ticks
    dies, _ = bench.tick(bytes_of(dying(timers, births)), b"", ticks)
    lives, _ = bench.tick(bytes_of(dying([1500] * len(timers), births)), b"", ticks)
    print(f"{name:44}{objects:8,}{deaths:8,.0f}{dies * 1e3:9.2f}{lives * 1e3:11.2f}{(dies - lives) * 1e9 / deaths:12,.0f}", flush=True)


def works(bench):
    """1,000 creeps that each do one thing, and whether no entry takes more than it should."""
    entry_head("1,000 creeps")
    found = {(shape.name, rooms): work_row(bench, shape, rooms) for shape in SHAPES for rooms in (1, 400)}
    most, least = max(found, key=found.get), min(found, key=found.get)
    times = found[most] / found[least] if found[least] > 0 else float("inf")
    print(f"the most {found[most]:,.0f} ns ({most[0]}, {most[1]}), the least {found[least]:,.0f} ns ({least[0]}, {least[1]}): {times:.1f} times")
    print(f"{'within' if found[most] <= 1000 and times <= 3 else 'past'} the bar of 1,000 ns and 3 times")


def heap(bench, ticks):
    """How often a run of so many ticks asked for memory, and for how many bytes."""
    ran = subprocess.run(["valgrind", *bench.command(ticks)], capture_output=True, text=True, check=True)
    found = re.search(r"total heap usage: ([0-9,]+) allocs, [0-9,]+ frees, ([0-9,]+) bytes", ran.stderr)
    return [int(number.replace(",", "")) for number in found.groups()]


def allocations(bench, name, first, stream, objects):
    bench.put("world", first)
    bench.put("uploads", stream)
    one, three = heap(bench, 1), heap(bench, 3)
    times, size = [(more - less) / 2 for less, more in zip(one, three)]
    print(f"{name:52}{objects:9,}{times:12,.0f}{size / objects:18,.0f}", flush=True)


def copies(first):
    """What a copy of the tables of a world takes, by world_bench where it is built: copying them a hundred times, less reading the world."""
    program = os.path.join(TOP, "crates", "world_bench", "out", "world_bench")
    if not os.path.isfile(program):
        print("a copy of the tables is not measured: crates/world_bench is not built")
        return
    with tempfile.NamedTemporaryFile() as file:
        file.write(first)
        file.flush()
        best = {}
        for what in ("world", "copies") * 3:
            begun = time.perf_counter()
            subprocess.run([program, what, file.name], stdout=subprocess.DEVNULL, check=True)
            best[what] = min(best.get(what, 1e9), time.perf_counter() - begun)
    print(f"a copy of the tables of 400 rooms of 50 objects: {(best['copies'] - best['world']) * 10:.2f} ms")


def main():
    words = [word for word in sys.argv[1:] if word not in ("--quick", "--works", "--moves", "--fights")]
    if len(words) != 1 or not os.path.isfile(words[0]):
        sys.exit("no program: python3 bench/ticks.py PROGRAM [--quick] [--works] [--moves] [--fights]")
    place = "/dev/shm" if os.path.isdir("/dev/shm") else None
    with tempfile.TemporaryDirectory(dir=place) as folder:
        bench = Bench(os.path.abspath(words[0]), folder, "--quick" in sys.argv)
        alone = [table for word, table in (("--works", works), ("--moves", moves), ("--fights", fights)) if word in sys.argv]
        for table in alone:
            table(bench)
        if alone:
            return
        print(f"{'shape':52}{'objects':>9}{'entries':>9}{'tick ms':>10}{'ns an object':>14}{'ns an entry':>13}")
        row(bench, "400 rooms of 50 objects, nothing dropped", scattered(False)[0], 20_000, {})
        row(bench, "400 rooms of 50 objects, a drop in each", scattered(True)[0], 20_000, scattered(True)[1])
        row(bench, "8 rooms of 1,200 creeps on 1,200 piles, all drop", crowds()[0], 19_200, crowds()[1])
        row(bench, "2,304 creeps, each a new pile behind all ids", newcomers(0)[0], 2_304, newcomers(0)[1])
        row(bench, "2,304 creeps, each a new pile in front of all ids", newcomers(1)[0], 2_304, newcomers(1)[1])
        row(bench, "8 rooms of 10 objects, a drop onto a pile in each", one_among(10)[0], 80, one_among(10)[1])
        row(bench, "8 rooms of 2,300 objects, the same", one_among(2300)[0], 18_400, one_among(2300)[1])
        idle, _ = bench.tick(together(64, 300), b"", TICKS)
        seen, _ = bench.tick(together(64, 300), for_each(64, EMPTY), TICKS)
        copies(scattered(False)[0])
        print(f"64 players in each of 300 rooms, idle and with empty loops: {idle * 1e3:.2f} and {seen * 1e3:.2f} ms")
        for table in (works, moves, fights):
            print()
            table(bench)
        if bench.quick or not shutil.which("valgrind"):
            return
        print()
        print(f"{'shape':52}{'objects':>9}{'allocations':>12}{'bytes an object':>18}")
        allocations(bench, "400 rooms of 50 objects, nothing dropped", scattered(False)[0], b"", 20_000)
        allocations(bench, "400 rooms of 50 objects, a drop in each", scattered(True)[0], drops(scattered(True)[1], 1), 20_000)
        allocations(bench, "8 rooms of 1,200 creeps on 1,200 piles, all drop", crowds()[0], drops(crowds()[1], 1), 19_200)


if __name__ == "__main__":
    main()
