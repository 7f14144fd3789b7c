#!/usr/bin/env python3
"""Measures a tick room by room against the same tick of the whole world at once: python3 bench/both_ways.py PROGRAM TWICE [--quick | --counted].

Run it in the repository's top folder once both are built (README.md). TWICE is the program with one function more, which `Hosted::tick` of hosted_tick
calls before `next_world` of room_step, and which makes the tick once more and drops it: of a world before tick 1,048,576 as `replay` does, by `tick_plain`;
of a later one by `intents_by_room` and `next_world`, on a copy of the world, as `tick_plain` works on one. What TWICE takes beyond PROGRAM is the time of
that way, the copy and the choice of the entries with it:

    fn once_more(alloc: Global, world: &World, runs: &[PlayerRun]) -> Result<(), NoMemory>
        requires tick { world.now.tick < 2 ^ 64 - 1 }
        requires hosted { IsHosted world.now }
        requires few { length (intents_of runs.now) ≤ 2 ^ 18 }
        requires serials { HaveSerials world.now.rooms }
    {
        let wanted = all_intents(alloc, runs)?;
        if world.tick() < 1 << 20 {
            let _whole = tick_plain(alloc, world, &wanted)?;
        } else {
            let roster = Roster::of(alloc, world)?;
            let lists = intents_by_room(alloc, world, &roster, &wanted)?;
            let again = world.copy(alloc)?;
            let _rooms = next_world(alloc, &room_step::InTurn, again, &lists, runs)?;
        }
        Ok(())
    }

The rows are those of bench/rooms.py, and a tick's time is taken as there: the best of some rounds, in which the runs take turns. Behind them stands what the
largest room of a world costs alone, in a world that has no other, which bounds what several workers may gain. With --counted valgrind's callgrind counts
the instructions of the processor in millions, in place of the time: no noise touches them, so that one run of each is enough.
"""

import json
import os
import struct
import sys
import tempfile

TOP = os.path.dirname(os.path.dirname(os.path.abspath(__file__)))
sys.path[:0] = [os.path.join(TOP, it) for it in ("oracle", "checks/harness", "checks/inputs")]
from players import Bench  # noqa: E402
from rooms import COUNTED_TICKS, counted, rows  # noqa: E402
from whole import ROUNDS, profiled  # noqa: E402

LATER = 1 << 20
HEAD = f"{'a tick of':40}{'objects':>8}{'entries':>8}{'run':>10}{'whole':>9}{'by rooms':>9}{'ratio':>7}"


def later_world(first):
    """The same world at a later tick."""
    return json.dumps({**json.loads(first), "tick": LATER}).encode()


def later_stream(stream):
    """The same uploads for later ticks."""
    found, at = [], 0
    while at < len(stream):
        tick, player, count = struct.unpack_from("<QII", stream, at)
        found.append(struct.pack("<QII", tick + LATER, player, count) + stream[at + 16 : at + 16 + count])
        at += 16 + count
    return b"".join(found)


class Runs(Bench):
    """The runs of a program on a world, at its tick or later."""

    def __init__(self, program, folder, quick, is_later):
        super().__init__(program, folder, quick)
        self.is_later, self.rounds = is_later, 1 if quick else ROUNDS

    def prepare(self, row):
        self.put("world", later_world(row.first) if self.is_later else row.first)
        self.put("uploads", later_stream(row.stream) if self.is_later else row.stream)


def ticks(benches, row, more):
    """Seconds of a tick of each of these."""
    best = {}
    for number in range(benches[0].rounds):
        for bench in benches if number % 2 == 0 else benches[::-1]:
            bench.prepare(row)
            for count in (1, 1 + more):
                best[bench, count] = min(best.get((bench, count), 1e9), bench.once(count)[0])
    return [(best[bench, 1 + more] - best[bench, 1]) / more for bench in benches]


def instructions(bench, row):
    """Instructions of a tick."""
    bench.prepare(row)
    one, more = (counted(profiled(bench, ticks))[0] for ticks in (1, 1 + COUNTED_TICKS))
    return (more - one) / COUNTED_TICKS


def main():
    words = [word for word in sys.argv[1:] if word not in ("--quick", "--counted")]
    if len(words) != 2 or not all(map(os.path.isfile, words)):
        sys.exit("no two programs: python3 bench/both_ways.py PROGRAM TWICE [--quick | --counted]")
    quick, is_counted = (word in sys.argv for word in ("--quick", "--counted"))
    place = "/dev/shm" if os.path.isdir("/dev/shm") else None
    program, twice = map(os.path.abspath, words)
    with tempfile.TemporaryDirectory(dir=place) as folder:
        benches = [Runs(path, folder, quick, is_later) for path, is_later in ((program, False), (twice, False), (program, True), (twice, True))]
        print("millions of instructions" if is_counted else "milliseconds")
        print(HEAD, flush=True)
        for row in rows():
            if is_counted:
                once, whole, later, rooms = (instructions(bench, row) / 1e6 for bench in benches)
            else:
                once, whole, later, rooms = (seconds * 1e3 for seconds in ticks(benches, row, min(row.ticks, 3) if quick else row.ticks))
            whole, rooms = whole - once, rooms - later
            print(f"{row.name:40}{row.objects:8,}{row.entries:8,.0f}{once:10.3f}{whole:9.3f}{rooms:9.3f}{rooms / whole:7.3f}", flush=True)


if __name__ == "__main__":
    main()
