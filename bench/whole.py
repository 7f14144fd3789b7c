#!/usr/bin/env python3
"""Measures a whole world in the built program: python3 bench/whole.py PROGRAM [--quick] [--split].

Run it in the repository's top folder once the program is built (README.md). 64 players have colonies in 400 rooms of 20,000 objects, and in every
tick a module of each is uploaded that calls for every kind of action. A tick's time is that of bench/players.py: the difference of runs of several
ticks and of one. It stands beside the same world with an empty `loop` for each player, and without modules; then come worlds with half and with a
quarter of the rooms and players, which shows whether a tick takes time in proportion.

With --split the instructions of the processor are counted by valgrind's callgrind, and the table has where those of a tick go: uploads, views, runs,
rules and upkeep, and the record. A part is what a function takes with all that it calls. The times depend on the machine: compare figures of one run.
"""

import os
import re
import subprocess
import sys
import tempfile

TOP = os.path.dirname(os.path.dirname(os.path.abspath(__file__)))
sys.path[:0] = [os.path.join(TOP, it) for it in ("oracle", "checks/inputs")]
from colony_worlds import FREE, PLAYERS, ROOMS, TICKS, for_each_at, uploads_of, world_of  # noqa: E402
from players import Bench  # noqa: E402

ROUNDS = 15


def row(bench, name, players, rooms, free):
    first, calls = world_of(players, rooms, free)
    entries = sum(len(calls[number][1]) for number in calls)
    tick, used = bench.tick(first, uploads_of(calls), TICKS)
    empty, _ = bench.tick(first, b"".join(for_each_at(tick, players) for tick in range(TICKS + 1)), TICKS)
    none, _ = bench.tick(first, b"", TICKS)
    print(f"{name:32}{rooms * 50:9,}{entries:9,}{tick * 1e3:10.2f}{empty * 1e3:13.2f}{none * 1e3:12.2f}{tick * 1e9 / (rooms * 50):14,.0f}{used:13,.0f}", flush=True)


# ---- where the instructions of the processor go

# Functions whose instructions, with what they call, are a part of a tick. What is left of the tick, the list of all objects, views, desks, the
# choice of the entries, crossings and accounts, stands in no function of its own.
TICK, RUN = "hosted_tick::hosted::Hosted::tick", "world_run::ticks::make_tick"
PARTS = {
    "uploads judged": "player_run::admission::admit",
    "modules run, with their calls": "wasm_machine::machine::Machine::invoke",
    "rules, movement and upkeep": "ruled_tick::rooms::tick_table",
}


def profiled(bench, ticks):
    """The path of what valgrind's callgrind says of a run of so many ticks."""
    out = bench.path("callgrind")
    subprocess.run(["valgrind", "--tool=callgrind", f"--callgrind-out-file={out}", *bench.command(ticks)], stdout=subprocess.DEVNULL, stderr=subprocess.DEVNULL, check=True)
    return out


def counted(bench, ticks):
    """The instructions of each function with what it calls, of a run of so many ticks."""
    words = ["callgrind_annotate", "--inclusive=yes", "--threshold=100", profiled(bench, ticks)]
    told = subprocess.run(words, capture_output=True, text=True, check=True).stdout
    found = {}
    for count, name in re.findall(r"^\s*([0-9,]+)\s+\([^)]*\)\s+\S*?:(\S+)", told, re.M):
        name = name.partition("::<")[0]
        found[name] = max(found.get(name, 0), int(count.replace(",", "")))
    return found


def split(bench):
    """Where the instructions of a tick go."""
    first, calls = world_of(PLAYERS, ROOMS, FREE)
    bench.put("world", first)
    bench.put("uploads", uploads_of(calls))
    one, more = counted(bench, 1), counted(bench, 1 + TICKS)
    each = {name: (more.get(name, 0) - one.get(name, 0)) / TICKS for name in (TICK, RUN, *PARTS.values())}
    parts = {what: each[name] for what, name in PARTS.items()}
    parts["lists, views, desks, crossings, accounts"] = each[TICK] - sum(parts.values())
    parts["the record and the lines"] = each[RUN] - each[TICK]
    print(f"{'part of a tick':44}{'million instructions':>22}{'share':>8}")
    for what, count in parts.items():
        print(f"{what:44}{count / 1e6:22.1f}{100 * count / each[RUN]:7.1f}%")
    print(f"{'all':44}{each[RUN] / 1e6:22.1f}")


def main():
    words = [word for word in sys.argv[1:] if word not in ("--quick", "--split")]
    if len(words) != 1 or not os.path.isfile(words[0]):
        sys.exit("no program: python3 bench/whole.py PROGRAM [--quick] [--split]")
    place = "/dev/shm" if os.path.isdir("/dev/shm") else None
    with tempfile.TemporaryDirectory(dir=place) as folder:
        bench = Bench(os.path.abspath(words[0]), folder, "--quick" in sys.argv)
        # (a run takes little time, and the best of more of them is steadier)
        bench.rounds = 1 if bench.quick else ROUNDS
        if "--split" in sys.argv:
            split(bench)
            return
        print(f"{'players and rooms':32}{'objects':>9}{'entries':>9}{'tick ms':>10}{'empty loops':>13}{'no modules':>12}{'ns an object':>14}{'instructions':>13}")
        for share in (4, 2, 1):
            row(bench, f"{PLAYERS // share} players in {ROOMS // share} rooms", PLAYERS // share, ROOMS // share, FREE // share)


if __name__ == "__main__":
    main()
