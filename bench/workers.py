#!/usr/bin/env python3
"""Measures a tick by 1, 2, 4 and 16 workers: python3 bench/workers.py PROGRAM [ROWS..] [--quick | --split].

Run it in the repository's top folder once the program is built (README.md). The time of a tick is that of bench/players.py, the difference of runs of
several ticks and of one, of which the best of some rounds counts; the numbers of workers take turns, so that what else the machine does meets all. A
ratio is the time of one worker over that of so many. On a machine with fewer processors than workers the rest can gain nothing.

The rows: 64 players with colonies in 400 rooms of 20,000 objects, whose modules call for every kind of action and then use up their budget of 5,000,000
instructions; the same with one player who takes half of the budget of all; the same without the loop that uses the budget up; the same rooms without
modules; all objects that a room may have in one room, with players who use their budget and with none; and one room with two objects. Words behind the program
name rows, by their numbers from 1 on, in place of all.

With --split the instructions of the processor in a tick of the third and the fourth row are counted by valgrind's callgrind, with one worker:
those of runs and of rooms, which are drawn, and those of what is done by the caller before, between and behind them.
"""

import json
import os
import subprocess
import sys
import tempfile

TOP = os.path.dirname(os.path.dirname(os.path.abspath(__file__)))
sys.path[:0] = [os.path.join(TOP, it) for it in ("oracle", "checks/harness", "checks/inputs")]
from colony_worlds import FREE, PLAYERS, ROOMS, TICKS, world_of  # noqa: E402
from module_bytes import player_module  # noqa: E402
from plain_worlds import of_rooms, players_of, road  # noqa: E402
from players import Bench, seconds  # noqa: E402
from rooms import largest  # noqa: E402
from scripts import Script, unkept  # noqa: E402
from whole import counted  # noqa: E402
from worlds import upload_entry  # noqa: E402

NUMBERS = (1, 2, 4, 16)
# (what takes long is steady)
LONG_ROUNDS, ROUNDS = 3, 11
# (loop (drop (i32.const 1)) (br 0))
WITHOUT_END = b"\x03\x40\x41\x01\x1a\x0c\0\x0b"


class Row:
    """A world with its uploads, and how many ticks behind the first are measured."""

    def __init__(self, name, first, stream, ticks=TICKS, rounds=ROUNDS):
        self.name, self.first, self.stream, self.ticks, self.rounds = name, first, stream, ticks, rounds


def acting(calls, after=b""):
    """A module of each player for each tick, that calls for all that he wants and then goes on so."""
    stream = b""
    for tick in range(TICKS + 1):
        for number in sorted(calls):
            code = [instruction for name, *arguments in calls[number][tick] for instruction in unkept(name, *arguments)]
            stream += upload_entry(tick, number, Script(code, data=(0, b"\1"), trap=(0, after)).content)
    return stream


def limited(first, limits):
    """The same world with other limits of CPU units: those of the first players, and one for all others."""
    it = json.loads(first)
    for account in it["players"]:
        account["limit"] = limits.get(account["player"], limits[None])
    return json.dumps(it).encode()


def spending(count):
    return b"".join(upload_entry(0, number, player_module(WITHOUT_END)) for number in range(1, count + 1))


def rows():
    first, calls = world_of(PLAYERS, ROOMS, FREE)
    yield Row("64 players who use their budget", first, acting(calls, WITHOUT_END), rounds=LONG_ROUNDS)
    yield Row("one who takes half of the budget", limited(first, {1: 500, None: 8}), acting(calls, WITHOUT_END))
    yield Row("64 players who only act", first, acting(calls))
    yield Row("the same rooms without modules", first, b"", 20)
    full, _, _ = largest()
    yield Row("one full room without modules", full, b"", 20)
    yield Row("64 players and one full room", with_players(full), spending(PLAYERS), rounds=LONG_ROUNDS)
    yield Row("one room with two objects", of_rooms([[road(0, 1), road(0, 2)]], ()), b"", 2000)


def with_players(first):
    return json.dumps({**json.loads(first), "players": players_of(PLAYERS)}).encode()


class Workers(Bench):
    """Runs of the program by so many workers."""

    def by(self, ticks, workers):
        return seconds([*self.command(ticks), "--workers", str(workers)], stdout=subprocess.DEVNULL)[0]

    def ticks_by(self, row):
        """Seconds of a tick by each number of workers."""
        self.put("world", row.first)
        self.put("uploads", row.stream)
        rounds, more = (1, min(row.ticks, 3)) if self.quick else (row.rounds, row.ticks)
        one, several = ({number: [] for number in NUMBERS} for _ in range(2))
        for _ in range(rounds):
            for number in NUMBERS:
                one[number].append(self.by(1, number))
                several[number].append(self.by(1 + more, number))
        return {number: (min(several[number]) - min(one[number])) / more for number in NUMBERS}


def measured(bench, numbers):
    head = "".join(f"{f'{number} workers' if number > 1 else '1 worker':>12}" for number in NUMBERS)
    print(f"{'ms of a tick':36}{head}{'1 : 2':>9}{'1 : 4':>7}{'1 : 16':>8}", flush=True)
    for number, row in enumerate(rows(), 1):
        if numbers and number not in numbers:
            continue
        found = bench.ticks_by(row)
        times = "".join(f"{1e3 * found[workers]:12.3f}" for workers in NUMBERS)
        ratios = [found[1] / max(found[workers], 1e-9) for workers in NUMBERS[1:]]
        print(f"{row.name:36}{times}{ratios[0]:9.2f}{ratios[1]:7.2f}{ratios[2]:8.2f}", flush=True)


# ---- where the instructions of a tick go

RUNS, STEPS = "player_run::running::run_player_in", "room_step::step::step_taken"
SERIAL = {
    "uploads judged": "hosted_tick::judge::judge_all",
    "where objects stand": "world_roster::Roster::of",
    "entries by room": "kept_entries::split::intents_by_room",
    "crossings": "exit_crossing::crossing::cross",
    "the record": "recorded_tick::record::record_tick",
    "the journal": "world_journal::append::Journal::append_judged",
}


def split(bench):
    for row in list(rows())[2:4]:
        bench.put("world", row.first)
        bench.put("uploads", row.stream)
        one, more = counted(bench, 1), counted(bench, 3)
        each = {name: (more.get(name, 0) - one.get(name, 0)) / 2 / 1e6 for name in {*one, *more}}
        whole = each.get("world_run::ticks::one_tick", 0)
        print(f"{row.name}: {whole:,.1f} million instructions of the processor in a tick")
        drawn = {"players run": each.get(RUNS, 0), "rooms stepped": each.get(STEPS, 0)}
        serial = {what: each.get(name, 0) for what, name in SERIAL.items()}
        rest = whole - sum(drawn.values()) - sum(serial.values())
        for what, count in {**drawn, **serial, "all else": rest}.items():
            print(f"    {what:28}{count:12,.1f}{100 * count / max(whole, 1e-9):8.1f}%", flush=True)


def main():
    words = [word for word in sys.argv[1:] if word not in ("--quick", "--split")]
    if not words or not os.path.isfile(words[0]):
        sys.exit("no program: python3 bench/workers.py PROGRAM [ROWS..] [--quick | --split]")
    with tempfile.TemporaryDirectory(dir="/dev/shm" if os.path.isdir("/dev/shm") else None) as folder:
        bench = Workers(os.path.abspath(words[0]), folder, "--quick" in sys.argv)
        if "--split" in sys.argv:
            split(bench)
        else:
            measured(bench, [int(word) for word in words[1:]])


if __name__ == "__main__":
    main()
