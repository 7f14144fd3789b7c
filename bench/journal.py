#!/usr/bin/env python3
"""Measures what a journal costs in the built program: python3 bench/journal.py PROGRAM [--quick] [FOLDER].

Run it in the repository's top folder once the program is built (README.md). The first table has runs with their two syncs a tick in FOLDER, which is to
lie on a disk (else that of temporary files), beside bench/two_syncs.c, a program that writes the same bytes by as many writes and syncs. The second
table has what it takes to go on with a journal, by `run --ticks 0`, in memory (/dev/shm): of more and more ticks, of rooms with more and more objects that
change, of one room and of many of which one changes, and of modules that were uploaded. The time of a tick, an object or a byte is that of the difference
between two rows. The third has what `replay` takes beside the run that made the journal, there too. The times depend on the machine: compare figures of one
run.
"""

import os
import shutil
import statistics
import subprocess
import sys
import tempfile
import time

TOP = os.path.dirname(os.path.dirname(os.path.abspath(__file__)))
sys.path[:0] = [os.path.join(TOP, it) for it in ("oracle", "checks/inputs")]
from colony_worlds import FREE, PLAYERS, ROOMS, uploads_of, world_of  # noqa: E402
from game import SECOND, thing  # noqa: E402
from module_bytes import OPENING, section  # noqa: E402
from worlds import SMALL, bytes_of, room, upload_entry, world  # noqa: E402

IN_MEMORY = "/dev/shm" if os.path.isdir("/dev/shm") else None
SYNCED_TICKS, ROUNDS = 200, 9
MIB = 1 << 20


class Run:
    """The program in a folder with a world, uploads and a journal."""

    def __init__(self, program, folder, it, uploads=b""):
        self.program, self.folder = program, tempfile.mkdtemp(dir=folder)
        for name, content in (("world.json", it if isinstance(it, bytes) else bytes_of(it)), ("uploads.bin", uploads)):
            with open(os.path.join(self.folder, name), "wb") as file:
                file.write(content)

    def __enter__(self):
        return self

    def __exit__(self, *_):
        shutil.rmtree(self.folder)

    def seconds(self, ticks):
        return self.taken("run", "world.json", "uploads.bin", "game.journal", "--ticks", str(ticks))

    def taken(self, *words):
        words = [self.program, *words]
        start = time.perf_counter()
        # (with a limit of time Python would look for the end in steps of many milliseconds)
        done = subprocess.run(words, cwd=self.folder, stdout=subprocess.DEVNULL)
        if done.returncode != 0:
            sys.exit(f"{words[1]} ended with status {done.returncode}")
        return time.perf_counter() - start

    def bytes(self):
        return os.path.getsize(os.path.join(self.folder, "game.journal"))

    def again(self, rounds=5):
        """The shortest of some times in which the program goes on with the journal and makes no tick."""
        return min(self.seconds(0) for _ in range(rounds))


def piles(count, first_room=0, rooms=1):
    """Rooms, the first with so many piles, each of which loses energy in each tick, and the others with a wall of their own that stays."""
    found = []
    for index in range(rooms):
        things = [thing("pile", index * SECOND + 1 + at, 1 + at % 48, 1 + at // 48 % 48, energy=MIB) for at in range(count if index == first_room else 0)]
        found.append(room(f"E{index % 20}S{index // 20}", max(count, 1) + 2, *things, terrain=closed()))
    return world(*found)


def closed():
    """Ground with walls all around, so that no exit has to meet another."""
    return "".join("1" if row in (0, 49) or column in (0, 49) else "0" for row in range(50) for column in range(50))


def forget(*paths):
    for path in paths:
        if os.path.exists(path):
            os.remove(path)


def synced(program, folder, quick):
    ticks = SYNCED_TICKS // 10 if quick else SYNCED_TICKS
    with tempfile.TemporaryDirectory() as place, Run(program, folder, SMALL) as it:
        written = os.path.join(place, "two_syncs")
        subprocess.run(["cc", "-O2", "-o", written, os.path.join(TOP, "bench/two_syncs.c")], check=True)
        journal, copy = (os.path.join(it.folder, name) for name in ("game.journal", "copy"))
        times = []
        for _ in range(ROUNDS):
            forget(journal, copy)
            taken = it.seconds(ticks)
            start = time.perf_counter()
            subprocess.run([written, journal, copy], check=True, stdout=subprocess.DEVNULL)
            times.append((taken, time.perf_counter() - start))
        for name, choose in (("least", min), ("median", statistics.median)):
            run, other = (choose(each) / ticks * 1e6 for each in zip(*times))
            print(f"{ticks} synced ticks of the small world, {name} of {ROUNDS} rounds: {run:.0f} microseconds a tick, "
                  f"and the same bytes by bench/two_syncs.c {other:.0f}: {run / other:.2f}")


def row(name, it, ticks):
    it.seconds(ticks)
    taken = it.again()
    print(f"{name:<44} {it.bytes():>12} {taken * 1e3:>10.1f}", flush=True)
    return taken


def going_on(program, quick):
    print(f"\n{'a run of no tick goes on with':<44} {'bytes':>12} {'ms':>10}")
    scale = 10 if quick else 1
    for ticks in (1, 25_000 // scale, 50_000 // scale, 100_000 // scale):
        with Run(program, IN_MEMORY, SMALL) as it:
            row(f"{ticks} ticks of the small world", it, ticks)
    for count in (250, 500, 1000, 2000):
        with Run(program, IN_MEMORY, piles(count)) as it:
            row(f"200 ticks of {count} piles that change", it, 200 // scale)
    for rooms in (1, 400):
        for ticks in (20, 2000, 20_000):
            with Run(program, IN_MEMORY, piles(10, rooms=rooms)) as it:
                row(f"{ticks} ticks of {rooms} rooms, one of which changes", it, ticks // scale)
    loop = OPENING + section(1, b"\1\x60\0\0") + section(3, b"\1\0") + section(7, b"\1\4loop\0\0") + section(10, b"\1\2\0\x0b")
    for count in (1, 10, 20, 40):
        padded = loop + section(0, b"\0" + bytes(900_000))
        uploads = b"".join(upload_entry(tick, 1, padded) for tick in range(count))
        with Run(program, IN_MEMORY, dict(SMALL, players=[{"player": 1, "limit": 20}]), uploads) as it:
            row(f"{count} uploads of 0.9 MB", it, count)


def generated(program, part):
    """A part of the world of 400 rooms and 8 players that is made of the number 7."""
    return subprocess.run([program, "gen", "7", "400", part], capture_output=True, check=True).stdout


def replayed(program, quick):
    print(f"\n{'replayed':<52} {'run, ms':>10} {'replay, ms':>10}")
    scale = 10 if quick else 1
    first, calls = world_of(PLAYERS, ROOMS, FREE)
    shapes = (
        ("the small world", 20_000, SMALL, b""),
        ("2000 piles that change", 200, piles(2000), b""),
        ("8 players in 400 rooms", 1000, generated(program, "world"), generated(program, "uploads")),
        ("64 players in 400 rooms, all kinds of action", 5, first, uploads_of(calls)),
    )
    for name, ticks, it, uploads in shapes:
        ticks = max(5, ticks // scale)
        with Run(program, IN_MEMORY, it, uploads) as made:
            taken = []
            for _ in range(5):
                forget(os.path.join(made.folder, "game.journal"))
                taken.append((made.seconds(ticks), made.taken("replay", "game.journal")))
            run, again = (min(each) * 1e3 for each in zip(*taken))
        print(f"{f'{ticks} ticks of {name}':<52} {run:>10.1f} {again:>10.1f}", flush=True)


def main():
    words = [word for word in sys.argv[1:] if word != "--quick"]
    if not words:
        sys.exit(__doc__)
    program, quick = os.path.abspath(words[0]), "--quick" in sys.argv
    synced(program, words[1] if len(words) > 1 else None, quick)
    going_on(program, quick)
    replayed(program, quick)


main()
