#!/usr/bin/env python3
"""What `gen` prints: the world files and upload streams of a second writing of the generator (oracle/generated_worlds.py), byte for byte, and that
`run` takes them; and that `demo` prints the last line of such a run and the length of its journal, with no file. The words of both are looked at too,
those that are refused among them.

It runs behind `rt ci`, which builds crates/world_server/out/world_server. What the players of such worlds do is the subject of checks/generator.py.
"""

import os
import sys
import tempfile

TOP = os.path.dirname(os.path.dirname(os.path.abspath(__file__)))
sys.path[:0] = [os.path.join(TOP, it) for it in ("oracle", "checks/harness")]
from checked_program import Checks, run, shown, write_files  # noqa: E402
from generated_worlds import uploads, world  # noqa: E402
from worlds import text_of  # noqa: E402

LAST_SEED = 2**64 - 1
WORLDS = [(0, 1), (7, 1), (7, 2), (7, 9), (LAST_SEED, 20), (12345, 21), (1, 400)]
USAGE = b"fault 2 Usage\n"

checks = Checks(__file__)
check, note = checks.check, checks.note


def check_parts():
    for seed, rooms in WORLDS:
        for part, wanted in (("world", text_of(world(seed, rooms))), ("uploads", uploads(rooms))):
            words = ["gen", str(seed), str(rooms), part]
            check(f"the words {words}", words, {"other": b"other"}, 0, wanted)
            with open("/dev/full", "wb") as sink:
                check(f"the words {words}, to a full standard output", words, {}, 6, err=b"fault 6 WriteFault\n", stdout=sink)


def check_words():
    one = text_of(world(7, 1))
    for words in (["gen", "007", "001", "world"], ["gen", "--", "7", "1", "world"], ["gen", "7", "--", "1", "world"]):
        check(f"the words {words}", words, {}, 0, one)
    lists = [
        ["gen"],
        ["gen", "7"],
        ["gen", "7", "1"],
        ["gen", "7", "1", "world", "uploads"],
        ["gen", "7", "world", "1"],
        ["gen", "7", "1", "World"],
        ["gen", "7", "1", "worlds"],
        ["gen", "7", "1", ""],
        ["gen", "7", "1", "world", "--ticks", "1"],
        ["Gen", "7", "1", "world"],
    ]
    lists += [["gen", seed, "1", "world"] for seed in (str(LAST_SEED + 1), "-1", "+1", "", "0x1", "1.0", "one")]
    lists += [["gen", "7", rooms, "world"] for rooms in ("0", "000", "401", str(2**32 + 1), "-1", "+1", "", "one")]
    for words in lists:
        check(f"the words {words}", words, {"journal": b""}, 2, err=USAGE)


def check_runs():
    """What is printed is taken by a run of three ticks."""
    for seed, rooms in WORLDS:
        with tempfile.TemporaryDirectory() as folder:
            made = {part: run(["gen", str(seed), str(rooms), part], folder)[1] for part in ("world", "uploads")}
            write_files(folder, made)
            status, out, err = run(["run", "world", "uploads", "journal", "--ticks", "3"], folder)
        lines, players = out.splitlines(), min(8, rooms)
        faults = [] if (status, err) == (0, b"") else [f"exit status {status}, standard error {shown(err)}"]
        faults += [f"player {player} is refused" for player in range(1, players + 1) if b"upload player %d accepted" % player not in lines]
        faults += [] if lines and lines[-1].startswith(b"tick 3 ") else [f"the last line is {shown(lines[-1:])}"]
        note(f"a run of seed {seed}, {rooms} rooms", faults)


DEMOS = [(7, 1, 0), (7, 1, 1), (7, 1, 30), (0, 2, 3), (LAST_SEED, 9, 5), (7, 100, 20), (1, 400, 2)]
# Worked out by hand: a base content of 2,780 bytes, behind a gate and its length and before the closed gate; and the creep moves, as the source is far.
LINES = {(7, 1, 0): b"start tick 0 rooms 1 objects 4 players 1\njournal 2790\n", (7, 1, 1): b"tick 1 objects 4 intents 1 energy 1800\n"}


def shown_of(seed, rooms, ticks):
    """The last line and the length of the journal of a run on what `gen` prints."""
    with tempfile.TemporaryDirectory() as folder:
        write_files(folder, {part: run(["gen", str(seed), str(rooms), part], folder)[1] for part in ("world", "uploads")})
        _, out, _ = run(["run", "world", "uploads", "journal", "--ticks", str(ticks)], folder)
        return out.splitlines(keepends=True)[-1] + b"journal %d\n" % os.path.getsize(os.path.join(folder, "journal"))


def check_demos():
    for seed, rooms, ticks in DEMOS:
        words = ["demo", str(seed), str(rooms), str(ticks)]
        wanted = shown_of(seed, rooms, ticks)
        check(f"the words {words}", words, {"other": b"other"}, 0, wanted)
        first = LINES.get((seed, rooms, ticks), b"")
        note(f"what the words {words} print by hand", [] if wanted.startswith(first) else [f"{shown(wanted)}, wanted {shown(first)} first"])
        with open("/dev/full", "wb") as sink:
            check(f"the words {words}, to a full standard output", words, {}, 6, err=b"fault 6 WriteFault\n", stdout=sink)
    lists = [["demo"], ["demo", "7"], ["demo", "7", "1"], ["demo", "7", "1", "1", "1"], ["demo", "7", "1", "--ticks", "1"], ["Demo", "7", "1", "1"]]
    lists += [["demo", seed, "1", "1"] for seed in (str(LAST_SEED + 1), "-1", "+1", "", "one")]
    lists += [["demo", "7", rooms, "1"] for rooms in ("0", "401", "-1", "", "one")]
    lists += [["demo", "7", "1", ticks] for ticks in ("1000001", "-1", "+1", "", "0x1", "one")]
    for words in lists:
        check(f"the words {words}", words, {"journal": b""}, 2, err=USAGE)


def main():
    check_parts()
    check_words()
    check_runs()
    check_demos()
    checks.finish()


main()
