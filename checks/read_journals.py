#!/usr/bin/env python3
"""Reads journals that are worked out by hand with the reader of oracle/journal_reader.py, by which other scripts judge the program's journals:
`checks/read_journals.py`.

What is compared is how many ticks of each stand, or at which byte it is refused, the lengths of the parts, and the lines of one. It needs no program.
"""

import os
import sys

TOP = os.path.dirname(os.path.dirname(os.path.abspath(__file__)))
sys.path[:0] = [os.path.join(TOP, it) for it in ("oracle", "checks/harness")]
from checked_program import Checks  # noqa: E402
from journal_reader import NotAJournal, framed, lines_of, read  # noqa: E402

PLAIN = bytes(1 if tile in (0, 49, 2450, 2499) else 0 for tile in range(2500))
PILE_OF = "0200000000000000" "09" "1414" "00000000" "00000000" "{}" "00000000" "00000000" "0000000000000000" "00000000" "00000000" "00"
SOURCE_OF = "0100000000000000" "01" "0a0a" "00000000" "00000000" "{}" "{}" "00000000" "0000000000000000" "00000000" "00000000" "00"


def room_by_hand(energy, timer, pile):
    things = SOURCE_OF.format(energy.to_bytes(8, "little").hex(), timer.to_bytes(4, "little").hex()) + PILE_OF.format(pile.to_bytes(8, "little").hex())
    return bytes.fromhex("00000000" "03000000" "02000000" + things)


BASE = b"SWSJ" + bytes.fromhex("01000000" "0000000000000000" "01000000" "00000000" "00000000") + PLAIN + room_by_hand(0, 1, 1001) + bytes(4)
TICK = b"T" + bytes.fromhex("0100000000000000" "00000000" "00000000" "00000000" "01000000") + room_by_hand(1500, 0, 999)
IDLE = b"T" + bytes.fromhex("0200000000000000" "00000000" "00000000" "00000000" "00000000")


def place_of(journal):
    """Where it is refused, None for an empty one, and of one that stands how many ticks it has."""
    try:
        found = read(journal)
    except NotAJournal as it:
        return f"at {it.at}"
    return found and len(found.records)


BY_HAND = [
    ("nothing", b"", None),
    ("a byte", b"h", None),
    ("a closed gate and more", b"\0hello", None),
    ("a text", b"hello", "at 0"),
    ("two gates", b"\1\0", "at 0"),
    ("a base", framed(BASE), 0),
    ("a base and its tick", framed(BASE, TICK), 1),
    ("a tick that changes nothing", framed(BASE, TICK, IDLE), 2),
    ("other open gates", framed(BASE, TICK, gates=[255, 83, 0]), 1),
    ("bytes behind the closed gate", framed(BASE, TICK) + b"\1left", 1),
    ("a gate that was closed", framed(BASE, TICK, gates=[1, 0, 1]), 0),
    ("no last gate", framed(BASE, TICK)[:-1], "at 2657"),
    ("an open gate at the end", framed(BASE, TICK, gates=[1, 1, 1]), "at 2807"),
    ("a frame that is cut", framed(BASE, TICK)[:2700], "at 2657"),
    ("a base that is cut", framed(BASE)[:-1], "at 0"),
    ("a frame of 2^63 bytes", framed(BASE)[:-1] + b"\1" + (1 << 63).to_bytes(8, "little") + bytes(99), "at 2657"),
    ("the tick twice", framed(BASE, TICK, TICK), "at 2807"),
    ("a tick too far", framed(BASE, IDLE), "at 2657"),
    ("a tick for a base", framed(TICK, BASE), "at 0"),
    ("the base twice", framed(BASE, BASE), "at 2657"),
    ("a byte more in the base", framed(BASE + b"\0"), "at 0"),
    ("a byte more in the tick", framed(BASE, TICK + b"\0"), "at 2657"),
    ("another room", framed(BASE, TICK.replace(room_by_hand(1500, 0, 999), b"\1" + room_by_hand(1500, 0, 999)[1:])), "at 2657"),
    ("a pile of nothing", framed(BASE, TICK.replace(room_by_hand(1500, 0, 999), room_by_hand(1500, 0, 0))), "at 2657"),
    ("a source too full", framed(BASE.replace(room_by_hand(0, 1, 1001), room_by_hand(3001, 1, 1001))), "at 0"),
    ("four billion uploads", framed(BASE, b"T" + TICK[1:9] + b"\xff" * 4 + TICK[13:]), "at 2657"),
]


def main():
    checks = Checks(__file__, has_program=False)
    parts = [("base", BASE, 2648), ("tick", TICK, 141), ("journal of a base", framed(BASE), 2658), ("journal of both", framed(BASE, TICK), 2808)]
    for part, content, length in parts:
        checks.note(f"the length of a {part}", [] if len(content) == length else [f"{len(content)} and not {length}"])
    for name, journal, place in BY_HAND:
        checks.note(name, [] if place_of(journal) == place else [f"{place_of(journal)} and not {place}"])
    lines = "start tick 0 rooms 1 objects 2 players 0\ntick 1 objects 2 intents 0 energy 2499\n"
    found = lines_of(read(framed(BASE, TICK)))
    checks.note("the lines of a journal", [] if found == lines else [repr(found)])
    checks.finish()


if __name__ == "__main__":
    main()
