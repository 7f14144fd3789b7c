#!/usr/bin/env python3
"""Shows a room as a journal has it after a tick: a picture of the tiles on which something stands, and a list of all that does.

    players/show_room.py JOURNAL ROOM TICK [--all]

ROOM is the index of a room or its name, as 0 or E0S0, and TICK the tick of the world. With --all the picture has all 50 by 50 tiles of
the room, and else those around what stands there. --help prints this.

The columns have their x above them, tens over ones, and the rows their y at the left. In the picture `.` is plain, `#` wall and `~` swamp.
Of several objects on a tile the one that comes first in this list is shown: `@` creep, `o` source, `C` controller, `S` spawn, `E` extension,
`T` storage, `B` container, `+` site, `=` road, `*` pile. Where creeps of several players stand in the room, those of the player with the
least number are `@`, those of the next `a`, then `b` and so on without `o`, and a line says which is whose.

In the list a field that is 0 is left out, and `player 1` is the owner.
"""

import os
import sys

from journal_file import FIELDS, SIDE, NotAJournal, worlds_of

LETTERS = {"creep": "@", "source": "o", "controller": "C", "spawn": "S", "extension": "E", "storage": "T", "container": "B", "site": "+", "road": "=", "pile": "*"}
# Those of the creeps of each further player, and that of all players who are left then.
FURTHER, LEFT = "abcdefghijklmnpqrstuvwxyz", "?"
GROUNDS = ".#~"
MOST_NUMBER = 2**64 - 1


class Refused(Exception):
    """Why nothing is shown."""


# ---- words and lines


def number(text):
    """A number of a journal, or None where the text is none."""
    digits = text.lstrip("0") or "0"
    # (the length first, since Python doesn't read numbers of any length)
    is_one = text.isascii() and text.isdigit() and len(digits) <= len(str(MOST_NUMBER))
    return int(digits) if is_one else None


def world_of(path, tick, turn=lambda record, world: None):
    """The record and the world of a tick of a journal. `turn` is called with those of each tick up to this one."""
    try:
        with open(path, "rb") as it:
            journal = it.read()
    except OSError as error:
        raise Refused(f"{error.strerror}: {path}") from None
    ticks = []
    try:
        for record, world in worlds_of(journal):
            turn(record, world)
            ticks.append(world.tick)
            if world.tick == tick:
                return record, world
    except NotAJournal as what:
        raise Refused(f"{path} is no journal: {what}") from None
    there = f"its worlds are those of the ticks {ticks[0]} to {ticks[-1]}" if ticks else "nothing is recorded in it"
    raise Refused(f"{path} has no tick {tick}: {there}")


def print_lines(lines):
    """Prints lines, with nothing kept back that could fail at the end of the program."""
    if sys.stdout is None:
        raise Refused("standard output is closed")
    try:
        print("\n".join(lines), flush=True)
    except OSError as error:
        # (what could not be written would be tried again)
        os.dup2(os.open(os.devnull, os.O_WRONLY), sys.stdout.fileno())
        raise Refused(f"{error.strerror}: standard output") from None


def answer(name, run, text):
    """Runs a script by its words: it prints its lines, its text where that is asked for, or in one line what is wrong."""
    try:
        print_lines([text.strip()] if {"-h", "--help"} & set(sys.argv[1:]) else run(sys.argv[1:]))
    except Refused as refused:
        sys.exit(f"{name}: {refused}")


# ---- a room


def room_of(world, text, path):
    """The index of a room, by its index or its name."""
    index = number(text)
    found = next((at for at, room in world.rooms.items() if at == index or room.name == text), None)
    if found is None:
        raise Refused(f"{path} has no room {text}: its rooms are those of the indices 0 to {len(world.rooms) - 1}")
    return found


def letters_of(objects):
    """The letter of each player's creeps, where several players have some in a room."""
    players = sorted({it["owner"] for it in objects if it["kind"] == "creep"})
    letters = [LETTERS["creep"], *FURTHER]
    return {player: letters[at] if at < len(letters) else LEFT for at, player in enumerate(players)}


def letter_of(it, letters):
    return letters[it["owner"]] if it["kind"] == "creep" else LETTERS[it["kind"]]


def side_of(places, whole):
    """The first and the last of the columns, or of the rows, that are shown: those of all objects and one more on each side."""
    if whole or not places:
        return 0, SIDE - 1
    return max(0, min(places) - 1), min(SIDE - 1, max(places) + 1)


def picture(ground, objects, letters, whole):
    left, right = side_of([it["x"] for it in objects], whole)
    top, bottom = side_of([it["y"] for it in objects], whole)
    order, standing = list(LETTERS), {}
    for it in sorted(objects, key=lambda it: -order.index(it["kind"])):
        standing[it["x"], it["y"]] = letter_of(it, letters)
    yield "   " + "".join(str(x // 10) for x in range(left, right + 1))
    yield "   " + "".join(str(x % 10) for x in range(left, right + 1))
    for y in range(top, bottom + 1):
        yield f"{y:2} " + "".join(standing.get((x, y), GROUNDS[ground[SIDE * y + x]]) for x in range(left, right + 1))


def line(it, letters):
    fields = [f"{'player' if field == 'owner' else field} {it[field]}" for field in FIELDS if it[field]]
    if it["body"]:
        fields.append("body " + " ".join(it["body"]))
    return f"{letter_of(it, letters)} {it['kind']} {it['id']} at {it['x']}, {it['y']}: {', '.join(fields)}"


def lines_of(index, room, tick, whole):
    """What is printed of a room."""
    objects, letters = room.objects, letters_of(room.objects)
    yield f"room {index} {room.name}, tick {tick}"
    if objects or whole:
        yield from picture(room.ground, objects, letters, whole)
    if len(letters) > 1:
        yield "creeps: " + ", ".join(f"{letter} player {player}" for player, letter in letters.items())
    yield from [line(it, letters) for it in objects] or ["nothing stands there"]


def run(words):
    whole, words = "--all" in words, [word for word in words if word != "--all"]
    if len(words) != 3 or number(words[2]) is None:
        raise Refused("the words are JOURNAL ROOM TICK [--all]: --help says more")
    path, text, tick = words[0], words[1], number(words[2])
    _, world = world_of(path, tick)
    index = room_of(world, text, path)
    return lines_of(index, world.rooms[index], tick, whole)


if __name__ == "__main__":
    answer("show_room.py", run, __doc__)
