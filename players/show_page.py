#!/usr/bin/env python3
"""Makes a page that plays a journal in a browser, of one file and without network.

    players/show_page.py colonies.journal > colonies.html

plays all ticks of colonies.journal; with `--from TICK` and `--to TICK` those between two. What the page shows is in docs/players.md, "See it in
a browser"; players/page.html is its form, with the program that the browser runs. A journal may be read while a run adds to it.

The page has the journal as JSON in an element that no browser runs. `ticks` has a list for each world, [uploads, runs, accounts, nexts, objects]:

- uploads: [player, result, length of the module]; runs: [player, outcome, trap, instructions, [intent ..]], and an intent is [action, actor,
  target, amount, body], with what is 0 or empty at its end left out. The first world of a page has neither.
- accounts: [player, mask, value ..]. Where the bit I of the mask is set, the place I of `account_fields` is another than in the world before, and
  its value stands there. That of a memory text is [front, back, middle]: so many bytes at the front and at the back of the text before, and
  between them these, in base64; or only the length of the text, where the page leaves it out.
- nexts: [room, next] where it is another one.
- objects: [number, mask, value ..] likewise, by the places of `fields`, from an object of zeros where the number is new: objects have numbers
  in the order in which they come. [number] alone is one that is gone.

Actions, parts and traps are counted from 1, as in docs/formats.md, kinds and outcomes from 0. Numbers above 2^53 - 1, which a browser would round, are texts.
So the page grows with what changes, and one world, one frame and the changes of one tick are in memory while it is made.

Where something is wrong, one line says what, the exit status is 1, and nothing is printed.
"""

import argparse
import base64
import hashlib
import html
import json
import os
import re
import shutil
import sys
import tempfile

from journal_file import ACTIONS, FIELDS, GROUNDS, KINDS, OUTCOMES, PARTS, NotAJournal, worlds_in

FORM = os.path.join(os.path.dirname(os.path.abspath(__file__)), "page.html")
OBJECT_FIELDS = ["id", "room", "kind", "x", "y", *FIELDS, "body"]
ACCOUNT_FIELDS = ["limit", "bucket", "points", "memory"]
# By the numbers of docs/formats.md.
TRAPS = [
    "an unreachable instruction", "a division or a remainder by 0", "a quotient that is too large", "a load or a store past the end of the memory",
    "an indirect call past the end of the table", "an indirect call of an empty entry", "an indirect call of a function of another type",
    "more than 1,000 calls within one another", "more than 65,536 locals and operands",
]  # fmt: skip
# The greatest number up to which a browser has each.
MOST_WHOLE = 2**53 - 1
# As many bytes of the page are memory texts at most.
MOST_TEXTS = 2_000_000
# What could end an element, or the text of a program, stands in JSON by its number.
ESCAPES = {ord(character): f"\\u{ord(character):04x}" for character in "<>&\u2028\u2029"}
KIND_NUMBERS = {kind: number for number, kind in enumerate(KINDS)}
PART_DIGITS = {part: str(number) for number, part in enumerate(PARTS, 1)}
ACTION_NUMBERS = {action: number for number, action in enumerate(ACTIONS, 1)}
NO_OBJECT = (0,) * (len(OBJECT_FIELDS) - 1) + ("",)


class Refused(Exception):
    """Why there is no page."""


class Parser(argparse.ArgumentParser):
    """A parser whose complaints are refusals as all others."""

    def error(self, message):
        raise Refused(shown(message))


def shown(text):
    """A text as it can stand in one line."""
    return text if text.isprintable() else ascii(text)


# ---- what changed from world to world


def number(value):
    return value if value <= MOST_WHOLE else str(value)


def body_text(body):
    return "".join(map(PART_DIGITS.get, body))


def values_of(index, it):
    """An object's values, in the order of the fields."""
    return (it["id"], index, KIND_NUMBERS[it["kind"]], it["x"], it["y"], *(number(it[field]) for field in FIELDS), body_text(it["body"]))


def change(before, after):
    """The mask of the places that differ, and what stands there after it."""
    places = [place for place, (one, other) in enumerate(zip(before, after)) if one != other]
    return [sum(1 << place for place in places), *(after[place] for place in places)]


def common(one, other):
    """The length of what two texts begin with alike."""
    length = min(len(one), len(other))
    if one[:length] == other[:length]:
        return length
    low, high = 0, length
    # (by halves, since texts are compared faster than their bytes)
    while low + 1 < high:
        middle = (low + high) // 2
        low, high = (middle, high) if one[:middle] == other[:middle] else (low, middle)
    return low


class Changes:
    """The changes of one world after another, from a world of nothing on."""

    def __init__(self):
        self.count, self.standing, self.by_room = 0, {}, {}
        self.nexts, self.accounts = {}, {}
        self.texts, self.texts_end = 0, None

    def objects(self, rooms):
        """What came, changed or went, where these (index, objects) are the rooms that may have changed."""
        after = {it["id"]: values_of(index, it) for index, objects in rooms for it in objects}
        gone = {id for index, _ in rooms for id in self.by_room.get(index, ())} - after.keys()
        self.by_room.update((index, [it["id"] for it in objects]) for index, objects in rooms)
        found = [[self.standing.pop(id)[0]] for id in sorted(gone)]
        for id, values in after.items():
            place, before = self.standing.get(id) or (self.count, NO_OBJECT)
            self.count += place == self.count
            if values != before:
                self.standing[id] = place, values
                found.append([place, *change(before, values)])
        return found

    def room_nexts(self, nexts):
        found = [[index, next] for index, next in nexts if self.nexts.get(index) != next]
        self.nexts.update(found)
        return found

    def text(self, before, after, at):
        """A memory text by the one before, or its length where the page has no room for it any more."""
        front = common(before, after)
        back = common(before[front:][::-1], after[front:][::-1])
        middle = base64.b64encode(after[front : len(after) - back]).decode()
        self.texts += len(middle)
        if self.texts > MOST_TEXTS and self.texts_end is None:
            self.texts_end = at
        return [front, back, middle] if self.texts_end is None else len(after)

    def account(self, it, at):
        values = number(it.limit), number(it.bucket), number(it.points), it.memory
        before = self.accounts.get(it.player, (0, 0, 0, b""))
        self.accounts[it.player] = values
        mask, *found = change(before, values)
        if before[-1] != it.memory:
            found[-1] = self.text(before[-1], it.memory, at)
        # (one of zeros comes too, where it is new)
        return [it.player, mask, *found]

    def of(self, at, accounts, rooms):
        """The changes to a world at this place, of the accounts and the rooms (index, next, objects) that may have changed."""
        changed = [self.account(it, at) for it in accounts]
        return changed, self.room_nexts([room[:2] for room in rooms]), self.objects([(index, objects) for index, _, objects in rooms])


def trimmed(values):
    """Without what is 0 or empty at the end."""
    while values and not values[-1]:
        values.pop()
    return values


def intent_values(it):
    return trimmed([ACTION_NUMBERS[it.action], number(it.actor), number(it.target), number(it.amount), body_text(it.body)])


def run_values(it):
    return [it.player, OUTCOMES.index(it.outcome), it.trap, number(it.used), list(map(intent_values, it.intents))]


# ---- the page


def encoded(value):
    """Compact JSON of characters of ASCII, without one that could end the element that it stands in."""
    return json.dumps(value, separators=(",", ":")).translate(ESCAPES)


def hash_of(text):
    return "'sha256-" + base64.b64encode(hashlib.sha256(text.encode()).digest()).decode() + "'"


def form_parts(title):
    """The form of the page before and behind its journal. Its policy lets the browser run the form's own program, by its hash, and nothing else."""
    with open(FORM, encoding="utf-8") as file:
        form = file.read()
    style, script = re.search(r"<style>(.*?)</style>", form, re.S)[1], re.search(r"<script>(.*?)</script>", form, re.S)[1]
    policy = f"default-src 'none'; script-src {hash_of(script)}; style-src {hash_of(style)}; base-uri 'none'; form-action 'none'"
    before, behind = form.split("JOURNAL", 1)
    named = html.escape(title).encode("ascii", "xmlcharrefreplace").decode("ascii")
    return before.replace("POLICY", policy).replace("<title>A journal", "<title>" + named), behind


def head_of(name, world):
    """The keys of the journal before its ticks, of which the last stands open."""
    rooms = [[room.column, room.row, "".join(map(str, room.ground))] for _, room in sorted(world.rooms.items())]
    named = {"kinds": KINDS, "parts": PARTS, "grounds": GROUNDS, "actions": ACTIONS, "outcomes": OUTCOMES, "traps": TRAPS}
    head = {"name": name, "first": str(world.tick), "fields": OBJECT_FIELDS, "account_fields": ACCOUNT_FIELDS, **named, "rooms": rooms}
    return encoded(head)[:-1] + ',"ticks":[\n'


def whole(world):
    """All accounts and rooms of a world."""
    return list(world.accounts.values()), [(index, room.next, room.objects) for index, room in sorted(world.rooms.items())]


def pieces(name, worlds):
    """The JSON of a journal, piece by piece. Of no world there is none."""
    changes = Changes()
    for at, (record, world) in enumerate(worlds):
        if at == 0:
            yield head_of(name, world)
            yield encoded([[], [], *changes.of(at, *whole(world))])
            continue
        uploads = [[it.player, it.result, len(it.module)] for it in record.uploads]
        line = [uploads, list(map(run_values, record.runs)), *changes.of(at, record.accounts, record.rooms)]
        yield ",\n" + encoded(line)
    if changes.by_room:
        yield "\n]," + encoded({"texts_end": changes.texts_end, "most_texts": MOST_TEXTS})[1:]


def between(worlds, first, last):
    """The worlds of the ticks from first to last, where these are given."""
    for record, world in worlds:
        if last is not None and world.tick > last:
            return
        if first is None or world.tick >= first:
            yield record, world


def write_page(journal, name, first, last, page):
    """Writes the page, and says whether there was a world for it."""
    before, behind = form_parts(name)
    page.write(before)
    is_there = False
    for piece in pieces(name, between(worlds_in(journal), first, last)):
        page.write(piece)
        is_there = True
    page.write(behind)
    return is_there


def print_file(file):
    """Writes a file to standard output, with nothing kept back that could fail at the end of the program."""
    if sys.stdout is None:
        raise Refused("standard output is closed: send the page to a file")
    try:
        with open(sys.stdout.fileno(), "wb", closefd=False) as sink:
            shutil.copyfileobj(file, sink)
    except OSError as error:
        raise Refused(f"{error.strerror}: standard output") from None


def tick_number(text, word):
    if text is None:
        return None
    if not (text.isascii() and text.isdigit() and len(text) <= 20):
        raise Refused(f"{word}: {shown(text)!r} is no number of a tick")
    return int(text)


def run():
    parser = Parser(prog="show_page.py", add_help=False, allow_abbrev=False, description="Prints a page that plays a journal in a browser: send it to a file.")
    parser.add_argument("journal", metavar="JOURNAL", nargs="?", help="the journal of a run or a server, which may be going on")
    parser.add_argument("--from", metavar="TICK", dest="first", help="the first tick that is shown, in place of the journal's first")
    parser.add_argument("--to", metavar="TICK", dest="last", help="the last tick that is shown, in place of the journal's last")
    parser.add_argument("-h", "--help", action="store_true", help="print this and make no page")
    words = parser.parse_args()
    if words.help:
        print(parser.format_help(), end="", flush=True)
        return
    if words.journal is None:
        raise Refused("the words are JOURNAL [--from TICK] [--to TICK]: see --help")
    if sys.stdout is not None and sys.stdout.isatty():
        raise Refused("the page is no text for a terminal: send it to a file, as > page.html")
    first, last = tick_number(words.first, "--from"), tick_number(words.last, "--to")
    path = shown(words.journal)
    try:
        with open(words.journal, "rb") as journal, tempfile.TemporaryFile("w+", encoding="ascii", newline="\n") as page:
            is_there = write_page(journal, os.path.basename(words.journal), first, last, page)
            if not is_there:
                raise Refused(f"{path}: nothing is recorded in it" if first is None and last is None else f"{path} has no tick between these")
            page.flush()
            page.buffer.seek(0)
            print_file(page.buffer)
    except OSError as error:
        raise Refused(f"{error.strerror}: {path if error.filename in (None, words.journal) else shown(str(error.filename))}") from None
    except NotAJournal as error:
        raise Refused(f"{path} is no journal: {error}") from None


def main():
    try:
        run()
    except Refused as refused:
        sys.exit(f"show_page.py: {refused}")
    except BrokenPipeError:
        sys.exit("show_page.py: standard output is closed: send the page to a file")
    except KeyboardInterrupt:
        sys.exit("show_page.py: stopped")


if __name__ == "__main__":
    main()
