#!/usr/bin/env python3
"""Kills runs at random moments, each on what the one before left, and looks at what stands then: some hundred ticks of a sample world.

    checks/by_hand/kills.py [KILLS [WORLD]]

kills 1,000 runs, or as many as the word says, of worlds/colonies.json with its uploads, or of another world of worlds/. Behind each kill the journal
has to be one of whole ticks, of which those are all whose lines were printed and at most one more; the next run goes on from there. Some dozen kills
come to one journal, and then a run that is not killed, behind which the file is, byte for byte, that of one run. A line says where the kills fell.
It is no part of the gate, which has some 200 kills of its own (checks/journals.py).
"""

import collections
import os
import random
import signal
import sys
import tempfile
import time

TOP = os.path.dirname(os.path.dirname(os.path.dirname(os.path.abspath(__file__))))
sys.path[:0] = [os.path.join(TOP, it) for it in ("oracle", "checks/harness", "checks")]
from checked_program import Checks, content_of, shown, write_files  # noqa: E402
from journals import FILES, forget_journal, killed, ran, seconds_of  # noqa: E402
from journal_reader import read, start_line, tick_lines  # noqa: E402
from worlds import contents_of, gated  # noqa: E402

KILLS, WORLD = 1_000, "colonies"
TICKS, TICKS_OF_RUN, KILLS_OF_JOURNAL, LAST_TICKS, TIMED_TICKS = 300, 40, 25, 3, 20
MOST_TICKS = TICKS + LAST_TICKS
SEED = 12
EARLY, OPENING, WITHIN, BEHIND = "before the base", "before the opening line", "within ticks", "behind the last line"

checks = Checks(__file__)
note = checks.note
draw = random.Random(SEED)


class OneRun:
    """A run that is never killed: its contents, and the lines of each world as an opening and of each tick."""

    def __init__(self, folder):
        # (in pieces, each within the time that checks/journals.py gives a run)
        for at in range(0, MOST_TICKS, TICKS_OF_RUN):
            status, _, err, journal = ran(folder, min(TICKS_OF_RUN, MOST_TICKS - at))
            faults = [] if (status, err) == (0, b"") else [f"exit status {status}, standard error {shown(err)}"]
            note(f"a run from tick {at} on that is not killed", faults)
        found = read(journal)
        self.contents = contents_of(journal)
        self.openings = [start_line(world).encode() for world in found.worlds]
        self.lines = [tick_lines(*it).encode() for it in zip(found.records, found.worlds[1:])]
        note("a run that is not killed", [] if len(self.lines) == MOST_TICKS else [f"{len(self.lines)} ticks"])

    def journal(self, ticks):
        """The file after so many ticks."""
        return gated(self.contents[: ticks + 1])

    def ticks_in(self, kept):
        """How many ticks stand in a journal, -1 where it has no base, or None where it is none of this run."""
        if len(kept) <= 1 or kept[0] == 0:
            return -1
        ticks = len(contents_of(kept)) - 1
        return ticks if kept.startswith(self.journal(ticks)) else None

    def printed(self, first, lines):
        """How many ticks from the first on were printed whole, -1 where the opening line was not, or None where other lines were."""
        whole = [self.openings[first], *self.lines[first:]]
        if not b"".join(whole).startswith(lines):
            return None
        count, length = 0, 0
        while count < len(whole) and length + len(whole[count]) <= len(lines):
            length += len(whole[count])
            count += 1
        return count - 1


class Pace:
    """How long a run takes: to its start, by the ticks of the journal that it reads, and for each tick; and how much slower that has become."""

    def __init__(self, folder, start, each):
        began = time.perf_counter()
        ran(folder, 0)
        self.start, self.each = start, each
        self.read = max(0.0, time.perf_counter() - began - start) / MOST_TICKS
        self.slower = 1.0

    def seconds(self, first, ticks):
        return self.slower * (self.start + max(first, 0) * self.read + ticks * self.each)

    def learn(self, is_hit, printed):
        """(as many runs end before their kill as are killed before their opening line)"""
        self.slower *= (1.1 if printed < 0 else 1.0) if is_hit else 1 / 1.1


class Kills:
    """Where the kills fell, and how often a tick stood whose lines were not printed."""

    def __init__(self):
        self.places, self.unprinted, self.journals = collections.Counter(), 0, 0

    def count(self):
        return sum(self.places.values())

    def add(self, first, left, printed, asked):
        place = EARLY if left < 0 else OPENING if printed < 0 else WITHIN if printed < asked else BEHIND
        self.places[place] += 1
        self.unprinted += left > told(first, printed)

    def line(self):
        places = ", ".join(f"{self.places[place]:,} {place}" for place in (EARLY, OPENING, WITHIN, BEHIND))
        return f"{self.count():,} kills on {self.journals} journals: {places}; in {self.unprinted:,} a frame stood whose lines were not printed whole"


def told(first, printed):
    """How many ticks stand by what was printed: those before, and those of whole lines; -1 where there may be no base."""
    return first if printed < 0 else max(first, 0) + printed


def kill_faults(first, left, printed):
    """What is wrong of a journal in which so many ticks are left, where so many were printed behind the first ones."""
    if left is None or printed is None:
        return ["the journal is none of whole ticks of the run" if left is None else "other lines were printed"]
    # (where a journal stood, the opening line comes before a tick)
    one_more = 0 if printed < 0 <= first else 1
    return [] if 0 <= left - told(first, printed) <= one_more else [f"{left} ticks stand, and {told(first, printed)} by what was printed"]


def kill_one(folder, one_run, kills, first, pace):
    """A run that is killed on a journal of so many ticks: how many are left of it, or None where that is wrong."""
    asked = min(draw.randint(1, TICKS_OF_RUN), TICKS - max(first, 0))
    is_hit, lines = killed(folder, asked, draw.uniform(0, pace.seconds(first, asked)))
    path = os.path.join(folder, FILES[2])
    left, printed = one_run.ticks_in(content_of(path) if os.path.exists(path) else b""), one_run.printed(max(first, 0), lines)
    faults = kill_faults(first, left, printed)
    note(f"kill {kills.count() + 1}, of a run of {asked} ticks on {first}", faults)
    if faults:
        return None
    pace.learn(is_hit, printed)
    if is_hit:
        kills.add(first, left, printed, asked)
    return left


def kill_journal(folder, one_run, kills, most, pace):
    """Kills on one journal, and a run behind them, whose file is that of one run."""
    forget_journal(folder)
    first, until = -1, min(most, kills.count() + KILLS_OF_JOURNAL)
    while kills.count() < until and first < TICKS:
        first = kill_one(folder, one_run, kills, first, pace)
        if first is None:
            return
    kills.journals += 1
    status, _, err, journal = ran(folder, LAST_TICKS)
    last = max(first, 0) + LAST_TICKS
    faults = [] if (status, err) == (0, b"") else [f"exit status {status}, standard error {shown(err)}"]
    faults += [] if journal == one_run.journal(last) else [f"the file isn't that of one run of {last} ticks"]
    note(f"the run behind the kills, to tick {last}", faults)


def main():
    most, name = (int(sys.argv[1]) if sys.argv[1:] else KILLS), (sys.argv[2] if sys.argv[2:] else WORLD)
    # (where it is ended early it says what there was so far)
    signal.signal(signal.SIGTERM, signal.default_int_handler)
    began, kills = time.monotonic(), Kills()
    world, uploads = (os.path.join(TOP, f"worlds/{name}.{kind}") for kind in ("json", "uploads"))
    with tempfile.TemporaryDirectory() as folder:
        write_files(folder, {FILES[0]: content_of(world), FILES[1]: content_of(uploads) if os.path.exists(uploads) else b""})
        start, each = seconds_of(folder, TIMED_TICKS)
        forget_journal(folder)
        one_run = OneRun(folder)
        pace = Pace(folder, start, each)
        try:
            while kills.count() < most and not checks.failed:
                kill_journal(folder, one_run, kills, most, pace)
        finally:
            print(f"{name}: {kills.line()}; {time.monotonic() - began:.0f} seconds", flush=True)
    checks.finish()


main()
