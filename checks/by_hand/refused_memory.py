#!/usr/bin/env python3
"""Refuses memory: lets one allocation of the program fail after the other, and looks at what becomes of each run. It takes a C compiler and Linux.

    checks/by_hand/refused_memory.py

builds checks/harness/refusing.c, which comes between the program and the C library. Each kind of run is made once with all memory, then with its
first allocation refused, its second, and so on, each alone and then with all behind it. Each has to end by status 11 (or, where it could do without,
by status 0 as the first one). Then nothing is printed but whole ticks, and the journal is as before or has just these ticks; and the next run, which
has all memory, goes on to the file of the first one. Words name the runs, by parts of their names, in place of all. It is no part of the gate.
"""

import collections
import os
import struct
import subprocess
import sys
import tempfile
import time

TOP = os.path.dirname(os.path.dirname(os.path.dirname(os.path.abspath(__file__))))
sys.path[:0] = [os.path.join(TOP, it) for it in ("oracle", "checks/harness", "checks")]
from checked_program import PROGRAM, Checks, content_of, shown, write_files  # noqa: E402
from failing_calls import FILES, ended, words_of  # noqa: E402
from journal_reader import read, start_line, tick_lines  # noqa: E402
from worlds import contents_of, gated  # noqa: E402

TICKS = 2
LEFT = b"\1left"
DONE, MEMORY = 0, 11
FAULT = b"fault 11 Memory\n"

checks = Checks(__file__)


class Kind:
    """A kind of run: its words, the files that it finds, and those of the next run, where it goes on with a journal."""

    def __init__(self, name, words, files, is_run=False):
        self.name, self.words, self.files, self.is_run = name, words, files, is_run


def of_sample(path):
    return content_of(os.path.join(TOP, path))


def inputs(name, uploads):
    return {FILES[0]: of_sample(f"worlds/{name}.json"), FILES[1]: of_sample(f"worlds/{uploads}")}


def journal_of_run(files, ticks):
    """The journal of a run that is refused nothing."""
    with tempfile.TemporaryDirectory() as folder:
        write_files(folder, files)
        return ended([PROGRAM, *words_of(ticks)], folder)[3]


def kinds():
    small, one = inputs("small", "no_uploads.bin"), inputs("one_player", "one_player.uploads")
    kept = journal_of_run(one, TICKS)
    return [
        Kind("a run of the small world", words_of(TICKS), small, True),
        Kind("a run of a player", words_of(TICKS), one, True),
        Kind("a run of a player that goes on", words_of(TICKS), {**one, FILES[2]: kept + LEFT}, True),
        Kind("a show", ["show", FILES[2], str(TICKS)], {FILES[2]: kept}),
        Kind("a replay", ["replay", FILES[2]], {FILES[2]: kept}),
        Kind("a check", ["check", "module.wasm"], {"module.wasm": of_sample("modules/loop.wasm")}),
        Kind("a gen of a world", ["gen", "1", "2", "world"], {}),
        Kind("a gen of uploads", ["gen", "1", "2", "uploads"], {}),
        Kind("a demo", ["demo", "1", "2", "2"], {}),
    ]


class Refusals:
    """Runs of one kind, in a folder of their own, with a library that refuses them memory."""

    def __init__(self, kind, folder, library):
        self.kind, self.folder, self.library = kind, os.path.join(folder, "run"), library
        self.counter = os.path.join(folder, "count")

    def ended(self, number, is_behind_too):
        """How a run ends where this allocation is refused (none where it is 0), and how many there were."""
        os.makedirs(self.folder, exist_ok=True)
        for path in os.listdir(self.folder):
            os.remove(os.path.join(self.folder, path))
        write_files(self.folder, self.kind.files)
        write_files(os.path.dirname(self.counter), {"count": bytes(8)})
        environment = {**os.environ, "LD_PRELOAD": self.library, "REFUSED_COUNT": self.counter, "REFUSED_NUMBER": str(number)}
        environment |= {"REFUSED_BEHIND": "1"} if is_behind_too else {}
        found = ended([PROGRAM, *self.kind.words], self.folder, env=environment)
        return found, struct.unpack("<Q", content_of(self.counter))[0]


class Wanted:
    """What a run that is refused nothing comes to, and what may be left of one that is: by the number of its ticks what it prints and its journal."""

    def __init__(self, kind, found):
        self.found, self.kept = found, kind.files.get(FILES[2], b"")
        self.stages = self.stages_of(read(found[3])) if kind.is_run else []

    def stages_of(self, journal):
        first, contents = max(0, len(contents_of(self.kept)) - 1), contents_of(self.found[3])
        lines = [start_line(journal.worlds[first]), *(tick_lines(*it) for it in zip(journal.records[first:], journal.worlds[first + 1 :]))]
        return [("".join(lines[: 1 + count]).encode(), gated(contents[: first + 1 + count])) for count in range(len(lines))]

    def stage_of(self, out, kept):
        """What stands of a run that printed this and left this journal, or None where it is none of the stages."""
        stages = {stage: f"{count} tick{'' if count == 1 else 's'}" for count, stage in enumerate(self.stages)}
        before = [self.kept, gated(contents_of(self.kept))] if self.kept else [b""]
        return stages.get((out, kept)) or ("nothing printed" if not out and kept in before else None)


def refusal_faults(found, wanted, is_behind_too):
    """What is wrong of how a run ended that was refused memory, and its outcome in short."""
    status, out, err, kept = found
    if found == wanted.found:
        return [], "as without a refusal"
    stage = wanted.stage_of(out, kept)
    faults = [] if status == MEMORY else [f"exit status {status}"]
    faults += [] if err in ((FAULT, b"") if is_behind_too else (FAULT,)) else [f"standard error {shown(err)}"]
    faults += [] if stage else [f"standard output {shown(out)} and a journal of {len(kept)} bytes, which are none of whole ticks"]
    return faults, f"status {status}, {stage or 'no whole ticks'}{'' if err else ', no fault line'}"


def went_on_faults(refusals, wanted, kept):
    """What is wrong of the next run, which makes the ticks that are left of the journal."""
    last, left = len(contents_of(wanted.found[3])), len(contents_of(kept))
    status, _, err, journal = ended([PROGRAM, *words_of(last - max(1, left))], refusals.folder)
    is_done = (status, err, journal) == (DONE, b"", wanted.found[3])
    return [] if is_done else [f"the next run: exit status {status}, {shown(err)}, a journal of {len(journal)} bytes"]


def check_kind(kind, library):
    """Each allocation of a kind of run is refused in its turn, alone and with all behind it."""
    with tempfile.TemporaryDirectory() as folder:
        refusals = Refusals(kind, folder, library)
        found, count = refusals.ended(0, False)
        is_done = (found[0], found[2]) == (DONE, b"") and count > 0
        checks.note(f"{kind.name} that is refused nothing", [] if is_done else [f"{shown(found)}, {count} allocations"])
        if not is_done:
            return
        wanted, outcomes = Wanted(kind, found), {False: collections.Counter(), True: collections.Counter()}
        for is_behind_too in (False, True):
            for number in range(1, count + 1):
                found, _ = refusals.ended(number, is_behind_too)
                faults, outcome = refusal_faults(found, wanted, is_behind_too)
                faults += went_on_faults(refusals, wanted, found[3]) if kind.is_run else []
                checks.note(f"{kind.name}, allocation {number} of {count} is refused{' with all behind it' if is_behind_too else ''}", faults)
                outcomes[is_behind_too][outcome] += 1
    print(f"{kind.name}: {count} allocations")
    for is_behind_too, counts in outcomes.items():
        told = "; ".join(f"{times} times {outcome}" for outcome, times in sorted(counts.items()))
        print(f"    {'with all behind it' if is_behind_too else 'one refused'}: {told}", flush=True)


def main():
    began = time.monotonic()
    with tempfile.TemporaryDirectory() as folder:
        library = os.path.join(folder, "refusing.so")
        source = os.path.join(TOP, "checks/harness/refusing.c")
        subprocess.run(["cc", "-O1", "-Wall", "-Wextra", "-fPIC", "-shared", "-o", library, source], check=True)
        for kind in kinds():
            if not sys.argv[1:] or any(word in kind.name for word in sys.argv[1:]):
                check_kind(kind, library)
    print(f"{time.monotonic() - began:.0f} seconds")
    checks.finish()


main()
