#!/usr/bin/env python3
"""Shows that each check of checks/failures.py and of checks/stops.py can fail: it runs them on the built program with one fault after another, each
of which has to be refused by the checks that are named here, and all kinds of checks have to refuse one. It takes some minutes, a C compiler, strace
and Linux.

    checks/by_hand/faulty_programs.py

builds checks/by_hand/faulty.c, which comes between the program and the C library and makes the fault. Words name the faults that are tried, in place
of all.
"""

import os
import re
import subprocess
import sys
import tempfile

TOP = os.path.dirname(os.path.dirname(os.path.dirname(os.path.abspath(__file__))))
PROGRAM = os.path.abspath(os.environ.get("WORLD_SERVER") or os.path.join(TOP, "crates/world_server/out/world_server"))

# The kinds of checks of checks/failures.py, by a part of their names that no other has.
WRITES, SYNCS = r"call \d+ of \d+ of write,\S+ fails", r"call \d+ of \d+ of fsync,\S+ fails"
NO_WRITES, NO_SYNCS = r"write,\S+ of the journal are made", r"fsync,\S+ of the journal are made"
RUNS, ENOUGH, SAID = r"a run within", r"memory ran out before the run", r"the fault line of status 11"
WORLD, STREAM, MODULES, UNTIL = r"a world file of 64 MiB", r"a stream of 256 MiB", r"a check within", r"memory ran out in a check"
PASSED_OVER, AS_USUAL = r"a pipe .* SIGPIPE passed over", r"a pipe .* SIGPIPE as usual"
KEPT, BY_FRAME = r"read \d+ of \d+ of the journal fails", r"the journal is read frame by frame"
FRAME, LINES, OUTPUT = r"a frame of 40 MiB", r"a million entries", r"write \d+ to standard output fails"
INTERRUPTED, PIECES, READS = r"\S+ of \S+ is interrupted", r"is read in pieces", r"read \d+ of \d+ of \S+ fails"
FOLDER, NO_FOLDER = r"the sync of the journal's folder fails", r"the journal's folder is synced"
TRACED, ORDER, OWN, SYNCED = r"a run that is traced", r"each frame is synced before", r"each frame has lines", r"each frame is synced$"
KINDS = (WRITES, SYNCS, NO_WRITES, NO_SYNCS, RUNS, ENOUGH, SAID, WORLD, STREAM, MODULES, UNTIL, PASSED_OVER, AS_USUAL)
KINDS += (FOLDER, NO_FOLDER, KEPT, BY_FRAME, FRAME, LINES, OUTPUT, INTERRUPTED, PIECES, READS, TRACED, ORDER, OWN, SYNCED)

FAULTS = {
    "no fault": (),
    "no sync": (NO_SYNCS, ORDER, SYNCED),
    "no sync of the folder": (NO_FOLDER,),
    "failed sync of the folder passed over": (FOLDER,),
    "sync behind line": (ORDER,),
    "line before frame": (OWN,),
    "first frame in two pieces": (NO_WRITES,),
    "third frame not written": (TRACED,),
    "failed sync passed over": (SYNCS,),
    "failed write passed over": (WRITES,),
    "interrupted call fails": (INTERRUPTED,),
    "failed line passed over": (OUTPUT, PASSED_OVER, AS_USUAL),
    "frame lost with its line": (OUTPUT, PASSED_OVER, AS_USUAL),
    "SIGPIPE as usual": (AS_USUAL,),
    "failed read is the end": (READS,),
    "read at once": (PIECES,),
    "failed read of the journal is the end": (KEPT,),
    "journal read at once": (BY_FRAME,),
    "long frame cut": (FRAME,),
    "long lines cut": (LINES,),
    "no fault line": (SAID, WORLD, STREAM, READS, OUTPUT),
    "no memory ends all": (RUNS, WORLD, STREAM, MODULES, UNTIL),
    "no memory is a read fault": (RUNS, WORLD, STREAM, MODULES, UNTIL),
    "no memory spoils the journal": (RUNS, ENOUGH),
}

# Those of checks/stops.py.
FULL, CLOSED = r"standard output is full", r"standard output is closed"
TWO_CLOSED, ALL_CLOSED = r"standard input and standard error are closed", r"all three are closed"
PIPE, PIPE_READ, PIPE_INPUT = r"a pipe as the journal$", r"a pipe with .* of a (show|replay)$", r"a pipe as the (world|upload|module)"
PLACES = r"(a folder|a file in no folder|a file in a file|an empty path) as the journal"
INPUTS, JOURNALS = r"a (world file|module) that may not|an upload stream that may not", r"a journal (of no rights|that may be .*)$"
ROOMS, UNREAD = r"a folder (of no rights|in which nothing may be made)$", r"a folder that may not be read"
NO_INPUTS, NO_OPENS = r"refuses to open the (world|upload|module)", r"refuses to open the journal$"
NO_READS, NO_FOLDERS, NO_MAKING = r"refuses to open the journal of", r"refuses to open the journal's folder", r"refuses to make the journal"
MADE, NO_WRITE, NO_ROOM = r": \S+ are made", r"of write,\S+ fails by EIO", r"of write,\S+ fails by ENOSPC"
NO_SYNC, NO_CUT = r"of fsync,\S+ fails by EIO", r"of ftruncate fails by EIO"
LENGTH, NO_LENGTH = r"asks for its length", r"for its length fails"
AGAIN_READ, AGAIN_WRITE, AGAIN_SYNC = (rf"each of {kind},\S+ of journal.bin is interrupted" for kind in ("read", "write", "fsync"))
AGAIN_CUT, AGAIN_FOLDER, AGAIN_OPEN = r"each of ftruncate of", r"each of fsync,\S+ of the folder is", r"each of openat of"
KINDS_OF_STOPS = (FULL, CLOSED, TWO_CLOSED, ALL_CLOSED, PIPE, PIPE_READ, PIPE_INPUT, PLACES, INPUTS, JOURNALS, ROOMS, UNREAD, NO_INPUTS, NO_OPENS)
KINDS_OF_STOPS += (NO_READS, NO_FOLDERS, NO_MAKING, MADE, NO_WRITE, NO_ROOM, NO_SYNC, NO_CUT, LENGTH, NO_LENGTH)
LOCKED, NO_LOCK, UNASKED = r"a run locks it once", r"its lock fails by", r"asks for no lock"
TWO_RUNS, SIZES = r"two runs on one journal", r"a limit of \d+ bytes of a file, the signal as usual"
KINDS_OF_STOPS += (LOCKED, NO_LOCK, UNASKED, TWO_RUNS, SIZES)
KINDS_OF_STOPS += (AGAIN_READ, AGAIN_WRITE, AGAIN_SYNC, AGAIN_CUT, AGAIN_FOLDER, AGAIN_OPEN)

FAULTS_OF_STOPS = {
    "no fault": (),
    "failed line passed over": (FULL, CLOSED),
    "closed input ends all": (TWO_CLOSED,),
    "fault line into the journal": (ALL_CLOSED,),
    "pipe as a file": (PIPE,),
    "pipe fails": (PIPE_READ, PIPE_INPUT),
    "refused journal kept in memory": (PLACES, JOURNALS, ROOMS, NO_OPENS, NO_MAKING),
    "refused file is empty": (INPUTS, NO_INPUTS, NO_READS),
    "refused folder ends all": (UNREAD, NO_FOLDERS),
    "lock passed over": (LOCKED, TWO_RUNS),
    "failed lock passed over": (NO_LOCK, TWO_RUNS),
    "readers lock too": (UNASKED,),
    "SIGXFSZ passed over": (SIZES,),
    "no cut": (MADE,),
    "failed cut passed over": (NO_CUT,),
    "failed sync passed over": (NO_SYNC,),
    "failed write passed over": (NO_WRITE, NO_ROOM),
    "length by a seek": (LENGTH,),
    "failed length is nothing": (NO_LENGTH,),
    "interrupted call fails": (AGAIN_READ, AGAIN_WRITE, AGAIN_SYNC, AGAIN_CUT, AGAIN_FOLDER, AGAIN_OPEN),
}

SCRIPTS = {"checks/failures.py": (KINDS, FAULTS), "checks/stops.py": (KINDS_OF_STOPS, FAULTS_OF_STOPS)}


def failed(folder, script, fault):
    """The names of the checks of a script that fail where the program has this fault."""
    program = os.path.join(folder, "program")
    with open(program, "w", encoding="utf-8") as it:
        it.write(f"#!/bin/sh\nFAULT='{fault}' LD_PRELOAD='{folder}/faulty.so' exec '{PROGRAM}' \"$@\"\n")
    os.chmod(program, 0o755)
    environment = {**os.environ, "WORLD_SERVER": program}
    done = subprocess.run([sys.executable, os.path.join(TOP, script)], env=environment, stdin=subprocess.DEVNULL, capture_output=True, text=True)
    if not re.search(r"^\d+ passed, \d+ failed$", done.stdout, re.M):
        sys.exit(f"{fault}: the checks of {script} end before they are done\n{done.stdout}{done.stderr}")
    return re.findall(r"^FAILED: (.*)$", done.stdout, re.M)


def try_faults(folder, script, named):
    """How many faults are not refused as they have to be, and kinds of checks that refuse none, where those named here are tried, or all."""
    kinds, faults = SCRIPTS[script]
    wrong, refused = 0, set()
    for fault in [it for it in faults if not named or it in named]:
        names = failed(folder, script, fault)
        found = {kind for kind in kinds if any(re.search(kind, name) for name in names)}
        refused |= found
        lacking = set(faults[fault]) - found
        is_right = not names if not faults[fault] else not lacking
        wrong += not is_right
        said = "" if is_right else ", and not " + ", ".join(sorted(lacking)) if faults[fault] else ": " + names[0]
        print(f"{script}, {fault}: {len(names)} checks fail{said}", flush=True)
    for kind in kinds:
        if kind not in refused and not named:
            wrong += 1
            print(f"{script}: no fault makes this check fail: {kind}")
    return wrong


def main():
    named = sys.argv[1:]
    for fault in named:
        if not any(fault in faults for _, faults in SCRIPTS.values()):
            sys.exit(f"there is no fault {fault}")
    with tempfile.TemporaryDirectory() as folder:
        # (the user nobody runs it too)
        os.chmod(folder, 0o755)
        source = os.path.join(TOP, "checks/by_hand/faulty.c")
        subprocess.run(["cc", "-O1", "-Wall", "-Wextra", "-fPIC", "-shared", "-o", f"{folder}/faulty.so", source], check=True)
        wrong = sum(try_faults(folder, script, named) for script in SCRIPTS)
    sys.exit(1 if wrong else 0)


if __name__ == "__main__":
    main()
