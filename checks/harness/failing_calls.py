"""Runs of the built program over the files of one folder, and under `strace`, which lets single calls fail."""

import os
import re
import shutil
import subprocess

from bounded_calls import FILES, words_of
from checked_program import PROGRAM, content_of, shown, write_files
from worlds import SMALL, Refused, Upload, journal_of

NOBODY = 9

# The calls of files, by kind.
READS = "read,pread64,readv,preadv"
WRITES = "write,pwrite64,writev,pwritev"
SYNCS = "fsync,fdatasync"
CUTS = "ftruncate"
OPENS = "openat"
LENGTHS = "statx,fstat,newfstatat"
LOCKS = "flock"


def of_nobody(tick, count, length):
    """Uploads of nobody, which are judged at the start of a tick."""
    return [Upload(tick, NOBODY, Refused("Malformed", bytes(length)))] * count


def ended(command, folder, **others):
    """The exit status, standard output and standard error of a command, and the journal that it left."""
    options = {"stdin": subprocess.DEVNULL, "stdout": subprocess.PIPE, "stderr": subprocess.PIPE, "timeout": 60}
    try:
        done = subprocess.run(command, cwd=folder, **{**options, **others})
    except subprocess.TimeoutExpired:
        return "none in a minute", b"", b"", b""
    path = os.path.join(folder, FILES[2])
    return done.returncode, done.stdout or b"", done.stderr, content_of(path) if os.path.isfile(path) else b""


def forget_journal(folder):
    path = os.path.join(folder, FILES[2])
    if os.path.exists(path):
        os.remove(path)


def went_on_faults(folder, steps, ticks):
    """What is wrong where the next run of the small world makes the ticks that are left."""
    status, _, err, kept = ended([PROGRAM, *words_of(ticks)], folder)
    is_done = (status, err, kept) == (0, b"", journal_of(SMALL, steps))
    return [] if is_done else [f"a run of {ticks} ticks behind it: exit status {status}, standard error {shown(err)}, a journal of {len(kept)} bytes"]


# ---- calls that fail


def may_trace():
    """Why no call can be made to fail, or None."""
    if not shutil.which("strace"):
        return "strace is not installed"
    done = subprocess.run(["strace", "-o", os.devnull, "true"], stdin=subprocess.DEVNULL, capture_output=True, timeout=60)
    return None if done.returncode == 0 else "strace may not trace here"


def traced(words, folder, *options):
    """Runs the program under strace: how it ended, and the calls that were traced, one a line."""
    trace = os.path.join(folder, "trace")
    found = ended(["strace", "-f", "-y", "-qq", "-o", trace, *options, PROGRAM, *words], folder)
    with open(trace, encoding="utf-8", errors="replace") as it:
        calls = it.read().splitlines()
    os.remove(trace)
    return found, calls


def at_path(folder, path):
    """That calls of this file alone are traced."""
    return "-P", os.path.realpath(os.path.join(folder, path))


def calls_of(words, folder, path, kinds, kept=b""):
    """How many calls of these kinds a run makes of a file, where this journal stands."""
    write_files(folder, {FILES[2]: kept})
    _, calls = traced(words, folder, *at_path(folder, path), "-e", f"trace={kinds}")
    return sum(re.search(r"\b(" + kinds.replace(",", "|") + r")\(", call) is not None for call in calls)


def failing(words, folder, path, kinds, number, error, kept=b""):
    """How a run ends in which this call of a file fails, where this journal stands."""
    write_files(folder, {FILES[2]: kept})
    return traced(words, folder, *at_path(folder, path), "-e", f"trace={kinds}", "-e", f"inject={kinds}:error={error}:when={number}")[0]
