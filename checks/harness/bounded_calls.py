"""Calls of the built program with a result that is known, within a limit of memory and one of processor time.

A shape is a function that makes files in a folder and yields calls, one after another; what is between two of them may read what the one before
left. A call that does not end as it has to, or not within its limits, is a fault. To measure, a call is made again and again from the same files.
"""

import hashlib
import os
import resource
import signal
import subprocess
import tempfile
import threading

from checked_program import PROGRAM, shown, write_files

MIB = 1 << 20
WORLD, UPLOADS, JOURNAL = FILES = ("world.json", "uploads.bin", "journal.bin")
MOST_SECONDS = 600
MEMORY_FAULT = b"fault 11 Memory\n"


def words_of(ticks, files=FILES):
    return ["run", *files, "--ticks", str(ticks)]


class Call:
    """The words of a call and how it has to end. `out` is standard output, or says what is wrong of it; `journal` says what is wrong of the file that is left
    under the journal's name, or is its bytes; else it has to be untouched. Calls of one sort have one limit."""

    def __init__(self, name, words, out=b"", status=0, err=b"", journal=None, sort=None):
        self.name, self.words, self.out, self.status, self.err, self.journal = name, words, out, status, err, journal
        self.sort = sort or name


class Ended:
    """How a call ended, and the seconds of processor time that it took."""

    def __init__(self, status, out, err, seconds):
        self.status, self.out, self.err, self.seconds = status, out, err, seconds


def within(memory, seconds):
    """What a process does at its start to have so many bytes of memory, and so many seconds of processor time, at most."""

    def limit():
        if memory is not None:
            resource.setrlimit(resource.RLIMIT_AS, (memory, memory))
        if seconds is not None:
            # (a signal first, which says what it was)
            resource.setrlimit(resource.RLIMIT_CPU, (seconds, seconds + 1))

    return limit


def ended(words, folder, memory=None, seconds=None):
    """Runs the program in a folder. Its output goes to a file, so that nothing waits for its reader."""
    with tempfile.TemporaryFile() as out, tempfile.TemporaryFile() as err:
        limit = within(memory, None if seconds is None else int(seconds) + 1)
        run = subprocess.Popen([PROGRAM, *words], cwd=folder, stdin=subprocess.DEVNULL, stdout=out, stderr=err, preexec_fn=limit)
        clock = threading.Timer(MOST_SECONDS, run.kill)
        clock.start()
        _, status, used = os.wait4(run.pid, 0)
        clock.cancel()
        run.returncode = os.waitstatus_to_exitcode(status)
        out.seek(0)
        err.seek(0)
        return Ended(run.returncode, out.read(), err.read(), used.ru_utime + used.ru_stime)


def least_limit(folder):
    """A limit of memory under which the program begins at all, but for a MiB. None where it begins under none, as where it takes room for itself that it
    doesn't use."""
    fits = (limit for limit in range(MIB, 512 * MIB, MIB) if ended(["--version"], folder, limit).status == 0)
    return next(fits, None)


# ---- the files and the shapes


def put(folder, **files):
    """Makes the world file, the stream and the journal of these bytes; what is None is not there."""
    for name, content in zip(("world", "uploads", "journal"), FILES):
        path = os.path.join(folder, content)
        if name in files and files[name] is None:
            if os.path.exists(path):
                os.remove(path)
        elif name in files:
            write_files(folder, {content: files[name]})


def chosen(shapes, words):
    """The shapes whose names have a word that was given, or all."""
    parts = [word for word in words if not word.startswith("--")]
    return [shape for shape in shapes if not parts or any(part in shape.__name__ for part in parts)]


# ---- what is wrong of a call


def mark_of(path):
    """What changes with a file: its length, and the time of its last change."""
    if not os.path.exists(path):
        return None
    found = os.stat(path)
    return found.st_size, found.st_mtime_ns


def content_faults(got, wanted):
    """What is wrong of bytes, which may be very many."""
    if got == wanted:
        return []
    at = next((at for at, (one, other) in enumerate(zip(got, wanted)) if one != other), min(len(got), len(wanted)))
    return [f"{len(got):,} bytes, wanted {len(wanted):,}, which differ from {at:,} on: {shown(got[at : at + 40])}, wanted {shown(wanted[at : at + 40])}"]


def status_faults(call, found):
    names = {-signal.SIGXCPU: " (its processor time was used up)", -signal.SIGKILL: f" (killed, or none in {MOST_SECONDS} seconds)"}
    if found.status == call.status:
        return []
    return [f"exit status {found.status}{names.get(found.status, '')}, wanted {call.status}; standard error {shown(found.err)}"]


def faults_of(call, found, folder, before):
    """What is wrong of a call that ended so, before which the journal had this mark."""
    faults = status_faults(call, found)
    if faults:
        return faults
    faults += [] if found.err == call.err else [f"standard error {shown(found.err)}, wanted {shown(call.err)}"]
    wrong = call.out(found.out) if callable(call.out) else content_faults(found.out, call.out)
    faults += [f"standard output: {it}" for it in wrong]
    return faults + [f"{JOURNAL}: {it}" for it in journal_faults(call, os.path.join(folder, JOURNAL), before)]


def journal_faults(call, path, before):
    if call.journal is None:
        # (where there was none an empty one may be made)
        is_same = mark_of(path) == before or before is None and os.path.getsize(path) == 0
        return [] if is_same else ["it was touched"]
    if callable(call.journal):
        return call.journal(path)
    if not os.path.exists(path):
        return ["no such file"]
    with open(path, "rb") as it:
        return content_faults(it.read(), call.journal)


def hash_of(path):
    with open(path, "rb") as it:
        return hashlib.file_digest(it, "sha256").hexdigest()


# ---- making them


def made(call, folder, memory=None, seconds=None):
    """Makes a call: what is wrong of it, and how it ended."""
    before = mark_of(os.path.join(folder, JOURNAL))
    found = ended(call.words, folder, memory, seconds)
    faults = faults_of(call, found, folder, before)
    if not faults and seconds is not None and found.seconds > seconds:
        faults = [f"{found.seconds:.2f} seconds of processor time, and not {seconds:g} at most"]
    return faults, found


class Again:
    """The journal of a folder as it stands now, to which it is set back before a call is made once more."""

    def __init__(self, folder):
        self.path, self.kept = os.path.join(folder, JOURNAL), os.path.join(folder, "kept")
        if os.path.exists(self.path):
            self.copy(self.path, self.kept)

    @staticmethod
    def copy(path, other):
        subprocess.run(["cp", "--sparse=always", path, other], check=True)

    def back(self):
        if os.path.exists(self.kept):
            self.copy(self.kept, self.path)
        elif os.path.exists(self.path):
            os.remove(self.path)

    def forget(self):
        if os.path.exists(self.kept):
            os.remove(self.kept)
