"""Runs the built program over real files and compares all that it does: exit status, standard output and standard
error byte for byte, and each file of the folder that it runs in, before and after.

The environment variable WORLD_SERVER names another program than the one that `rt ci` builds.
"""

import hashlib
import os
import subprocess
import sys
import tempfile

TOP = os.path.dirname(os.path.dirname(os.path.dirname(os.path.abspath(__file__))))
PROGRAM = os.path.abspath(os.environ.get("WORLD_SERVER") or os.path.join(TOP, "crates/world_server/out/world_server"))
LARGE = 1 << 26
MOST_FAULTS = 60


def run(words, folder, stdout=None):
    """Runs the program in a folder: its exit status, its standard output and its standard error."""
    done = subprocess.run(
        [PROGRAM, *words], cwd=folder, stdin=subprocess.DEVNULL, stdout=stdout or subprocess.PIPE, stderr=subprocess.PIPE, timeout=120
    )
    return done.returncode, done.stdout or b"", done.stderr


def content_of(path):
    """The bytes of a file, and of a very large one its length and hash."""
    with open(path, "rb") as it:
        content = it.read()
    return content if len(content) < LARGE else (len(content), hashlib.sha256(content).hexdigest())


def files_in(folder):
    """Each file below a folder with its bytes, and None for a folder."""
    found = {}
    for at, folders, names in os.walk(folder):
        for name in folders:
            found[os.path.relpath(os.path.join(at, name), folder)] = None
        for name in names:
            path = os.path.join(at, name)
            found[os.path.relpath(path, folder)] = content_of(path)
    return found


def write_files(folder, files):
    """Makes files: each of its bytes, of so many bytes of 0, of a front and so many bytes in all, or None for a folder."""
    for path, content in files.items():
        path = os.path.join(folder, path)
        if content is None:
            os.mkdir(path)
            continue
        front, length = (b"", content) if isinstance(content, int) else content if isinstance(content, tuple) else (content, len(content))
        with open(path, "wb") as it:
            it.write(front)
            # (zeros that take no room)
            it.truncate(length)


def shown(value):
    text = repr(value)
    return text if len(text) < 300 else text[:300] + f".. ({len(value)})"


def file_faults(path, got, wanted):
    return [] if got == wanted else [f"{path}: {shown(got)}, wanted {shown(wanted)}"]


def faults_of(words, files, status, out=b"", err=b"", after=None, stdout=None, compare=file_faults):
    """What is wrong where the program runs on these files: `compare` says it of a file that should have these bytes."""
    with tempfile.TemporaryDirectory() as folder:
        write_files(folder, files)
        before = files_in(folder)
        found = run(words, folder, stdout)
        left, wanted_files = files_in(folder), {**before, **(after or {})}
    names = ("exit status", "standard output", "standard error")
    faults = [f"{what}: {shown(got)}, wanted {shown(want)}" for what, got, want in zip(names, found, (status, out, err)) if got != want]
    for path in sorted({*left, *wanted_files}):
        if path not in left:
            faults.append(f"{path}: no such file, wanted {shown(wanted_files[path])}")
        elif path not in wanted_files:
            faults.append(f"{path}: a file that should not be there: {shown(left[path])}")
        else:
            faults += compare(path, left[path], wanted_files[path])
    return faults


class Checks:
    """Counts what passed and what failed, and prints each failure. Where it needs no program, what is compared with it is passed over."""

    def __init__(self, path, has_program=True):
        self.path, self.passed, self.failed, self.has_program = os.path.relpath(path), 0, 0, has_program
        if has_program and not os.path.isfile(PROGRAM):
            sys.exit(f"{self.path}: there is no {os.path.relpath(PROGRAM)}: `rt ci` builds it")

    def note(self, name, faults, rows=1):
        """Notes a check of so many rows, of which each fault is one that failed."""
        failed = min(rows, len(faults))
        self.passed += rows - failed
        self.failed += failed
        if faults:
            print(f"FAILED: {name}")
            for fault in faults[:MOST_FAULTS]:
                print(f"    {fault}")
            if len(faults) > MOST_FAULTS:
                print(f"    and {len(faults) - MOST_FAULTS:,} more")

    def check(self, name, words, files, status, out=b"", err=b"", after=None, stdout=None):
        """Runs the program on these files. `after` has the files that are made or changed; all others stay."""
        self.note(name, faults_of(words, files, status, out, err, after, stdout))

    def finish(self):
        print(f"{self.path}:")
        print(f"{self.passed} passed, {self.failed} failed")
        sys.exit(1 if self.failed else 0)
