#!/usr/bin/env python3
"""Compares what a person is told who has standard error on a terminal, by a pseudo-terminal, and that nobody else is told it.

It runs behind `rt ci`, which builds crates/world_server/out/world_server; the variable WORLD_SERVER names another program. Behind the fault line stands a line that says which file could not be
opened, read or written and the system's reason, which words there are, that another run has the journal, or who explains faults of world files. A run whose lines go elsewhere tells its tick once a
second. Where standard error is no terminal the program writes the fault line alone.
"""

import os
import pty
import re
import subprocess
import sys
import tempfile
import time

TOP = os.path.dirname(os.path.dirname(os.path.abspath(__file__)))
sys.path.insert(0, os.path.join(TOP, "checks/harness"))
from checked_program import PROGRAM, Checks, shown  # noqa: E402

checks = Checks(__file__)
note = checks.note

SMALL, NO_UPLOADS = os.path.join(TOP, "worlds/small.json"), os.path.join(TOP, "worlds/no_uploads.bin")
RUN_FORM = b"world_server run WORLD UPLOADS JOURNAL --ticks N [--workers K]"
NO_FILE = b"No such file or directory (os error 2)"
EXPLAINED = b"the world file has a fault: the guide for hosts has a table of them, and check_world.py tells where in the file it is\n"


def watched(words, folder, out=subprocess.DEVNULL):
    """The exit status, and what a terminal gets that is standard error, with line feeds as the program wrote them."""
    master, slave = pty.openpty()
    run = subprocess.Popen([PROGRAM, *words], cwd=folder, stdin=subprocess.DEVNULL, stdout=out, stderr=slave)
    os.close(slave)
    got = b""
    while piece := read_some(master):
        got += piece
    os.close(master)
    return run.wait(120), got.replace(b"\r\n", b"\n")


def read_some(master):
    try:
        return os.read(master, 1 << 16)
    except OSError:
        # (the other side is closed)
        return b""


def check(what, words, folder, status, text, **options):
    """Compares what the terminal gets, and that a pipe gets its first line alone."""
    found = watched(words, folder, **options)
    note(what, [] if found == (status, text) else [f"{found[0]}, {shown(found[1])}; wanted {status}, {shown(text)}"])
    piped = subprocess.run([PROGRAM, *words], cwd=folder, stdin=subprocess.DEVNULL, stdout=options.get("out", subprocess.DEVNULL), stderr=subprocess.PIPE, timeout=120)
    first = text.partition(b"\n")[0] + b"\n" if text else b""
    note(f"{what}, to a pipe", [] if (piped.returncode, piped.stderr) == (status, first) else [f"{piped.returncode}, {shown(piped.stderr)}"])


def check_files(folder):
    run = ["run", SMALL, NO_UPLOADS, "j", "--ticks", "1"]
    check("no world file", ["run", "none.json", *run[2:]], folder, 5, b"fault 5 ReadFault\nnone.json can't be opened: " + NO_FILE + b"\n")
    check("no upload stream", [*run[:2], "none.bin", *run[3:]], folder, 5, b"fault 5 ReadFault\nnone.bin can't be opened: " + NO_FILE + b"\n")
    check("a folder as the world file", ["run", ".", *run[2:]], folder, 5, b"fault 5 ReadFault\n. can't be read: Is a directory (os error 21)\n")
    check("a journal in no folder", [*run[:3], "none/j", *run[4:]], folder, 7, b"fault 7 DiskFault\nnone/j can't be opened: " + NO_FILE + b"\n")
    check("no journal to show", ["show", "none.journal", "3"], folder, 7, b"fault 7 DiskFault\nnone.journal can't be opened: " + NO_FILE + b"\n")
    check("no journal to replay", ["replay", "none.journal"], folder, 7, b"fault 7 DiskFault\nnone.journal can't be opened: " + NO_FILE + b"\n")
    check("no module", ["check", "none.wasm"], folder, 5, b"fault 5 ReadFault\nnone.wasm can't be opened: " + NO_FILE + b"\n")
    check("a world file with a fault", ["run", "empty.json", *run[2:]], folder, 3, b"fault 3 World Missing Version\n" + EXPLAINED)
    with open("/dev/full", "wb") as full:
        check("a full output", ["demo", "1", "1", "1"], folder, 6, b"fault 6 WriteFault\nstandard output can't be written: No space left on device (os error 28)\n", out=full)
    check("a run that is done", run, folder, 0, b"")


def check_words(folder):
    check("a choice without its words", ["run"], folder, 2, b"fault 2 Usage\nthe words are: " + RUN_FORM + b" (with --help alone behind the choice they are explained)\n")
    for words in ([], ["fly"], ["--helpp"]):
        check(f"the words {words}", words, folder, 2, b"fault 2 Usage\nworld_server --help lists the choices\n")


def check_lock(folder):
    """A journal that another run has."""
    with subprocess.Popen([PROGRAM, "run", SMALL, NO_UPLOADS, "held", "--ticks", "1000000"], cwd=folder, stdout=subprocess.DEVNULL) as other:
        while not os.path.exists(os.path.join(folder, "held")) or not os.path.getsize(os.path.join(folder, "held")):
            time.sleep(0.01)
        check("a journal that another run has", ["run", SMALL, NO_UPLOADS, "held", "--ticks", "1"], folder, 7, b"fault 7 DiskFault\nheld is open in another run, which has to end first\n")
        other.kill()


def told_for(seconds, words, folder):
    """What a terminal that is standard error gets of a run that is killed after so many seconds."""
    master, slave = pty.openpty()
    with subprocess.Popen([PROGRAM, *words], cwd=folder, stdin=subprocess.DEVNULL, stdout=subprocess.DEVNULL, stderr=slave) as run:
        os.close(slave)
        time.sleep(seconds)
        run.kill()
        run.wait(120)
        got = b""
        while piece := read_some(master):
            got += piece
    os.close(master)
    return got


def check_progress(folder):
    """A run tells rising ticks, each a second behind the one before, and takes the last away at its end."""
    began = time.monotonic()
    text = told_for(4.5, ["run", SMALL, NO_UPLOADS, "killed", "--ticks", "1000000"], folder)
    took = time.monotonic() - began
    ticks = [int(it) for it in re.findall(rb"\d+", text)]
    rises = re.fullmatch(rb"(?:\rtick \d+)+", text) and ticks == sorted(set(ticks)) and len(ticks) <= took
    note("a run tells its ticks once a second", [] if rises else [f"{shown(text)} in {took:.1f} seconds"])
    status, text = watched(["run", SMALL, NO_UPLOADS, "whole", "--ticks", str(max(ticks, default=1))], folder)
    told = re.fullmatch(rb"((?:\rtick \d+)*)(?:\r\x1b\[K)?", text)
    whole = status == 0 and told and bool(told[1]) == text.endswith(b"\r\x1b[K")
    note("a run takes the last tick away", [] if whole else [f"{status}, {shown(text)}"])


def main():
    with tempfile.TemporaryDirectory() as folder:
        with open(os.path.join(folder, "empty.json"), "wb") as it:
            it.write(b"{}")
        check_files(folder)
        check_words(folder)
        check_lock(folder)
        check_progress(folder)
    checks.finish()


if __name__ == "__main__":
    main()
