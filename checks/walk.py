#!/usr/bin/env python3
"""Follows README.md, docs/hosting.md, docs/players.md and docs/faq.md as a person does who types what stands there.

    checks/walk.py          all pages in one copy of the repository, in this order, and each page by itself in a fresh copy
    checks/walk.py PAGE..   these pages alone, in this order, in one copy

It runs behind `rt ci`, which builds crates/world_server/out/world_server; the variable WORLD_SERVER names another program. A copy has the tracked files as they stand, but
for the crates, and the program. Every command in an indented block is run, by a shell, in the top folder of the copy; what stands below it has to be what is printed, byte for byte, where a
line `..` stands for any others. What one page makes stays for the next: so no page may take a name that one before it has used for something else. Servers run behind the commands
that follow, at a port that is free, and are ended where the page ends them. A command that was run on the same files in another copy isn't run again: what it printed and made is taken
from there. The commands that aren't run stand in a table with the reason, and each of them has to stand in its page; what takes a compiler that isn't installed is passed over with
a word. In the end git finds nothing new or changed in the copy.
"""

import argparse
import hashlib
import os
import re
import shutil
import signal
import subprocess
import sys
import tempfile
import time

TOP = os.path.dirname(os.path.dirname(os.path.abspath(__file__)))
sys.path[:0] = [os.path.join(TOP, it) for it in ("oracle", "checks/harness")]
from checked_program import PROGRAM, Checks  # noqa: E402

checks = Checks(__file__)
note = checks.note

# (these two ask for the program too, when they are read)
from serve import KILL, SERVE, UPLOAD, Walk  # noqa: E402, I001
from program import printed_faults  # noqa: E402
from status_client import Silent, end_servers_when_ended  # noqa: E402

PAGES = ("README.md", "docs/hosting.md", "docs/players.md", "docs/faq.md")
# How long a command may take, in seconds.
PATIENCE = 300

# What a command in the top folder begins with. What stands behind one, up to the next, is what it prints.
COMMANDS = ("crates/world_server/out/world_server ", "players/", "worlds/", "checks/", "oracle/", "bench/", "clang ", "rm -f ", KILL)
# `rt run` proves and builds the program, and then runs it in the folder of its crate. It was proved and built before: it is run so here.
PROVED, BUILT = "rt run -- ", "out/world_server "

# What is not run, by the beginning of its first line.
GATE, FORM, ELSEWHERE = "it is the gate, which takes the prover and hours", "a form of words, and no command", "it takes another machine, or root"
PRINTED = "what is printed of a file that isn't there, which checks/shown.py compares"
NOT_RUN = {
    "README.md": {".ci/run": GATE},
    "docs/hosting.md": {
        "world_server run WORLD ": FORM,
        "world_server run --ticks N -- WORLD ": FORM,
        "world_server check MODULE": FORM,
        "world_server gen SEED ROOMS PART": FORM,
        "world_server demo SEED ROOMS TICKS": FORM,
        "world_server show JOURNAL TICK": FORM,
        "world_server replay JOURNAL": FORM,
        "world_server serve WORLD JOURNAL ": FORM,
        "ssh -N -L 7777:127.0.0.1:7777 ": ELSEWHERE,
        "socat TCP-LISTEN:7777,": ELSEWHERE,
        "stream {": ELSEWHERE,
        "fault 3 World BadValue Energy 1": PRINTED,
    },
}
# Texts that a person saves under a name, by their first line; with no name it is a text that checks/players.py builds.
TEXTS = {"docs/players.md": {'#include "path.h"': None}, "docs/faq.md": {'#include "screeps.h"': "logged.c"}}
# What is compared without its numbers: they say how far a server came meanwhile.
MOVING = {"README.md": (UPLOAD,), "docs/hosting.md": (UPLOAD,), "docs/players.md": (UPLOAD,)}
# What a command takes that may not be installed. What follows from a command that is passed over is passed over too.
TAKES = {"players/build.sh ": "clang", "clang ": "clang", "players/build_rust.sh ": "rustc for wasm32-unknown-unknown"}
FOLLOWS = {"docs/faq.md": "clang"}


def page_text(page):
    with open(os.path.join(TOP, page), encoding="utf-8") as it:
        return it.read()


# ---- what a page says


def steps_of(page):
    """The steps of a page: each a command with its place, and the lines that stand behind it. A block that is not run, or is a text, is one step. What begins
    a block and is neither is a step too, which is none that can be done."""
    whole = (*NOT_RUN.get(page, ()), *TEXTS.get(page, ()))
    found, last, is_cut = [], None, False
    for place, line in enumerate(page_text(page).splitlines(), 1):
        if line.strip() and not line.startswith("    "):
            last = None
        elif is_cut:
            last[1] = f"{last[1]}\n{line[4:]}"
        elif line.strip() and (last is None or line[4:].startswith(COMMANDS) and not (whole and last[1].startswith(whole))):
            last = [place, line[4:], []]
            found.append(last)
        elif last is not None and (line.strip() or last[1].startswith(tuple(TEXTS.get(page, ())) or "\0")):
            last[2].append(line[4:])
        is_cut = last is not None and not last[2] and last[1].endswith("\\")
    return found


def reason_of(page, command):
    return next((reason for start, reason in NOT_RUN.get(page, {}).items() if command.startswith(start)), None)


def table_faults(page):
    """What stands in a table and not in its page."""
    commands = [command for _, command, _ in steps_of(page)]
    starts = [*NOT_RUN.get(page, {}), *TEXTS.get(page, {}), *MOVING.get(page, ())]
    return [f"no step begins with {start!r}" for start in starts if not any(it.startswith(start) for it in commands)]


# ---- what a person does


def has_wasm_rustc():
    rustc = os.environ.get("RUSTC", "rustc")
    if not shutil.which(rustc):
        return False
    said = subprocess.run([rustc, "--print", "target-libdir", "--target", "wasm32-unknown-unknown"], capture_output=True, text=True)
    return said.returncode == 0 and os.path.isdir(said.stdout.strip())


def lacking():
    """What commands take and is not here."""
    return {what for what, there in (("clang", shutil.which("clang") and shutil.which("wasm-ld")), (TAKES["players/build_rust.sh "], has_wasm_rustc())) if not there}


def wanted_status(command, printed):
    """The exit status that the last line of what was printed stands for, or, with `check_world.py`, the first."""
    lines = printed.decode(errors="replace").splitlines() or [""]
    if command.startswith("worlds/check_world.py "):
        return 1 if lines[0].startswith(("fault ", "check_world.py: ")) else 0
    fault = re.match(r"fault (\d+) ", lines[-1])
    return int(fault[1]) if fault else 1 if re.match(r"\w+\.(py|sh): ", lines[-1]) else 0


class Remembered:
    """Commands that are typed in folders. One that was typed on the same files in another copy isn't run again: what it printed and made is there once more."""

    def __init__(self, store):
        self.store, self.results = store, {}

    def run(self, folder, command):
        """The exit status and what is printed."""
        named = sorted(it for it in set(re.split(r"[\s:=]+", command)) if os.path.isfile(os.path.join(folder, it)))
        key = (command, *((it, digest(os.path.join(folder, it))) for it in named))
        if key not in self.results:
            self.results[key] = self.typed(folder, command)
        status, out, made = self.results[key]
        for path, kept in made:
            os.makedirs(os.path.dirname(os.path.join(folder, path)), exist_ok=True)
            shutil.copy2(kept, os.path.join(folder, path))
        return status, out

    def typed(self, folder, command):
        before = stamps(folder)
        done = subprocess.run(["bash", "-c", command.replace(PROVED, BUILT)], cwd=folder, stdin=subprocess.DEVNULL, stdout=subprocess.PIPE, stderr=subprocess.STDOUT, timeout=PATIENCE)
        made = [(path, os.path.join(self.store, str(len(self.results)), path)) for path, stamp in stamps(folder).items() if stamp != before.get(path)]
        for path, kept in made:
            os.makedirs(os.path.dirname(kept), exist_ok=True)
            shutil.copy2(os.path.join(folder, path), kept)
        return done.returncode, done.stdout, made


def digest(path):
    with open(path, "rb") as it:
        return hashlib.file_digest(it, "sha256").hexdigest()


def stamps(folder):
    """When each file was written, but for those of git and of Python."""
    found = {}
    for at, folders, names in os.walk(folder):
        folders[:] = [it for it in folders if it not in (".git", "__pycache__")]
        for name in names:
            it = os.lstat(os.path.join(at, name))
            found[os.path.relpath(os.path.join(at, name), folder)] = (it.st_ino, it.st_size, it.st_mtime_ns)
    return found


class Reader:
    """A person in a copy of the repository, who does what stands in pages."""

    def __init__(self, folder, absent, remembered):
        self.folder, self.absent, self.remembered, self.passed_over = folder, absent, remembered, {}
        self.servers = Walk(folder)

    def faults_of(self, page, command, printed):
        text = next((name for start, name in TEXTS.get(page, {}).items() if command.startswith(start)), "")
        if text:
            with open(os.path.join(self.folder, text), "w", encoding="utf-8") as it:
                it.write("\n".join([command, *printed]).rstrip("\n") + "\n")
        if text != "":
            return []
        if not command.startswith(COMMANDS):
            return ["it is no command that is run, and stands in no table of those that aren't"]
        if command.startswith((SERVE, UPLOAD, KILL)):
            return self.servers.faults(command, printed)
        status, out = self.remembered.run(self.folder, command)
        wanted = wanted_status(command, out)
        return printed_faults(out, printed) + ([] if status == wanted else [f"exit status {status}, wanted {wanted}"])

    def passes_over(self, page, command):
        """Why a command isn't run: what it takes, or what those before it in its page take, is not here."""
        what = next((what for start, what in TAKES.items() if command.startswith(start)), FOLLOWS.get(page))
        if what in self.absent:
            self.passed_over.setdefault(what, []).append(command)
        return what in self.absent

    def follow(self, page, how):
        """Does what stands in a page, step by step."""
        for place, command, printed in steps_of(page):
            if reason_of(page, command) or self.passes_over(page, command):
                continue
            began = time.monotonic()
            try:
                faults = self.faults_of(page, command, printed)
            except (Silent, OSError, ValueError, IndexError, AttributeError, subprocess.TimeoutExpired) as error:
                faults = [f"{type(error).__name__}: {error}"]
            note(f"{page}:{place}, {how}: {command}", faults)
            if os.environ.get("TIMES"):
                print(f"{time.monotonic() - began:6.2f} {page}:{place} {command[:90]}", flush=True)
        server = self.servers.server
        note(f"{page}, {how}: no server is left running", ["one is"] if server and server.run.poll() is None else [])
        self.servers.end()


# ---- copies


def git(folder, *words):
    named = ["-c", "user.name=walk", "-c", "user.email=walk", "-c", "core.excludesFile=/dev/null", "-c", "init.defaultBranch=main"]
    done = subprocess.run(["git", *named, *words], cwd=folder, stdin=subprocess.DEVNULL, capture_output=True, text=True, timeout=PATIENCE)
    if done.returncode:
        sys.exit(f"walk.py: git {words[0]}: {(done.stderr.strip() or done.stdout.strip() or 'it failed').splitlines()[0]}")
    return done.stdout


def copy_into(folder, paths):
    """The tracked files as they stand, and the built program where `rt ci` leaves it."""
    for path in paths:
        source, target = os.path.join(TOP, path), os.path.join(folder, path)
        if os.path.lexists(source):
            os.makedirs(os.path.dirname(target), exist_ok=True)
            shutil.copy2(source, target, follow_symlinks=False)
    os.makedirs(os.path.join(folder, "crates/world_server/out"))
    os.symlink(PROGRAM, os.path.join(folder, "crates/world_server/out/world_server"))


def walk(pages, how, paths, absent, remembered):
    """Follows pages in one copy; the person who did."""
    with tempfile.TemporaryDirectory(prefix="walk.") as folder:
        copy_into(folder, paths)
        git(folder, "init", "-q")
        git(folder, "add", "-A")
        git(folder, "commit", "-q", "-m", "as it stands")
        reader = Reader(folder, absent, remembered)
        try:
            for page in pages:
                reader.follow(page, how)
        finally:
            reader.servers.end()
        left = git(folder, "status", "--porcelain", "--untracked-files=all").splitlines()
        note(f"what git finds behind {', '.join(pages)}, {how}", [f"{line[:2].strip()} {line[3:]}: .gitignore or the page has to change" for line in left])
    return reader


def main():
    # (who starts this in the background may have SIGINT ignored, and what it starts would ignore it too)
    signal.signal(signal.SIGINT, signal.default_int_handler)
    parser = argparse.ArgumentParser(prog="walk.py", description="Follows the pages of the repository as a person does, and compares what is printed.")
    parser.add_argument("pages", nargs="*", metavar="PAGE", help=f"{', '.join(PAGES)}; all of them where none is named")
    pages = parser.parse_args().pages
    for page in pages:
        if page not in PAGES:
            sys.exit(f"walk.py: {page} is none of {', '.join(PAGES)}")
    if not shutil.which("git") or not os.path.exists(os.path.join(TOP, ".git")):
        print("checks/walk.py: passed over, as there is no git, or the folder is none of git's")
        return
    end_servers_when_ended()
    # (what lies in crates/ beside the program is of no use to a person who reads these pages, and makes copies slow)
    paths = [path for path in git(TOP, "ls-files", "-z").split("\0") if path and not path.startswith("crates/")]
    absent = lacking()
    for page in pages or PAGES:
        if not os.path.isfile(os.path.join(TOP, page)):
            sys.exit(f"walk.py: there is no {page}")
        note(f"the tables for {page}", table_faults(page))
    with tempfile.TemporaryDirectory(prefix="walk.") as store:
        remembered = Remembered(store)
        readers = [walk(pages or PAGES, "behind those before it", paths, absent, remembered)]
        # (the first page by itself is the beginning of the walk above)
        readers += [] if pages else [walk([page], "by itself", paths, absent, remembered) for page in PAGES[1:]]
    for what in sorted(absent):
        commands = [command for reader in readers for command in reader.passed_over.get(what, [])]
        if commands:
            print(f"checks/walk.py: {len(commands)} commands passed over, as there is no {what}")
    checks.finish()


if __name__ == "__main__":
    main()
