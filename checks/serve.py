#!/usr/bin/env python3
"""What `serve` does for clients that come over sockets, beside its ticks: replies, uploads, the journal, crashes, and strangers who mean no good.

It runs behind `rt ci`, which builds crates/world_server/out/world_server. The client of checks/harness/status_client.py is written from
docs/formats.md alone, and the journal is read by oracle/journal_reader.py, which is too. Whatever was told of a tick has to stand in the journal, and
each upload that was queued is in it once, or was still waiting; a `run` of the uploads that the journal has makes the same file. Every wait has an
end. Servers are killed at 20 random moments, or at so many as `--kills N` says. Where `strace` is installed and may trace, no thread can be made, or
only some. The words of README.md and docs/ that start a server or upload to it are run, and players/upload.py is.
"""

import argparse
import json
import os
import random
import re
import resource
import select
import shutil
import signal
import socket
import subprocess
import sys
import tempfile
import threading
import time

TOP = os.path.dirname(os.path.dirname(os.path.abspath(__file__)))
sys.path[:0] = [os.path.join(TOP, it) for it in ("oracle", "checks/harness")]
from checked_program import Checks, content_of, files_in, run, shown, write_files  # noqa: E402
from failing_calls import may_trace  # noqa: E402
from journal_reader import ACCEPTED, RESULTS, is_empty, read  # noqa: E402
from module_bytes import OPENING, player_module, section  # noqa: E402
from status_client import HOST, Line, Server, Silent, Status, end_servers_when_ended, free_port  # noqa: E402
from worlds import SMALL, bytes_of, journal_of, played, room, thing, upload_entry, world  # noqa: E402

checks = Checks(__file__)
note = checks.note

LOOP = bytes.fromhex("0061736D0100000001040160000003020100070801046C6F6F7000000A0901070003400C000B0B")
USAGE = b"fault 2 Usage\n"
FILES = ("world.json", "journal.bin")
MIB = 1 << 20


def served(**more):
    """The small world with a player, whose token is `abc`, and one without a token."""
    return {**SMALL, "players": [{"player": 1, "token": "abc", "limit": 20}, {"player": 2, "limit": 20}], **more}


def checked(name, check):
    """Runs a check, whose answer is a list of faults; that nothing came in time is one too."""
    try:
        note(name, check())
    except (Silent, OSError, ValueError, IndexError, AttributeError, TypeError) as error:
        note(name, [f"{type(error).__name__}: {error}"])


def differing(found, wanted, what=""):
    return [] if found == wanted else [f"{what}{': ' if what else ''}{shown(found)}, wanted {shown(wanted)}"]


def journal_in(folder, path="journal.bin"):
    path = os.path.join(folder, path)
    content = content_of(path) if os.path.exists(path) else b""
    return None if is_empty(content) else read(content)


def ticks_in(folder):
    found = journal_in(folder)
    return len(found.records) if found else 0


def in_folder(first, check, **options):
    """Runs a check with a server of a world, in a folder of its own."""
    with tempfile.TemporaryDirectory() as folder:
        write_files(folder, {"world.json": bytes_of(first)})
        with Server(folder, **options) as server:
            return check(folder, server)


# ---- what the journal has of what was told


def status_of(it):
    return Status(it.tick, len(it.rooms), len(it.things()), it.energy())


def lines_of(journal):
    """For each world of a journal what PLAYER tells of each player."""
    counts, found = {}, []
    for at, it in enumerate(journal.worlds):
        for upload in journal.records[at - 1].uploads if at else ():
            counts[upload.player] = counts.get(upload.player, (0,))[0] + 1, RESULTS[upload.result]
        found.append({number: Line(number, *counts.get(number, (0, "none")), one.bucket, one.points) for number, one in it.accounts.items()})
    return found


def told_faults(journal, told):
    """What is wrong of what one session was told, in its order, where this journal stands: each status is that of its tick, ticks never fall, and each
    player's line is that of a tick between."""
    faults, worlds, lines, least = [], journal.worlds, lines_of(journal), 0
    first = worlds[0].tick
    for at, it in enumerate(told):
        if isinstance(it, Status):
            place = it.tick - first
            if not least <= place < len(worlds):
                faults.append(f"{it} behind tick {first + least}, and the journal ends with {worlds[-1].tick}")
                continue
            faults += differing(it, status_of(worlds[place]))
            least = place
        elif isinstance(it, Line):
            later = [other.tick - first for other in told[at:] if isinstance(other, Status)]
            between = range(least, min([*later, len(worlds) - 1]) + 1)
            faults += [] if any(lines[place].get(it.player) == it for place in between) else [f"{it} is of no tick from {first + least} on"]
    return faults


# ---- many clients at once

TICKS, CLIENTS, TURNS, PACE = 64, 8, 12, 30
TOKENS = {1: b"first", 2: b"~second!", 3: b"third"}


def tagged(content, tag):
    """A module with a custom section that makes it another one."""
    return content + section(0, b"\1x" + tag)


def kinds_of_modules():
    """Modules by the result of their upload."""
    found = [("accepted", content_of(os.path.join(TOP, "players", f"{name}.wasm"))) for name in ("colony", "harvester", "dropper")]
    return [*found, ("accepted", player_module(b"")), ("NoLoop", OPENING), ("FloatRefused", OPENING + section(1, b"\1\x60\1\x7d\0")), ("Malformed", b"garbage")]


def colonies():
    first = json.loads(content_of(os.path.join(TOP, "worlds/colonies.json")))
    first["players"] += [{"player": 3, "limit": 30}, {"player": 4, "limit": 10}]
    for account in first["players"]:
        account.pop("token", None)
        if account["player"] in TOKENS:
            account["token"] = TOKENS[account["player"]].decode()
    return first


class Session(threading.Thread):
    """A client who uploads and asks, and notes all that it was told: `told` in its order, and `uploads` with how many things were told before."""

    def __init__(self, server, number, is_last):
        super().__init__(daemon=True)
        self.server, self.number, self.is_last, self.draw = server, number, is_last, random.Random(number)
        self.told, self.uploads, self.faults, self.kinds = [], [], [], kinds_of_modules()

    def run(self):
        try:
            with self.server.client() as client:
                for turn in range(TURNS):
                    self.turn(client, turn)
                    time.sleep(self.draw.uniform(0, 0.05))
                while self.is_last and self.told[-1].tick < TICKS:
                    time.sleep(0.01)
                    self.told.append(client.status())
                if self.is_last:
                    self.upload(client, TURNS)
                self.told.append(client.status())
                self.faults += [] if client.quit() else ["QUIT doesn't end the session"]
        except (Silent, OSError, IndexError) as error:
            self.faults.append(f"{type(error).__name__}: {error}")

    def turn(self, client, turn):
        self.told.append(client.status())
        self.upload(client, turn)
        number = self.draw.randint(1, 4)
        line = client.player(number)
        self.told.append(line)
        self.faults += [] if isinstance(line, Line) and line.player == number else [f"PLAYER {number} is answered {line}"]
        self.told.append(client.status())

    def upload(self, client, turn):
        player = self.draw.randint(1, 3)
        result, content = self.draw.choice(self.kinds)
        tag = b"%d.%d" % (self.number, turn)
        content = content + tag if result == "Malformed" else tagged(content, tag)
        reply = client.upload(player, TOKENS[player], content)
        self.uploads.append((len(self.told), player, content, result, reply))

    def decision_faults(self, decided, last):
        """What is wrong of the uploads of this session, by where the journal has each content. A tick takes all that waits when it begins: so one that was
        queued behind what was told of a tick and before what was told of another is decided in a tick behind the one, and at most two behind the other."""
        faults, order = [], []
        for at, player, content, result, reply in self.uploads:
            found = decided.get(content, [])
            before = [it.tick for it in self.told[:at] if isinstance(it, Status)][-1]
            after = next((it.tick for it in self.told[at:] if isinstance(it, Status)), last)
            if reply not in (b"queued", b"full"):
                faults.append(f"an upload is answered {reply}")
            elif reply == b"full" and found:
                faults.append("an upload that found no place is in the journal")
            elif reply == b"queued" and not found and after + 2 <= last:
                faults.append(f"an upload that was queued before tick {after} was told is not in the journal of {last} ticks")
            elif len(found) > 1:
                faults.append(f"an upload is in the journal {len(found)} times")
            for place, entry in found:
                order.append(place)
                faults += [] if before < place[0] <= after + 2 else [f"an upload between ticks {before} and {after} is decided in {place[0]}"]
                faults += differing((entry.player, RESULTS[entry.result]), (player, result), "an upload")
        return faults + ([] if order == sorted(order) else ["the uploads of a session are out of order"])


def stream_of_journal(journal):
    """The upload stream of what a journal has."""
    return b"".join(
        upload_entry(it.tick, one.player, one.module) for it, record in zip(journal.worlds, journal.records) for one in record.uploads
    )


def check_clients(workers):
    """Eight clients at once, of which four are served at a time, beside 64 ticks."""
    name = f"eight clients, {workers} workers"
    with tempfile.TemporaryDirectory() as folder:
        write_files(folder, {"world.json": bytes_of(colonies())})
        with Server(folder, TICKS, CLIENTS, pace=PACE, workers=workers) as server:
            sessions = [Session(server, number, number % 4 == 0) for number in range(CLIENTS)]
            for one in sessions:
                one.start()
            for one in sessions:
                one.join(60)
            note(f"{name}, how it ends", differing((server.ended(), server.text()), (0, b"serving at 127.0.0.1:%d\n" % server.port)))
        journal = journal_in(folder)
        note(f"{name}, the ticks", differing(len(journal.records), TICKS))
        decided = {}
        for record in journal.records:
            for at, entry in enumerate(record.uploads):
                decided.setdefault(entry.module, []).append(((record.tick, at), entry))
        queued = {content for one in sessions for _, _, content, _, reply in one.uploads if reply == b"queued"}
        for one in sessions:
            note(f"{name}, what session {one.number} was told", [*one.faults, *told_faults(journal, one.told)], len(one.told))
            note(f"{name}, what became of its uploads", one.decision_faults(decided, TICKS), len(one.uploads))
        note(f"{name}, no other uploads", [] if set(decided) <= queued else ["the journal has an upload that was not queued"])
        note(f"{name}, some were told of ticks", [] if len({it.tick for one in sessions for it in one.told if isinstance(it, Status)}) > 10 else ["of ten at most"])
        note(f"{name}, some were decided, and some waited at the end", differing((len(decided) > 20, queued > set(decided)), (True, True)))
        note(f"{name}, a replay", differing(run(["replay", "journal.bin"], folder), (0, b"replayed %d\n" % TICKS, b"")))
        write_files(folder, {"uploads.bin": stream_of_journal(journal)})
        done = run(["run", "world.json", "uploads.bin", "other.bin", "--ticks", str(TICKS)], folder)
        same = content_of(os.path.join(folder, "other.bin")) == content_of(os.path.join(folder, "journal.bin"))
        note(f"{name}, a run of the same uploads", differing((done[0], same), (0, True)))


# ---- one session


def check_row():
    """An upload of another token, one that is queued, and what is told once a tick has taken it."""

    def check(folder, server):
        with server.client() as client:
            faults = differing(client.upload(1, b"abd", LOOP), b"refused WrongToken")
            faults += differing(client.upload(1, b"abc", LOOP), b"queued")
            server.until(lambda: client.status().tick == 1, "no tick")
            faults += differing(client.ask(b"STATUS"), b"tick 1 rooms 1 objects 2 energy 2499")
            faults += differing(client.ask(b"PLAYER 1"), b"player 1 uploads 1 last accepted bucket 0 points 0")
            faults += differing(client.ask(b"QUIT"), b"bye") + differing(client.line(), None)
        with server.client() as client:
            faults += differing(client.ask(b"HELLO"), b"bad") + differing(client.line(), None)
        faults += differing(server.ended(), 0)
        journal = journal_in(folder)
        uploads, runs = journal.records[0].uploads, journal.records[0].runs
        faults += differing([tuple(it) for it in uploads], [(1, ACCEPTED, LOOP)])
        return faults + differing([(it.player, it.outcome, it.used) for it in runs], [(1, 2, 200_000)])

    checked("an upload of the loop module", lambda: in_folder(served(), check, ticks=1, links=2, pace=2_500))


def check_full():
    """64 uploads wait, and one more finds no place; what waits is lost with the server."""

    def check(folder, server):
        with server.client() as client, server.client() as other:
            replies = [one.upload(1, b"abc", b"%d" % number) for number in range(32) for one in (client, other)]
            faults = differing(replies, [b"queued"] * 64)
            faults += differing([one.upload(1, b"abc", LOOP) for one in (client, other)], [b"full"] * 2)
            faults += differing(client.upload(1, b"abd", LOOP), b"refused WrongToken")
            faults += differing(other.player(1), Line(1, 0, "none", 0, 0))
        server.kill()
        with Server(folder, 1, 2, pace=300) as again, again.client() as client:
            again.until(lambda: client.status().tick == 1, "no tick")
            faults += differing(client.player(1), Line(1, 0, "none", 20, 0))
        return faults

    checked("the 65th upload without a tick", lambda: in_folder(served(), check, ticks=1, links=2, pace=60_000))


def check_forms():
    """Requests at the edges of their forms; each `bad` ends its session. What a client doesn't get back to is not read."""
    long = b"9" * 192
    good = {
        b"PLAYER 1\n": b"player 1 uploads 0 last none bucket 0 points 0",
        b"PLAYER 0\n": b"refused UnknownPlayer",
        b"PLAYER 3\n": b"refused UnknownPlayer",
        b"PLAYER 4294967297\n": b"refused UnknownPlayer",
        b"PLAYER " + long + b"\n": b"refused UnknownPlayer",
        b"UPLOAD 3 abc 1\nx": b"refused UnknownPlayer",
        b"UPLOAD 0 abc 0\n": b"refused UnknownPlayer",
        b"UPLOAD 4294967297 abc 0\n": b"refused UnknownPlayer",
        b"UPLOAD 1 ab 1\n\n": b"refused WrongToken",
        b"UPLOAD 1 abcd 1\n\n": b"refused WrongToken",
        b"UPLOAD 1 !~ 7\nSTATUS\n": b"refused WrongToken",
        b"UPLOAD 2 abc 0\n": b"refused WrongToken",
        b"UPLOAD 1 " + b"t" * 188 + b" 0\n": b"refused WrongToken",
        b"UPLOAD 1 abc 0\n": b"queued",
        b"UPLOAD 1 abc 1048576\n" + bytes(MIB): b"queued",
        b"STATUS\n": b"tick 0 rooms 1 objects 2 energy 1001",
    }
    bad = [b"\n", b"\r\n", b"STATUS\r\n", b"QUIT\r\n", b"PLAYER 1\r\n", b"status\n", b" STATUS\n", b"STATUS \n", b"STATUS\0\n", b"QUIT 1\n", b"STATUS STATUS\n"]
    bad += [b"PLAYER\n", b"PLAYER \n", b"PLAYER 01\n", b"PLAYER 00\n", b"PLAYER +1\n", b"PLAYER -1\n", b"PLAYER 1 \n", b"PLAYER  1\n", b"PLAYER 1 1\n", b"PLAYER one\n"]
    bad += [b"UPLOAD 1 abc\n", b"UPLOAD 1  3\n", b"UPLOAD 1 abc 01\n", b"UPLOAD 1 abc 1048577\n", b"UPLOAD 1 abc 4294967296\n", b"UPLOAD 01 abc 0\n", b"UPLOAD 1 a\x7fc 0\n"]
    bad += [b"UPLOAD 1 a\xc3\xa9 0\n", b"UPLOAD 1 abc 0 \n", b"UPLOAD 1 abc -1\n", b"UPLOAD x abc 0\n", b"UPLOAD 3 abc 1048577\n", b"HELLO\n", b"GET / HTTP/1.1\r\n"]
    bad += [b"PLAYER 9" + long, b"x" * 200, b"\0" * 200]
    cut = [b"S", b"STATUS", b"QUIT", b"UPLOAD 1 abc 5\nabcd", b"UPLOAD 1 abc 1048576\n" + bytes(5000), b"x" * 199]

    def one(request, wanted, is_over, ends=False):
        def check(server):
            with server.client(5) as client:
                client.send(request)
                if ends:
                    client.end()
                faults = differing(client.line(), wanted)
                return faults + (differing(client.line(), None) if is_over else [] if client.quit() else ["QUIT is not answered"])

        return check

    cases = [(shown(request)[:60], one(request, wanted, False)) for request, wanted in good.items()]
    cases += [(shown(request)[:60], one(request, b"bad", True)) for request in bad]
    cases += [(f"{shown(request)[:40]} and the end", one(request, b"bad", True, True)) for request in cut]
    cases += [("an end before any request", one(b"", None, True, True)), ("a line of 199 bytes, and nothing", silent), ("a module in 200 pieces", pieces), ("many at once", at_once)]
    cases += [("an end behind a request", after_end)]
    with tempfile.TemporaryDirectory() as folder:
        write_files(folder, {"world.json": bytes_of(served())})
        with Server(folder, 1, len(cases), pace=60_000) as server:
            for name, check in cases:
                checked(f"the request {name}", lambda: check(server))
            note("no tick came between", differing(ticks_in(folder), 0))


def silent(server):
    with server.client(5) as client:
        client.send(b"x" * 199)
        faults = [] if client.is_silent(0.2) else ["it is answered"]
        client.send(b"x")
        return faults + differing(client.line(), b"bad")


def pieces(server):
    """Each byte of the line by itself, and the module in 200 pieces."""
    content = tagged(LOOP, bytes(1_900))
    with server.client() as client:
        for byte in b"UPLOAD 1 abc %d\n" % len(content):
            client.send(bytes([byte]))
        size = -(-len(content) // 200)
        for at in range(0, len(content), size):
            client.send(content[at : at + size])
            time.sleep(0.001)
        return differing(client.line(), b"queued") + ([] if client.quit() else ["QUIT is not answered"])


def at_once(server):
    """Requests that are sent before any reply is read have theirs in their order."""
    with server.client() as client:
        client.send(b"STATUS\nUPLOAD 1 abd 5\nQUIT\nPLAYER 3\n" * 50 + b"PLAYER 1\nQUIT\n")
        replies = client.lines(151)
        wanted = [b"tick 0 rooms 1 objects 2 energy 1001", b"refused WrongToken", b"refused UnknownPlayer"] * 50
        faults = differing(replies[:-1], wanted) + ([] if replies[-1].startswith(b"player 1 ") else [shown(replies[-1])])
        return faults + differing([client.line(), client.line()], [b"bye", None])


def after_end(server):
    """Who sends nothing more has the replies still."""
    with server.client() as client:
        client.send(b"STATUS\nPLAYER 3\n")
        client.end()
        return differing(client.lines(3), [b"tick 0 rooms 1 objects 2 energy 1001", b"refused UnknownPlayer", None])


def check_many_replies(most=65_536):
    """The session ends behind its last reply."""

    def check(_, server):
        with server.client(60) as client:
            sender = threading.Thread(target=client.send, args=(b"PLAYER 0\n" * most,), daemon=True)
            sender.start()
            replies = client.lines(most)
            faults = differing((len(replies), set(replies)), (most, {b"refused UnknownPlayer"})) + differing(client.line(), None)
            sender.join(10)
        return faults + differing(server.ended(), 0)

    checked(f"{most} replies", lambda: in_folder(served(), check, ticks=1, links=1))


# ---- words, files and ports


def check_words():
    with tempfile.TemporaryDirectory() as folder:
        write_files(folder, {"world.json": bytes_of(served())})
        before = files_in(folder)
        port = str(free_port())
        taken = {"--ticks": "1", "--links": "0", "--port": port, "--workers": "2", "--pace": "1"}
        wrong = [{"--port": it} for it in ("0", "65536", "-1", "", "http", "1.0", "+80")] + [{"--pace": it} for it in ("60001", "-1", "1s")]
        wrong += [{"--links": it} for it in ("1000001", "-1", "")] + [{"--workers": it} for it in ("17", "0")] + [{"--ticks": it} for it in ("1000001", "x")]
        wrong += [{it: None} for it in ("--port", "--links", "--ticks")]

        def words_of(change):
            return ["serve", *FILES, *(word for name, value in {**taken, **change}.items() if value is not None for word in (name, value))]

        refused = [words_of(change) for change in wrong]
        refused += [["serve", FILES[0], *words_of({})[3:]], [*words_of({}), "more"], [*words_of({}), "--port", port], ["serve"], ["serve", "--port", port], ["Serve", *words_of({})[1:]]]
        for words in refused:
            note(f"the words {words}", differing(run(words, folder), (2, b"", USAGE)))
        note("no file is made", differing(files_in(folder), before))
        said = b"serving at 127.0.0.1:%s\n" % port.encode()
        right = [words_of({}), words_of({"--workers": None, "--pace": None}), words_of({"--port": "000" + port, "--pace": "00", "--workers": "16", "--ticks": "0"})]
        right += [["serve", "--pace=1", f"--port={port}", FILES[0], "--links=0", FILES[1], "--ticks=1"], ["serve", "--ticks", "1", "--links", "0", "--port", port, "--", *FILES]]
        for words in right:
            note(f"the words {words}", differing(run(words, folder), (0, b"", said)))
        note("the ticks of these words", differing(ticks_in(folder), 4))


def check_faults():
    """How it ends where a file is none that it can use, or its world can't go on."""
    with tempfile.TemporaryDirectory() as folder:
        ids = world(room("E0S0", 4_293_918_721, thing("pile", 2, 20, 20, energy=1001)))
        other = journal_of(world(room("E0S0", 4, thing("pile", 2, 20, 20, energy=1001))), [])
        write_files(folder, {"good": bytes_of(served()), "bad": b"no world", "ids": bytes_of(ids), "text": b"hello", "other": other, "empty": b"", "folder": None})
        cases = [
            (("none", "new"), 5, b"fault 5 ReadFault\n"),
            (("bad", "new.2"), 3, b"fault 3 World NotJson\n"),
            (("good", "text"), 8, b"fault 8 NotAJournal 0\n"),
            (("good", "other"), 9, b"fault 9 OtherWorld "),
            (("good", "folder"), 7, b"fault 7 DiskFault\n"),
            (("good", "no/folder"), 7, b"fault 7 DiskFault\n"),
            (("ids", "ids.journal"), 10, b"fault 10 IdsExhausted 0\n"),
            (("good", "empty"), 0, b""),
        ]
        for paths, status, fault in cases:
            port = free_port()
            # (no link is met: an input is refused before any would be)
            links = "0" if status in (0, 10) else "3"
            code, out, err = run(["serve", *paths, "--ticks", "1", "--links", links, "--port", str(port)], folder)
            said, _, rest = err.partition(b"\n")
            faults = differing((code, out, said), (status, b"", b"serving at 127.0.0.1:%d" % port))
            note(f"serve {paths}", faults + ([] if rest.startswith(fault) and rest.count(b"\n") == (1 if fault else 0) else [shown(rest)]))
        note("the journals that were refused", differing((content_of(os.path.join(folder, "text")), content_of(os.path.join(folder, "other"))), (b"hello", other)))


def check_stopped_ticks():
    """A disk that takes no tick, and serials that are used up, end the ticks alone: sessions are told of the last tick, and the status says it at the end."""
    first = served()
    limit = len(journal_of(first, [])) + 20

    def limited():
        resource.setrlimit(resource.RLIMIT_FSIZE, (limit, limit))
        signal.signal(signal.SIGXFSZ, signal.SIG_IGN)

    def check(status, fault, energy):
        def of(folder, server):
            time.sleep(0.5)
            with server.client() as client:
                faults = differing(client.ask(b"STATUS"), b"tick 0 rooms 1 objects %d energy %d" % energy)
                faults += differing(client.upload(1, b"abc", LOOP), b"queued")
                faults += differing(server.run.poll(), None) + ([] if client.quit() else ["QUIT is not answered"])
            faults += differing(server.ended(), status) + differing(server.text(), b"serving at 127.0.0.1:%d\n" % server.port + fault)
            return faults + differing(ticks_in(folder), 0)

        return of

    checked("a disk that is full", lambda: in_folder(first, check(7, b"fault 7 DiskFault\n", (2, 1001)), ticks=3, links=1, preexec_fn=limited))
    ids = served(rooms=[room("E0S0", 4_293_918_721, thing("pile", 2, 20, 20, energy=7))])
    checked("serials that are used up", lambda: in_folder(ids, check(10, b"fault 10 IdsExhausted 0\n", (1, 7)), ticks=3, links=1))


def check_ports():
    """A port that another has, a port that is taken again at once, and links that come when the ticks are over."""
    with tempfile.TemporaryDirectory() as folder, socket.socket() as other:
        write_files(folder, {"world.json": bytes_of(SMALL)})
        other.bind((HOST, 0))
        other.listen()
        port = other.getsockname()[1]
        found = run(["serve", *FILES, "--ticks", "3", "--links", "5", "--port", str(port)], folder)
        note("a port that is taken", differing(found, (0, b"", b"port %d can't be had: serving no links\n" % port)))
        note("its ticks", differing(content_of(os.path.join(folder, "journal.bin")), journal_of(SMALL, played(SMALL, 3))))

    def again(folder, server):
        faults, steps = [], played(SMALL, 6)
        for ticks in (2, 4, 6):
            with Server(folder, 2, 3, port=server.port) if ticks > 2 else server as one:
                faults += [] if one.is_open() else [shown(one.text())]
                with one.client() as client, one.client() as killed:
                    one.until(lambda: client.status().tick == ticks, "no tick")
                    killed.status()
                    if ticks < 6:
                        # (the server ends first, so that the system keeps its sides for a while)
                        one.kill()
                    else:
                        faults += [] if client.quit() and killed.quit() and one.finish() == 0 else ["it doesn't end"]
        return faults + differing(content_of(os.path.join(folder, "journal.bin")), journal_of(SMALL, steps))

    checked("the same port and journal again at once", lambda: in_folder(SMALL, again, ticks=2, links=3))


def check_address():
    """It listens at 127.0.0.1 alone."""

    def check(_, server):
        found = []
        for path in ("/proc/net/tcp", "/proc/net/tcp6"):
            if os.path.exists(path):
                with open(path, encoding="ascii") as it:
                    # (0A is a listener; addresses are in hexadecimal, the last byte first)
                    found += [words[1] for words in map(str.split, it) if words[3] == "0A" and words[1].endswith(f":{server.port:04X}")]
        return differing(found, [f"0100007F:{server.port:04X}"])

    if os.path.exists("/proc/net/tcp"):
        checked("where it listens", lambda: in_folder(SMALL, check, ticks=1, links=1, pace=60_000))


def check_few_files():
    """Where no further file may be opened, who connects waits until another's session is over, and is served then."""

    def limited():
        resource.setrlimit(resource.RLIMIT_NOFILE, (8, 8))

    def check(folder, server):
        clients = [server.client() for _ in range(6)]
        for one in clients:
            one.send(b"STATUS\n")
        waiting, faults = list(clients), []
        for _ in clients:
            server.until(lambda: any(not one.is_silent(0) for one in waiting), "nobody is served")
            one = next(one for one in waiting if not one.is_silent(0))
            faults += [] if (one.line() or b"").startswith(b"tick ") and one.quit() else ["no reply"]
            one.link.close()
            waiting.remove(one)
        return faults + differing(server.ended(), 0) + differing(ticks_in(folder), 50)

    checked("few files", lambda: in_folder(SMALL, check, ticks=50, links=6, pace=1, preexec_fn=limited))


def check_second():
    """A second server on a journal ends at once, and changes nothing; so does a run."""

    def check(folder, server):
        with server.client() as client:
            # (which it answers once its journal stands)
            faults = differing(client.ask(b"STATUS"), b"tick 0 rooms 1 objects 2 energy 1001")
        before = files_in(folder)
        with Server(folder, 5, 1) as second:
            faults += differing((second.ended(), second.text()), (7, b"serving at 127.0.0.1:%d\nfault 7 DiskFault\n" % second.port))
        write_files(folder, {"uploads.bin": b""})
        faults += differing(run(["run", "world.json", "uploads.bin", "journal.bin", "--ticks", "1"], folder), (7, b"", b"fault 7 DiskFault\n"))
        os.remove(os.path.join(folder, "uploads.bin"))
        faults += differing(files_in(folder), before)
        with server.client() as client:
            faults += differing(client.ask(b"STATUS"), b"tick 0 rooms 1 objects 2 energy 1001")
        return faults

    checked("a second server on one journal", lambda: in_folder(served(), check, ticks=1, links=2, pace=60_000))


def check_signals():
    """SIGTERM and SIGINT end it as a crash does, and the next start goes on."""
    with tempfile.TemporaryDirectory() as folder:
        write_files(folder, {"world.json": bytes_of(served())})
        for number in (signal.SIGTERM, signal.SIGINT):
            with Server(folder, 1_000, 10, pace=5) as server, server.client() as client:
                told = [client.status()]
                server.until(lambda: told[-1].tick > told[0].tick + 3 or told.append(client.status()), "no ticks")
                server.run.send_signal(number)
                note(f"signal {number}", differing(server.ended(10), -number) + told_faults(journal_in(folder), told))


def check_tokens():
    """A world that `show` printed has no tokens. Those of a world file may change between two starts."""
    with tempfile.TemporaryDirectory() as folder:
        write_files(folder, {"world.json": bytes_of(served()), "uploads.bin": b""})
        run(["run", "world.json", "uploads.bin", "first.bin", "--ticks", "1"], folder)
        write_files(folder, {"shown.json": run(["show", "first.bin", "1"], folder)[1]})

        def check():
            with Server(folder, 1, 1, world="shown.json") as server, server.client() as client:
                replies = [client.upload(number, b"abc", LOOP) for number in (1, 2, 3)]
                return differing(replies, [b"refused WrongToken"] * 2 + [b"refused UnknownPlayer"])

        checked("a world that show printed", check)
        write_files(folder, {"world.json": bytes_of(served(players=[{"player": 1, "token": "new", "limit": 20}, {"player": 2, "token": "too", "limit": 20}]))})

        def changed():
            with Server(folder, 1, 1, pace=60_000, journal="first.bin") as server, server.client() as client:
                replies = [client.upload(*words, LOOP) for words in ((1, b"abc"), (1, b"new"), (2, b"too"), (2, b"new"))]
                return differing(replies, [b"refused WrongToken", b"queued", b"queued", b"refused WrongToken"]) + differing(client.status().tick, 1)

        checked("other tokens", changed)


# ---- crashes


class Asker(threading.Thread):
    """Asks and uploads until the server is gone."""

    def __init__(self, server, number):
        super().__init__(daemon=True)
        self.server, self.number, self.told = server, number, []

    def run(self):
        try:
            with self.server.client() as client:
                for turn in range(1_000_000):
                    self.told.append(client.status())
                    if turn % 7 == self.number % 7:
                        client.upload(1, b"abc", tagged(LOOP, b"%d" % turn) if turn % 2 else b"%d" % turn)
                    line = client.player(1)
                    if line is None:
                        return
                    self.told.append(line)
        except (Silent, OSError):
            pass


def check_kills(kills):
    """Servers that are killed at random moments, each on what the one before left: what was told of a tick is in the journal, and the next start goes on."""
    draw, told, hit, last = random.Random(29), 0, 0, 0
    with tempfile.TemporaryDirectory() as folder:
        # (little fuel, so that ticks are many)
        write_files(folder, {"world.json": bytes_of(served(players=[{"player": 1, "token": "abc", "limit": 1}]))})
        for kill in range(kills):
            faults = []
            # (every fifth is killed while it starts)
            with Server(folder, 100_000, 100, pace=draw.choice((0, 2)), workers=draw.choice((1, 3)), waits=kill % 5 != 4) as server:
                askers = [Asker(server, number) for number in range(3)] if kill % 5 != 4 else []
                for one in askers:
                    one.start()
                time.sleep(draw.uniform(0, 0.4 if askers else 0.05))
                server.kill()
                for one in askers:
                    one.join(30)
                faults += [f"it said {shown(server.text())}"] if askers and not server.is_open() else []
            journal = journal_in(folder)
            if journal:
                ticks = len(journal.records)
                faults += [f"{ticks} ticks stand, and {last} did"] if ticks < last else []
                hit, last = hit + (ticks > last), ticks
                for one in askers:
                    told += len(one.told)
                    faults += told_faults(journal, one.told)
            note(f"kill {kill + 1}", faults)
        note("some kills hit a server at work", [] if hit * 3 > kills and told > 20 * kills else [f"{hit} of {kills}, which told {told} things"])
        with Server(folder, 0, 1) as server, server.client() as client:
            faults = differing(client.status(), status_of(journal_in(folder).worlds[-1])) + differing(client.player(1), lines_of(journal_in(folder))[-1][1])
            faults += [] if client.quit() else ["QUIT is not answered"]
            note("what is told behind the kills", faults + differing(server.ended(), 0))
        note("a replay behind the kills", differing(run(["replay", "journal.bin"], folder), (0, b"replayed %d\n" % last, b"")))


# ---- strangers


def check_strangers():
    """Who says nothing, or a byte now and then, holds a loop and no tick; a line without end is `bad` at once; who resets lets his loop go."""
    with tempfile.TemporaryDirectory() as folder:
        write_files(folder, {"world.json": bytes_of(served())})
        with Server(folder, 400, 40, pace=10) as server:

            def go_on(what):
                """More ticks come."""
                before = ticks_in(folder)
                server.until(lambda: ticks_in(folder) > before + 3, f"no ticks beside {what}")
                return []

            def silents():
                four = [server.client() for _ in range(4)]
                faults = go_on("silent strangers")
                with server.client() as fifth:
                    fifth.send(b"STATUS\n")
                    faults += [] if fifth.is_silent(0.3) else ["a fifth is served beside four"]
                    four[2].link.close()
                    faults += [] if (fifth.line() or b"").startswith(b"tick ") else ["a fifth is not served when a loop is free"]
                    faults += [] if fifth.quit() else ["QUIT is not answered"]
                for one in four:
                    one.link.close()
                return faults

            def slow():
                with server.client() as client, server.client() as upload:
                    upload.send(b"UPLOAD 1 abc 20\n")
                    for byte in b"STATUS\n":
                        client.send(bytes([byte]))
                        upload.send(b"\0")
                        time.sleep(0.05)
                    faults = [] if client.line().startswith(b"tick ") else ["no reply"]
                    faults += go_on("slow strangers")
                    upload.send(bytes(13))
                    return faults + differing(upload.line(), b"queued")

            def endless():
                faults = []
                for content in (b"x" * 200, b"x" * 100_000, bytes(1 << 20)):
                    with server.client() as client:
                        began = time.monotonic()
                        try:
                            client.send(content)
                        except OSError:
                            pass
                        # (with bytes behind it the reply may be lost)
                        reply = client.line()
                        faults += [] if reply == b"bad" or (reply is None and len(content) > 200) else [f"{reply}"]
                        faults += [] if time.monotonic() - began < 5 else ["it took long"]
                return faults + go_on("lines without end")

            def resets():
                for sent in (b"", b"STAT", b"STATUS\n", b"UPLOAD 1 abc 1048576\n" + bytes(70_000), b"UPLOAD 1 abc 9\n", b"STATUS\n" * 1_000):
                    client = server.client()
                    client.send(sent)
                    client.reset()
                with server.client() as client:
                    return ([] if client.status() and client.quit() else ["nobody is served behind resets"]) + go_on("resets")

            def deaf():
                """Who asks and never reads holds a loop, once what the system keeps for him is full."""
                with server.client() as client:
                    client.link.settimeout(0.5)
                    try:
                        client.send(b"STATUS\n" * 200_000)
                    except TimeoutError:
                        pass
                    return go_on("one who never reads")

            for name, check in {"silent": silents, "slow": slow, "endless": endless, "resets": resets, "deaf": deaf}.items():
                checked(f"strangers, {name}", check)
            checked("the server behind strangers", lambda: differing(server.finish(), 0) + differing(ticks_in(folder), 400))


def check_no_threads():
    """Where no thread can be made the links are served when the ticks are over; where some can, the rest does their work."""
    why = may_trace()
    if why:
        print(f"no thread was refused: {why}")
        return
    for when in ("1+", "1", "2+", "3+"):

        def check(folder, server, least=3 if when == "1+" else 0):
            faults = []
            with server.client() as client, server.client() as other:
                for one in (client, other):
                    faults += [] if least <= one.status().tick <= 3 else ["a link is served before the ticks are over"]
                    faults += [] if one.quit() else ["QUIT is not answered"]
            faults += differing(server.ended(), 0)
            return faults + differing(content_of(os.path.join(folder, "journal.bin")), journal_of(served(), played(served(), 3)))

        trace = ["strace", "-f", "-qq", "-o", os.devnull, "-e", "trace=clone,clone3", "-e", f"inject=clone,clone3:error=EAGAIN:when={when}"]
        checked(f"threads {when} are refused", lambda: in_folder(served(), check, ticks=3, links=2, workers=2, before=trace))


# ---- the script for players, and the documents


def uploaded(address, *words):
    done = subprocess.run(
        [sys.executable, os.path.join(TOP, "players/upload.py"), *([address] if address else []), *words], stdin=subprocess.DEVNULL, capture_output=True, timeout=60
    )
    return done.returncode, done.stdout.decode(), done.stderr.decode()


def check_script():
    """players/upload.py: each reply and decision, with its exit status and what it says to do."""
    modules = {"loop.wasm": player_module(b""), "none.wasm": b"", "bare.wasm": OPENING, "float.wasm": OPENING + section(1, b"\1\x60\1\x7d\0"), "large.wasm": bytes(MIB + 1), "most.wasm": bytes(MIB)}
    with tempfile.TemporaryDirectory() as folder:
        write_files(folder, {"world.json": bytes_of(served()), **modules})

        def at(name):
            return os.path.join(folder, name)

        def check_all(cases, address):
            for words, status, out, said in cases:
                code, found, err = uploaded(address, *words)
                faults = differing((code, found), (status, out)) + ([] if said in err and err.count("\n") == (1 if said else 0) else [shown(err)])
                note(f"upload.py {[os.path.basename(word) for word in words]}", faults)

        none = f"{HOST}:{free_port()}"
        check_all(
            [
                ((none, "--status"), 1, "", "nothing listens at"),
                (("nonsense", "--status"), 1, "", "the form is HOST:PORT"),
                ((none,), 1, "", "the form is HOST:PORT PLAYER TOKEN MODULE.wasm"),
                ((none, "1", "abc"), 1, "", "see --help"),
                ((none, "0", "abc", at("loop.wasm")), 1, "", "a player is a number"),
                ((none, "1", "a b", at("loop.wasm")), 1, "", "the token"),
                ((none, "1", "abc", at("absent.wasm")), 1, "", "No such file"),
                ((none, "1", "abc", at("large.wasm")), 1, "", "more than 1048576 bytes"),
                ((none, "1", "abc", at("loop.wasm"), "--wait", "long"), 1, "", "a number of seconds"),
                ((none, "--status", "--player", "1"), 1, "", "stand alone"),
                ((none, "--player", "one"), 1, "", "a player is a number"),
            ],
            None,
        )
        code, out, err = uploaded(None, "--help")
        note("upload.py --help", differing((code, err), (0, "")) + [word for word in ("--wait", "--status", "--player", "exit status") if word not in out])
        with Server(folder, 100_000, 100, pace=20) as server:
            check_all(
                [
                    (("1", "abc", at("loop.wasm")), 0, "queued\naccepted\n", ""),
                    (("1", "abc", at("none.wasm")), 1, "queued\nrefused Malformed\n", "no WebAssembly"),
                    (("1", "abc", at("most.wasm")), 1, "queued\nrefused Malformed\n", "no WebAssembly"),
                    (("1", "abc", at("bare.wasm"), "--wait", "20"), 1, "queued\nrefused NoLoop\n", "--export=loop"),
                    (("1", "abc", at("float.wasm")), 1, "queued\nrefused FloatRefused\n", "float"),
                    (("1", "abd", at("loop.wasm")), 1, "", "refused WrongToken"),
                    (("2", "abc", at("loop.wasm")), 1, "", "refused WrongToken"),
                    (("3", "abc", at("loop.wasm")), 1, "", "refused UnknownPlayer"),
                    (("--player", "3"), 1, "", "refused UnknownPlayer"),
                ],
                f"{HOST}:{server.port}",
            )
            for words, form in ((("--status",), r"tick \d+ rooms 1 objects 2 energy \d+\n"), (("--player", "1"), r"player 1 uploads 5 last FloatRefused bucket \d+ points 0\n")):
                code, out, err = uploaded(f"{HOST}:{server.port}", *words)
                note(f"upload.py {words}", differing((code, err, bool(re.fullmatch(form, out))), (0, "", True)))
        with Server(folder, 1, 100, pace=60_000) as server, server.client() as client:
            check_all([(("1", "abc", at("loop.wasm"), "--wait", "0.2"), 1, "queued\n", "not decided in 0.2 seconds")], f"{HOST}:{server.port}")
            for number in range(63):
                client.upload(1, b"abc", b"%d" % number)
            check_all([(("1", "abc", at("loop.wasm")), 1, "", "full: 64 uploads wait")], f"{HOST}:{server.port}")
        with Server(folder, 0, 100) as server:
            words = [sys.executable, os.path.join(TOP, "players/upload.py"), f"{HOST}:{server.port}", "1", "abc", at("loop.wasm")]
            with subprocess.Popen(words, stdin=subprocess.DEVNULL, stdout=subprocess.PIPE, stderr=subprocess.PIPE) as it:
                said = it.stdout.readline() if select.select([it.stdout], [], [], 30)[0] else b""
                server.kill()
                out, err = it.communicate(timeout=60)
            faults = differing((it.returncode, said, out), (1, b"queued\n", b"")) + ([] if b"What is queued is lost" in err and err.count(b"\n") == 1 else [shown(err)])
            note("upload.py, where the server ends behind `queued`", faults)


SERVE, UPLOAD, KILL = "crates/world_server/out/world_server serve worlds/", "players/upload.py ", "kill %1"
# How many commands of these kinds each document has.
EXAMPLES = {"README.md": 3, "docs/hosting.md": 4, "docs/players.md": 7}


def commands_of(text):
    """The commands in indented blocks that start a server, upload to it or end it, each with the lines that it prints."""
    found, last = [], None
    for line in text.splitlines():
        command = line.strip() if line.startswith("    ") else ""
        if command.startswith((SERVE, UPLOAD, KILL)):
            last = (command, [])
            found.append(last)
        elif command.startswith(("crates/", "players/")) or line.strip() and not command:
            last = None
        elif command and last:
            last[1].append(command)
    return found


def without_numbers(lines):
    """Lines as they can be compared whose numbers depend on the moment."""
    return [re.sub(r"\d+", "N", line) for line in lines]


class Walk:
    """The commands of a document, one after the other, with a port that is free in the place of each that it names."""

    def __init__(self, folder):
        self.folder, self.server, self.ports = folder, None, {}

    def port(self, named):
        return self.ports.setdefault(named, free_port())

    def faults(self, command, printed):
        if command.startswith(SERVE):
            return self.serve(command, printed)
        if command == KILL:
            self.server.run.terminate()
            return differing(self.server.ended(10), -signal.SIGTERM) + differing(printed, [])
        words = re.sub(r":(\d+)", lambda it: f":{self.port(it[1])}", command).split()
        done = subprocess.run([sys.executable, *words], cwd=self.folder, stdin=subprocess.DEVNULL, stdout=subprocess.PIPE, stderr=subprocess.STDOUT, timeout=90)
        return differing(without_numbers(done.stdout.decode().splitlines()), without_numbers(printed))

    def serve(self, command, printed):
        self.end()
        words = command.removesuffix(" &").split()[1:]
        value = {name: words[words.index(f"--{name}") + 1] for name in ("ticks", "links", "port", "pace", "workers") if f"--{name}" in words}
        paths = [word for at, word in enumerate(words[1:], 1) if not word.startswith("--") and not words[at - 1].startswith("--")]
        options = {name: int(text) for name, text in value.items() if name != "port"}
        self.server = Server(self.folder, port=self.port(value["port"]), world=paths[0], journal=paths[1], **options)
        said = self.server.text().decode().splitlines()
        return differing(without_numbers(said), without_numbers(printed)) + ([] if command.endswith(" &") else ["it doesn't end in &"])

    def end(self):
        if self.server:
            self.server.kill()


def check_documents():
    for document, wanted in EXAMPLES.items():
        with open(os.path.join(TOP, document), encoding="utf-8") as it:
            found = commands_of(it.read())
        with tempfile.TemporaryDirectory() as folder:
            for part in ("worlds", "modules", "players"):
                shutil.copytree(os.path.join(TOP, part), os.path.join(folder, part))
            walk = Walk(folder)
            for command, printed in found:
                checked(f"{document}: {command}", lambda: walk.faults(command, printed))
            walk.end()
        note(f"the servers of {document}", differing(len(found), wanted))


def main():
    # (who starts this in the background may have SIGINT ignored, and what it starts would ignore it too)
    signal.signal(signal.SIGINT, signal.default_int_handler)
    parser = argparse.ArgumentParser(description="Checks `serve` by clients over sockets.")
    parser.add_argument("--kills", type=int, default=20, metavar="N", help="kill so many servers")
    kills = parser.parse_args().kills
    end_servers_when_ended()
    began = time.monotonic()
    steps = [check_words, check_faults, check_stopped_ticks, check_row, check_full, check_forms, check_many_replies, check_ports, check_address, check_few_files, check_second, check_signals]
    steps += [check_tokens, lambda: check_clients(1), lambda: check_clients(4), lambda: check_kills(kills), check_strangers, check_no_threads, check_script, check_documents]
    for step in steps:
        step()
        if os.environ.get("TIMES"):
            print(f"{getattr(step, '__name__', step)} {time.monotonic() - began:.1f}", flush=True)
    checks.finish()


if __name__ == "__main__":
    main()
