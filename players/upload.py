#!/usr/bin/env python3
"""Uploads a module to a `world_server serve` that runs, and says what became of it; or asks how its world stands.

    players/upload.py 127.0.0.1:7777 1 first players/dropper.wasm

uploads players/dropper.wasm for player 1, whose token is `first`. It prints the server's reply, `queued`, and when a tick has taken the module how it was
decided: `accepted`, or `refused` and a name. The exit status is 0 where both are so, and else 1, with one line that says what to do.

    players/upload.py 127.0.0.1:7777 --status
    players/upload.py 127.0.0.1:7777 --player 1

print the server's reply. docs/formats.md has the protocol ("Status protocol").
"""

import argparse
import contextlib
import socket
import sys
import time

MOST_MODULE = 1 << 20
MOST_PLAYER = 2**32 - 1
MOST_LINE = 200
MOST_SHOWN = 100
# How long a reply is waited for, in seconds: four are served at once, so it may take its turn.
PATIENCE = 60
# How long it is waited between two questions, at first and at most.
FIRST_PAUSE, MOST_PAUSE = 0.05, 1

REPLIES = {
    "full": "64 uploads wait already: try again when a tick is done",
    "refused UnknownPlayer": "the server's world lists no such player: ask its host for your number",
    "refused WrongToken": "the token is not the one that the server's world file has for this player, or he has none there and can't upload: ask the host",
    "bad": "the server has another protocol than docs/formats.md: is it a world_server, and of this version?",
}
DECISIONS = {
    "TooLarge": "the module passes a limit: docs/players.md has them, \"What is refused\"",
    "Malformed": "the file is no WebAssembly 1.0 in its binary form: is it the right one, or does it use a later extension (clang leaves all out with -mcpu=mvp)?",
    "FloatRefused": "a float type or an instruction on floats stands in the module: docs/faq.md says where they come from",
    "Invalid": "the module is not valid: build it anew, and look at what changed it since",
    "UnknownImport": "the module imports something that is no call of docs/players.md: a linker told to allow undefined functions does so",
    "ImportKind": "the module imports a call with another type than docs/players.md has: take players/screeps.h as it is",
    "NoLoop": "the module exports no function `loop` that takes and gives nothing: build it with -Wl,--export=loop",
    "Segment": "data of the module doesn't fit in its memory or table: give it more pages",
}


class Refused(Exception):
    """Why there is no upload or no answer."""


class Ended(Exception):
    """The server ended the session, with why in words."""


class Parser(argparse.ArgumentParser):
    """A parser whose complaints are refusals as all others."""

    def error(self, message):
        raise Refused(shown(message))


def shown(text):
    """A text as it can stand in one line."""
    text = text if len(text) <= MOST_SHOWN else text[:MOST_SHOWN] + ".."
    return text if text.isprintable() else ascii(text)


# ---- words


def read_address(word):
    """The host and the port of a word HOST:PORT, where the host may stand in brackets."""
    host, colon, port = word.rpartition(":")
    if not colon or not host or not (port.isascii() and port.isdigit()) or not 1 <= int(port[:9]) <= 65_535:
        raise Refused(f"{shown(word)}: the form is HOST:PORT, as 127.0.0.1:7777")
    return host.removeprefix("[").removesuffix("]"), int(port)


def read_player(word):
    digits = word.lstrip("0") or "0"
    if not (word.isascii() and word.isdigit()) or len(digits) > 10 or not 1 <= int(digits) <= MOST_PLAYER:
        raise Refused(f"{shown(word)}: a player is a number from 1 to {MOST_PLAYER}")
    return digits


def read_token(word):
    if not 1 <= len(word) <= 64 or not all("!" <= letter <= "~" for letter in word):
        raise Refused("the token: it has 1 to 64 letters, digits or signs from ! to ~, and no space")
    return word


def read_wait(word):
    try:
        seconds = float(word)
    except ValueError:
        seconds = -1
    if not 0 <= seconds <= 1_000_000:
        raise Refused(f"--wait {shown(word)}: a number of seconds, 0 to 1000000")
    return seconds


def read_module(path):
    try:
        with open(path, "rb") as it:
            module = it.read(MOST_MODULE + 1)
    except OSError as error:
        raise Refused(f"{error.strerror}: {shown(path)}") from None
    if len(module) > MOST_MODULE:
        raise Refused(f"{shown(path)} has more than {MOST_MODULE} bytes, which no server takes")
    return module


# ---- the server


class Session:
    """A session with a server: requests, each of which has one line as its reply."""

    def __init__(self, address):
        self.address, self.rest = "%s:%d" % address, b""
        try:
            self.link = socket.create_connection(address, timeout=PATIENCE)
        except ConnectionRefusedError:
            raise Ended(f"nothing listens at {self.address}: does the server run, and at this port?") from None
        except OSError as error:
            raise Ended(f"{self.address} can't be reached: {error.strerror or error}") from None

    def __enter__(self):
        return self

    def __exit__(self, *_):
        self.link.close()

    def ask(self, request, content=b""):
        """The reply to a request. Nothing is sent before the reply to the one before was read."""
        try:
            self.link.sendall(request.encode() + b"\n" + content)
            return self.line()
        except TimeoutError:
            raise Ended(f"no reply in {PATIENCE} seconds: four others may be served: try again later") from None
        except OSError as error:
            raise Ended(f"the connection is lost: {error.strerror or error}") from None

    def line(self):
        while b"\n" not in self.rest:
            if len(self.rest) >= MOST_LINE:
                raise Refused(f"{self.address}: {REPLIES['bad']}")
            piece = self.link.recv(4096)
            if not piece:
                raise Ended("the server closed the connection: it may have ended, or the session was too long: try again")
            self.rest += piece
        line, _, self.rest = self.rest.partition(b"\n")
        return line.decode("ascii", "replace")

    def uploads(self, player):
        """How many uploads of a player are decided, and how the last one was."""
        reply = self.ask(f"PLAYER {player}")
        words = reply.split(" ")
        if words[::2] != ["player", "uploads", "last", "bucket", "points"] or len(words) != 10 or not words[3].isdigit():
            raise refusal(reply)
        return int(words[3]), words[5]

    def quit(self):
        """Ends the session. Where the server did before, so much the better."""
        with contextlib.suppress(Ended):
            self.ask("QUIT")


def refusal(reply):
    """What a reply that is none of those hoped for says, with what to do."""
    return Refused(f"{shown(reply)}: {REPLIES.get(reply, REPLIES['bad'])}")


def decided(session, address, player, before, wait):
    """How the upload was decided that was queued behind so many others, or None where it wasn't in so many seconds. A session that the server ends
    while it waits is begun anew."""
    end, pause = time.monotonic() + wait, FIRST_PAUSE
    while True:
        try:
            count, last = session.uploads(player)
            if count > before:
                session.quit()
                return last
        except Ended:
            if time.monotonic() >= end:
                return None
            session.link.close()
            session = Session(address)
        left = end - time.monotonic()
        if left <= 0:
            return None
        time.sleep(min(pause, left))
        pause = min(2 * pause, MOST_PAUSE)


def upload(address, player, token, module, wait):
    with Session(address) as session:
        before, _ = session.uploads(player)
        reply = session.ask(f"UPLOAD {player} {token} {len(module)}", module)
        if reply != "queued":
            raise refusal(reply)
        print(reply, flush=True)
        try:
            last = decided(session, address, player, before, wait)
        except Ended as why:
            raise Ended(f"{why} What is queued is lost where the server ended before its next tick: ask later with --player {player}") from None
    if last is None:
        raise Refused(f"not decided in {wait:g} seconds: ask later with --player {player}; are the server's ticks over, or far apart?")
    print(last if last == "accepted" else f"refused {last}", flush=True)
    if last != "accepted":
        raise Refused(f"{DECISIONS.get(last, 'see docs/players.md')} (`world_server check` says so beforehand; the player keeps the module that he had)")


def ask(address, request):
    with Session(address) as session:
        reply = session.ask(request)
        if reply.startswith(("tick ", "player ")):
            session.quit()
            print(reply, flush=True)
            return
        raise refusal(reply)


def run():
    parser = Parser(
        prog="upload.py",
        usage="upload.py HOST:PORT PLAYER TOKEN MODULE.wasm [--wait SECONDS]\n       upload.py HOST:PORT --status\n       upload.py HOST:PORT --player PLAYER",
        description="Uploads a module to a `world_server serve` that runs, and prints the reply and how it was decided; or asks how its world stands.",
        epilog="The exit status is 0 where the module is queued and accepted, or the question is answered, and else 1. "
        "Where others upload for the same player at the same time, the decision that is printed may be of theirs.",
    )
    parser.add_argument("address", metavar="HOST:PORT", help="where the server is reached, as 127.0.0.1:7777")
    parser.add_argument("words", nargs="*", metavar="PLAYER TOKEN MODULE.wasm", help="the player's number, his token in the world file, and the module")
    parser.add_argument("--wait", metavar="SECONDS", default="60", help="how long to wait for the decision, 60 where it is left out")
    parser.add_argument("--status", action="store_true", help="print the world's tick, rooms, objects and energy")
    parser.add_argument("--player", metavar="PLAYER", help="print how many uploads of a player are decided, how the last was, his bucket and points")
    given = parser.parse_intermixed_args()
    address = read_address(given.address)
    if given.status or given.player is not None:
        if given.words or (given.status and given.player is not None):
            raise Refused("--status and --player stand alone behind HOST:PORT: see --help")
        ask(address, "STATUS" if given.status else f"PLAYER {read_player(given.player)}")
        return
    if len(given.words) != 3:
        raise Refused("the form is HOST:PORT PLAYER TOKEN MODULE.wasm: see --help")
    player, token, path = given.words
    upload(address, read_player(player), read_token(token), read_module(path), read_wait(given.wait))


def main():
    try:
        run()
    except (Refused, Ended) as why:
        sys.exit(f"upload.py: {why}")
    except BrokenPipeError:
        sys.exit(1)
    except KeyboardInterrupt:
        sys.exit("upload.py: stopped")


main()
