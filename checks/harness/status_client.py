"""A client of the status protocol, written from docs/formats.md alone, and servers for it that are started, waited for and ended within limits of time."""

import os
import re
import select
import signal
import socket
import struct
import subprocess
import sys
import tempfile
import time
from collections import namedtuple

from checked_program import PROGRAM

Status = namedtuple("Status", "tick rooms objects energy")
Line = namedtuple("Line", "player uploads last bucket points")

STATUS = re.compile(rb"tick (0|[1-9]\d*) rooms (0|[1-9]\d*) objects (0|[1-9]\d*) energy (0|[1-9]\d*)")
LINE = re.compile(rb"player (0|[1-9]\d*) uploads (0|[1-9]\d*) last ([A-Za-z]+) bucket (0|[1-9]\d*) points (0|[1-9]\d*)")
HOST = "127.0.0.1"
# How long one thing is waited for, in seconds.
PATIENCE = 20


class Silent(Exception):
    """Nothing came in time."""


class Client:
    """A session: what is sent, and the lines that come."""

    def __init__(self, port, patience=PATIENCE):
        self.rest = b""
        self.link = socket.create_connection((HOST, port), timeout=patience)
        self.link.setsockopt(socket.IPPROTO_TCP, socket.TCP_NODELAY, 1)

    def __enter__(self):
        return self

    def __exit__(self, *_):
        self.link.close()

    def send(self, content):
        self.link.sendall(content)

    def line(self):
        """The next line without its line feed, or None where the session is over."""
        while b"\n" not in self.rest:
            try:
                piece = self.link.recv(1 << 16)
            except ConnectionError:
                piece = b""
            except TimeoutError:
                raise Silent("no line in time") from None
            if not piece:
                return None
            self.rest += piece
        line, _, self.rest = self.rest.partition(b"\n")
        return line

    def lines(self, count):
        return [self.line() for _ in range(count)]

    def ask(self, request, content=b""):
        self.send(request + b"\n" + content)
        return self.line()

    def status(self):
        found = self.ask(b"STATUS")
        spelled = STATUS.fullmatch(found or b"")
        if not spelled:
            raise Silent(f"STATUS is answered {found}")
        return Status(*map(int, spelled.groups()))

    def player(self, number):
        """The line of a player, or the reply where it is another."""
        found = self.ask(b"PLAYER %d" % number)
        spelled = LINE.fullmatch(found or b"")
        if not spelled:
            return found
        number, uploads, last, bucket, points = spelled.groups()
        return Line(int(number), int(uploads), last.decode(), int(bucket), int(points))

    def upload(self, player, token, content):
        return self.ask(b"UPLOAD %d %s %d" % (player, token, len(content)), content)

    def quit(self):
        """Whether the session ends as it should."""
        return self.ask(b"QUIT") == b"bye" and self.line() is None

    def end(self):
        """Ends what is sent, so that the server finds the end of its input."""
        self.link.shutdown(socket.SHUT_WR)

    def is_silent(self, seconds):
        """Whether nothing comes for so long."""
        return not self.rest and not select.select([self.link], [], [], seconds)[0]

    def reset(self):
        """Ends the connection by a reset."""
        self.link.setsockopt(socket.SOL_SOCKET, socket.SO_LINGER, struct.pack("ii", 1, 0))
        self.link.close()


def end_servers_when_ended():
    """Lets SIGTERM end this program as an exception does, so that no server outlasts it."""
    signal.signal(signal.SIGTERM, lambda *_: sys.exit("ended by SIGTERM"))


def free_port():
    """A port that nobody has. (Another may take it at any time, but the system gives others first.)"""
    with socket.socket() as it:
        it.bind((HOST, 0))
        return it.getsockname()[1]


class Server:
    """A `serve` that runs in a folder, and is killed at the end where it runs still."""

    def __init__(self, folder, ticks, links, pace=0, workers=None, port=None, world="world.json", journal="journal.bin", before=(), waits=True, **options):
        self.port, self.links, self.met = port or free_port(), links, 0
        words = ["serve", world, journal, "--ticks", str(ticks), "--links", str(links), "--port", str(self.port), "--pace", str(pace)]
        words += ["--workers", str(workers)] if workers else []
        self.said = tempfile.TemporaryFile()
        # (a group of its own, so that what a tracer runs is ended with it)
        streams = {"stdin": subprocess.DEVNULL, "stdout": self.said, "stderr": self.said, "start_new_session": True}
        self.run = subprocess.Popen([*before, PROGRAM, *words], cwd=folder, **streams, **options)
        if waits:
            self.until(lambda: b"\n" in self.text() or self.run.poll() is not None, "the server says nothing")

    def __enter__(self):
        return self

    def __exit__(self, *_):
        self.kill()
        self.said.close()

    def text(self):
        """All that it printed, on standard output too."""
        return os.pread(self.said.fileno(), 1 << 20, 0)

    def is_open(self):
        return self.text().startswith(b"serving at 127.0.0.1:%d\n" % self.port)

    def until(self, holds, what, seconds=PATIENCE):
        end = time.monotonic() + seconds
        while not holds():
            if time.monotonic() > end:
                raise Silent(f"{what}, after {seconds} seconds")
            time.sleep(0.005)

    def client(self, patience=PATIENCE):
        self.met += 1
        return Client(self.port, patience)

    def ended(self, seconds=60):
        """The exit status, waited for so long."""
        try:
            return self.run.wait(seconds)
        except subprocess.TimeoutExpired:
            self.kill()
            return f"none in {seconds} seconds"

    def finish(self, seconds=60):
        """The exit status behind the links that are left, each of which is met and says nothing."""
        for _ in range(self.links - self.met):
            with self.client() as client:
                client.end()
                client.line()
        return self.ended(seconds)

    def kill(self):
        if self.run.poll() is None:
            os.killpg(self.run.pid, signal.SIGKILL)
            self.run.wait()
