#!/usr/bin/env python3
"""Makes an upload stream, which `world_server run` reads, from module files.

    players/upload_stream.py 0:1:players/dropper.wasm -o dropper.uploads

uploads players/dropper.wasm for player 1 in tick 0. The ticks may not fall from one word to the next; of two modules
that one player uploads in one tick the later is his. Without a word the stream is empty, and nobody uploads.

Where something is wrong, one line says what, the exit status is 1, and no file is made or changed.
"""

import argparse
import contextlib
import os
import sys

MOST_TICK = 2**64 - 1
MOST_PLAYER = 2**32 - 1
MOST_STREAM = 256 << 20
MOST_SHOWN = 100


class Refused(Exception):
    """Why there is no stream."""


class Parser(argparse.ArgumentParser):
    """A parser whose complaints are refusals as all others."""

    def error(self, message):
        raise Refused(shown(message))


def shown(text):
    """A text as it can stand in one line."""
    text = text if len(text) <= MOST_SHOWN else text[:MOST_SHOWN] + ".."
    return text if text.isprintable() else ascii(text)


def number(text, most, what, word):
    """A decimal number from 0 to the most."""
    if not (text.isascii() and text.isdigit()):
        raise Refused(f"{shown(word)}: {what} {shown(text)!r} is no number")
    digits = text.lstrip("0") or "0"
    # (the length first, since Python doesn't read numbers of any length)
    if len(digits) > len(str(most)) or int(digits) > most:
        raise Refused(f"{shown(word)}: {what} {shown(text)} is above {most}")
    return int(digits)


def read_word(word):
    """The tick, the player and the path of a word TICK:PLAYER:FILE. The path may have colons of its own."""
    parts = word.split(":", 2)
    if len(parts) != 3 or not parts[2]:
        raise Refused(f"{shown(word)}: the form is TICK:PLAYER:FILE")
    return number(parts[0], MOST_TICK, "tick", word), number(parts[1], MOST_PLAYER, "player", word), parts[2]


def head_of(tick, player, length):
    """What stands before an entry's module: tick in 8 bytes, player in 4, length in 4, all little endian."""
    return tick.to_bytes(8, "little") + player.to_bytes(4, "little") + length.to_bytes(4, "little")


def read_module(path, room, word):
    """The bytes of a file, which are at most so many. One more is looked for, and no further one."""
    try:
        with open(path, "rb") as it:
            module = it.read(max(0, room) + 1)
    except OSError as error:
        raise Refused(f"{shown(word)}: {error.strerror}: {shown(path)}") from None
    if len(module) > room:
        raise Refused(f"{shown(word)}: the stream is longer than {MOST_STREAM} bytes, which the server refuses")
    return module


def stream_of(words):
    """The stream of these words."""
    stream, last = bytearray(), 0
    for word in words:
        tick, player, path = read_word(word)
        if tick < last:
            raise Refused(f"{shown(word)}: tick {tick} comes after tick {last}: give the words in rising tick")
        last = tick
        module = read_module(path, MOST_STREAM - len(stream) - len(head_of(0, 0, 0)), word)
        stream += head_of(tick, player, len(module)) + module
    return stream


def print_bytes(content):
    """Writes to standard output, with nothing kept back that could fail at the end of the program."""
    if sys.stdout is None:
        raise Refused("standard output is closed: give -o FILE")
    left = memoryview(content)
    try:
        while left:
            left = left[os.write(sys.stdout.fileno(), left) :]
    except OSError as error:
        raise Refused(f"{error.strerror}: standard output") from None


def write_file(content, path):
    """Writes a file whole or not at all: it gets another name in its folder first, and its own at the end. What is no plain file, as
    a device, is written to."""
    if not path:
        raise Refused("-o: there is no name of a file")
    plain = os.path.isfile(path) or not os.path.exists(path)
    target = os.path.realpath(path) if plain else path
    part = os.path.join(os.path.dirname(target), f".upload_stream.{os.getpid()}") if plain else path
    try:
        with open(part, "wb") as it:
            it.write(content)
        if plain:
            os.replace(part, target)
    except OSError as error:
        if plain:
            with contextlib.suppress(OSError):
                os.remove(part)
        raise Refused(f"{error.strerror}: {shown(path)}") from None


def run():
    parser = Parser(prog="upload_stream.py", add_help=False, description="Makes an upload stream from module files, for `world_server run`.")
    parser.add_argument("words", nargs="*", metavar="TICK:PLAYER:FILE", help="upload FILE for PLAYER in TICK, the tick of the world before it; in rising tick")
    parser.add_argument("-o", metavar="FILE", dest="path", help="write the stream to FILE and not to standard output")
    parser.add_argument("-h", "--help", action="store_true", help="print this and make no stream")
    words = parser.parse_intermixed_args()
    if words.help:
        print_bytes(parser.format_help().encode())
    elif words.path is not None:
        write_file(stream_of(words.words), words.path)
    elif sys.stdout is not None and sys.stdout.isatty():
        raise Refused("the stream is no text for a terminal: give -o FILE, or send it on")
    else:
        print_bytes(stream_of(words.words))


def main():
    try:
        run()
    except Refused as refused:
        sys.exit(f"upload_stream.py: {refused}")


main()
