"""Modules of nearly a mebibyte, each of which is full of one thing. Checks of limits and of costs run them, and benchmarks measure them."""

from module_bytes import I32, OPENING, code_entry, func_type, host_import, leb, listed, name_bytes, player_module, section
from worlds import MIB

NEAR_MIB = MIB - 200


def filled(content):
    """The module with a custom section that makes it one mebibyte."""
    rest = MIB - len(content) - 4
    return content + b"\0" + bytes([rest & 0x7F | 0x80, rest >> 7 & 0x7F | 0x80, rest >> 14]) + b"\1x" + bytes(rest - 2)


def many_functions():
    """9,999 functions that nothing calls, of about a mebibyte together."""
    helpers = [(0, b"\0", b"\x41\0\x1a" * 33)] * 9_999
    return player_module(b"", helpers=helpers)


def with_many(types=(), imports=(), sections=(), exports=()):
    """A module of an empty `loop` with these entries besides, and with further sections by their numbers."""
    parts = {
        1: listed([func_type(b"", b""), func_type(b"", I32), *types]),
        2: listed(imports),
        3: listed([b"\0"]),
        7: listed([name_bytes("loop") + b"\0" + leb(len(imports)), *exports]),
        10: listed([code_entry(b"")]),
        **dict(sections),
    }
    return OPENING + b"".join(section(number, parts[number]) for number in sorted(parts))


def many_globals():
    """200,000 globals, which take five bytes each."""
    return with_many(sections={6: listed([b"\x7f\1\x41\0\x0b"] * 200_000)})


def empty_data():
    """Segments of no bytes for a memory of no pages."""
    return with_many(sections={5: listed([b"\0\0"]), 11: listed([b"\0\x41\0\x0b\0"] * (NEAR_MIB // 5))})


def empty_elements():
    """Segments of no functions for a table of no entries."""
    return with_many(sections={4: listed([b"\x70\0\0"]), 9: listed([b"\0\x41\0\x0b\0"] * (NEAR_MIB // 5))})


def many_types():
    return with_many(types=[func_type(b"", b"")] * (NEAR_MIB // 3))


def many_exports():
    """Exports of `loop` under names of six bytes."""
    return with_many(exports=[name_bytes(f"{number:06x}") + b"\0\0" for number in range(NEAR_MIB // 9)])


def many_imports():
    """Imports of one call, again and again."""
    entry = host_import("me", 1)
    return with_many(imports=[entry] * (NEAR_MIB // len(entry)))
