#!/usr/bin/env python3
"""Which bytes spell modules, and which modules are valid: the program is asked of each.

It runs behind `rt ci`, which builds crates/world_server/out/world_server. Modules are spelled by hand for each rule of the binary format:
sections in every order and of every size, custom ones at each place, each opcode, texts that are cut short, and limits. Then come modules on
both sides of each rule of validity, which another assembler made of the texts that stand beside them (oracle/modules.tsv). They export no
`loop`, and what they import is no call of the host, so those that are valid are refused for that.
"""

import os
import sys
import tempfile

TOP = os.path.dirname(os.path.dirname(os.path.abspath(__file__)))
sys.path[:0] = [os.path.join(TOP, it) for it in ("oracle", "checks/harness")]
from checked_program import Checks, run, shown, write_files  # noqa: E402
from module_bytes import leb  # noqa: E402
from module_texts import OPENING, rows  # noqa: E402

checks = Checks(__file__)
OTHERS = ("Invalid", "FloatRefused", "UnknownImport", "NoLoop")


def answer_to(content):
    """What the program says of a module: accepted, or why it is refused."""
    with tempfile.TemporaryDirectory() as folder:
        write_files(folder, {"module.wasm": content})
        status, out, err = run(["check", "module.wasm"], folder)
    line = out.decode().removesuffix("\n")
    said = line.removeprefix("refused ")
    told = (status, out, err) == (0, b"accepted\n", b"") or (status, line, err) == (12, f"refused {said}", f"fault 12 Refused {said}\n".encode())
    return said if told else shown((status, out, err))


def check_refusal(name, content, wanted):
    """The module is refused as wanted, or, where it is spelled, for something else."""
    got = answer_to(content)
    as_wanted = got in OTHERS if wanted == "spelled" else got == wanted
    checks.note(name, [] if as_wanted else [f"{got} and not {wanted}"])


# ---- what spells a module


def sections(*parts):
    """A module of sections: each a number and its content, or with a size that differs."""
    return OPENING + b"".join(bytes([number]) + leb(size[0] if size else len(content)) + content for number, content, *size in parts)


def with_body(body):
    """A module of one function of type 0, which there is not, with this body."""
    code = b"\1" + leb(len(body) + 1) + b"\0" + body
    return sections((3, b"\1\0"), (10, code))


def check_sections():
    for first in range(1, 12):
        for second in range(1, 12):
            bytes_ = sections((first, b"\0"), (second, b"\0"))
            check_refusal(f"section {first} before section {second}", bytes_, "Malformed" if first >= second else "spelled")
        for size, content in ((2, b"\0\0"), (0, b"\0"), (2, b"\0"), (1, b""), (0, b"")):
            check_refusal(f"section {first} of size {size} with {len(content)} bytes", sections((first, content, size)), "Malformed")
        for custom in (b"\0", b"\2\xc3\xa9", b"\1\x61\0\xff"):
            check_refusal(f"custom sections round section {first}", sections((0, custom), (first, b"\0"), (0, custom)), "spelled")
        for bad in (b"\1", b"\1\xff", b"\2\xc3", b"\x80", b""):
            check_refusal(f"a bad custom section before section {first}", sections((0, bad), (first, b"\0")), "Malformed")
            check_refusal(f"a bad custom section behind section {first}", sections((first, b"\0"), (0, bad)), "Malformed")
    for number in range(12, 256):
        check_refusal(f"section {number}", sections((number, b"\0")), "Malformed")
    functions = (b"\0", b"\1\0", b"\2\0\0")
    codes = (b"\0", b"\1\2\0\x0b", b"\2\2\0\x0b\2\0\x0b")
    for many, function in enumerate(functions):
        for count, code in enumerate(codes):
            check_refusal(f"{many} functions and {count} codes", sections((3, function), (10, code)), "spelled" if many == count else "Malformed")


# Of each opcode the least that stands behind it. All others are refused.
BEHIND = {code: b"" for code in (0x00, 0x01, 0x0F, 0x1A, 0x1B, *range(0x45, 0xC5))}
BEHIND |= {code: b"\x40\x0b" for code in (0x02, 0x03, 0x04)}
BEHIND |= {code: b"\0" for code in (0x0C, 0x0D, 0x10, *range(0x20, 0x25), 0x3F, 0x40, 0x41, 0x42)}
BEHIND |= {code: b"\0\0" for code in (0x0E, 0x11, *range(0x28, 0x3F))}
BEHIND |= {0x43: bytes(4), 0x44: bytes(8)}

# Expressions with their ends, and others.
SPELLED = """
0b / 00010f1a1b0b / 02400b037f0b0b / 0440010b0b / 047e050b0b / 04400105 01010b010b / 0e020001000b / 1103002000 24000b / 2802003e02003903000b
3f004000417f4280000b / 430000000044 00000000000000000b / 455a5b66678a8bbfc0c40b / 04400b0b / 0440050b0b / 044005010b0b / 04400105010b0b / 044001050b0b
"""
MISSPELLED = " / 01 / 05 / 0b0b / 060b / 120b / 1c0b / 250b / c50b / 02410b0b / 0240050b0b / 044005050b0b / 3f010b / 430000000b"


def check_expressions():
    for code in range(256):
        if code in BEHIND:
            check_refusal(f"opcode {code:#x}", with_body(bytes([code]) + BEHIND[code] + b"\x0b"), "spelled")
        if code in BEHIND and BEHIND[code]:
            check_refusal(f"opcode {code:#x}, cut short", with_body(bytes([code]) + BEHIND[code][:-1] + b"\x0b"), "Malformed")
        if code not in BEHIND and code != 0x0B:
            check_refusal(f"opcode {code:#x}, which is none", with_body(bytes([code, 0x0B])), "Malformed")
    for text in SPELLED.replace("\n", "/").strip("/").split("/"):
        check_refusal(f"the expression {text}", with_body(bytes.fromhex(text)), "spelled")
    for text in MISSPELLED.split("/"):
        check_refusal(f"no expression: {text}", with_body(bytes.fromhex(text)), "Malformed")


def nest(blocks, ends):
    return with_body(b"\x02\x40" * blocks + b"\x0b" * ends)


def functions_of(count):
    return sections((3, leb(count) + bytes(count)), (10, leb(count) + b"\2\0\x0b" * count))


def locals_of(*counts, types=()):
    code = leb(len(counts)) + b"".join(leb(count) + b"\x7f" for count in counts) + b"\x0b"
    return sections(*types, (3, b"\1\0"), (10, b"\1" + leb(len(code)) + code))


def check_limits():
    one_parameter = ((1, b"\1\x60\1\x7f\0"),)
    rows = [
        ("a nest of 200", nest(200, 201), "spelled"),
        ("a nest of 201", nest(201, 202), "TooLarge"),
        ("a nest of 201 that is cut", nest(201, 201), "Malformed"),
        ("a nest of 300,000", nest(300_000, 300_001), "TooLarge"),
        ("a nest of 300,000 that is cut", nest(300_000, 300_000), "Malformed"),
        ("a nest of 400,000, past a mebibyte", nest(400_000, 400_001), "TooLarge"),
        ("10,000 functions", functions_of(10_000), "spelled"),
        ("10,001 functions", functions_of(10_001), "TooLarge"),
        ("a mebibyte of zeros", bytes(1 << 20), "Malformed"),
        ("a mebibyte and a byte", bytes((1 << 20) + 1), "TooLarge"),
        ("65,536 locals", locals_of(65_536), "spelled"),
        ("65,536 locals and a parameter", locals_of(65_536, types=one_parameter), "TooLarge"),
        ("locals that sum past 2^32", locals_of(2**32 - 1, 2**32 - 1), "TooLarge"),
        ("256 pages", sections((5, b"\1\0\x80\2")), "spelled"),
        ("257 pages", sections((5, b"\1\0\x81\2")), "TooLarge"),
        ("65,536 entries", sections((4, b"\1\x70\0\x80\x80\4")), "spelled"),
        ("65,537 entries", sections((4, b"\1\x70\0\x81\x80\4")), "TooLarge"),
        ("two results", sections((1, b"\1\x60\0\2\x7f\x7f")), "Malformed"),
        ("half the opening", OPENING[:7], "Malformed"),
        ("another version", OPENING[:4] + b"\2\0\0\0", "Malformed"),
    ]
    for name, content, wanted in rows:
        check_refusal(name, content, wanted)


def check_entries():
    """The last section of each module has one entry: it is read, and with another byte in a place of it, or less of it, it is none."""
    rows = [
        ("a type", (1, b"\1\x60\1\x7f\1\x7e"), [("another mark", 1, 0x5F), ("a parameter of no type", 3, 0x7B), ("a result of no type", 5, 0x40)]),
        ("an imported function", (2, b"\1\1a\1b\0\0"), [("names that are no text", 2, 0xFF), ("another kind", 5, 4), ("an index that goes on", 6, 0x80)]),
        ("an imported table", (2, b"\1\0\0\1\x70\0\0"), [("of something else", 4, 0x6F), ("other limits", 5, 2)]),
        ("an imported memory", (2, b"\1\0\0\2\1\0\1"), [("other limits", 4, 2), ("a greatest size that goes on", 6, 0x80)]),
        ("an imported global", (2, b"\1\0\0\3\x7f\1"), [("of no type", 4, 0x40), ("another mark", 5, 2)]),
        ("a table", (4, b"\1\x70\1\0\1"), [("of something else", 1, 0x6F), ("other limits", 2, 2)]),
        ("a memory", (5, b"\1\0\0"), [("other limits", 1, 2)]),
        ("a global", (6, b"\1\x7f\0\x41\0\x0b"), [("of no type", 1, 0x40), ("another mark", 2, 2), ("a value without end", 5, 1)]),
        ("an export", (7, b"\1\1a\0\0"), [("a name that is no text", 2, 0xFF), ("another kind", 3, 4), ("an index that goes on", 4, 0x80)]),
        ("elements", (9, b"\1\0\x41\0\x0b\1\0"), [("an offset without end", 4, 1), ("more than there are", 5, 2)]),
        ("data", (11, b"\1\0\x41\0\x0b\1a"), [("an offset without end", 4, 1), ("more than there are", 5, 2), ("fewer than there are", 5, 0)]),
    ]
    for name, (number, content), changes in rows:
        check_refusal(name, sections((number, content)), "spelled")
        check_refusal(f"{name}, cut short", sections((number, content[:-1])), "Malformed")
        for change, place, byte in changes:
            check_refusal(f"{name}: {change}", sections((number, content[:place] + bytes([byte]) + content[place + 1 :])), "Malformed")


# ---- which modules are valid


def refusal_of(row):
    if row.answer == "valid":
        return "UnknownImport" if "(import " in row.text else "NoLoop"
    return {"invalid": "Invalid", "float": "FloatRefused"}[row.answer]


def check_fronts():
    """The fronts of the loop module: the opening alone, and that with the section of types behind it, spell modules without a `loop`, and no other does."""
    with open(os.path.join(TOP, "modules/loop.wasm"), "rb") as it:
        whole = it.read()
    checks.note("the loop module has 39 bytes", [] if len(whole) == 39 else [f"{len(whole)}"])
    for length in range(len(whole)):
        check_refusal(f"the first {length} bytes of the loop module", whole[:length], "NoLoop" if length in (8, 14) else "Malformed")


def check_validity():
    for row in rows():
        check_refusal(row.name, row.content, refusal_of(row))


def main():
    check_sections()
    check_expressions()
    check_limits()
    check_entries()
    check_fronts()
    check_validity()
    checks.finish()


if __name__ == "__main__":
    main()
