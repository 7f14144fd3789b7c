#!/usr/bin/env python3
"""Runs the built program machine_bench over real files: what it prints, and its exit status.

It runs behind `rt ci`, which builds crates/machine_bench/out/machine_bench. Behind the rows come modules with many segments and globals, of which `loop` looks
at what it begins with and traps where that is not what the segments write one after the other: segments that overlap, touch, lie apart by
just under and just over what makes one stretch of them, stand in any order, or are empty.
"""

import os
import random
import subprocess
import sys
import tempfile

TOP = os.path.dirname(os.path.dirname(os.path.abspath(__file__)))
sys.path.insert(0, os.path.join(TOP, "oracle"))
from module_bytes import OPENING, code_entry, leb, listed, module, section, signed_leb  # noqa: E402

PROGRAM = os.path.join(TOP, "crates/machine_bench/out/machine_bench")
NOP = b"\x01"
UNREACHABLE = b"\x00"
ENDLESS = b"\x03\x40\x0c\x00\x0b"
CALLS_ITSELF = b"\x10\x00"
MIB = 1 << 20

# A module, the fuel, what is printed, and the exit status.
ROWS = [
    (module([b""]), "0", b"finished 0\n", 0),
    (module([NOP * 10_000]), "10000", b"finished 10000\n", 0),
    (module([NOP * 10_001]), "10000", b"spent 10000\n", 0),
    (module([ENDLESS]), "0", b"spent 0\n", 0),
    (module([ENDLESS]), "1000001", b"spent 1000001\n", 0),
    (module([CALLS_ITSELF]), "10000", b"trapped 1000\n", 0),
    (module([CALLS_ITSELF]), "999", b"spent 999\n", 0),
    (module([NOP + UNREACHABLE]), "18446744073709551615", b"trapped 2\n", 0),
    (module([NOP]), "18446744073709551616", b"", 1),
    (module([NOP]), "", b"", 1),
    (module([NOP], exports=()), "1", b"", 1),
    (module([b"\x1a"]), "1", b"", 1),
    (OPENING, "1", b"", 1),
    (b"", "1", b"", 1),
    (module([NOP * MIB]), "1", b"", 1),
]


# ---- what an instance begins with

PAGE = 65_536
ENTRIES = 300
I32_CONST, I64_CONST, NE, NE_64 = b"\x41", b"\x42", b"\x47", b"\x52"
TRAP_IF = b"\x04\x40\x00\x0b"
draw = random.Random(20)


def constant(number):
    return I32_CONST + signed_leb(number)


def first_store(pages, segments, elements, values, looks, functions=4):
    """A module with so many pages, these segments and globals, and functions that give 1, 2 and so on, whose `loop` takes these looks."""
    content = OPENING + section(1, listed([b"\x60\0\0", b"\x60\0\1\x7f"])) + section(3, listed([b"\0", *[b"\1"] * functions]))
    content += section(4, b"\1\x70\0" + leb(ENTRIES)) + section(5, b"\1\0" + leb(pages))
    kinds = [(b"\x7e\0" + I64_CONST if value >= 1 << 31 else b"\x7f\0" + I32_CONST) + signed_leb(value) + b"\x0b" for value in values]
    content += section(6, listed(kinds)) + section(7, b"\1\4loop\0\0")
    content += section(9, listed([b"\0" + constant(at) + b"\x0b" + listed([leb(func) for func in funcs]) for at, funcs in elements]))
    codes = [code_entry(b"".join(looks)), *[code_entry(constant(number)) for number in range(1, functions + 1)]]
    return content + section(10, listed(codes)) + section(11, listed([b"\0" + constant(at) + b"\x0b" + leb(len(it)) + it for at, it in segments]))


def around(spans, size):
    """Places before, at the ends of and behind spans, and some others."""
    near = {place for at, it in spans for place in (at - 1, at, at + len(it) - 1, at + len(it))}
    return sorted({place for place in [*near, 0, size - 1, *[draw.randrange(size) for _ in range(20)]] if 0 <= place < size})


def spans_of(size, count, most, make):
    """So many spans within a size, drawn anywhere or one behind the other with gaps around what joins them, in any order."""
    found, at = [], draw.randrange(50)
    for _ in range(count):
        length = draw.choice((0, 1, 1, 2, 3, draw.randint(1, most)))
        if draw.random() < 0.3:
            at = draw.randrange(size)
        at = min(at, size - length)
        found.append((at, make(length)))
        at += length + draw.choice((0, 0, 1, 30, 31, 32, 33, 34, draw.randrange(200)))
    draw.shuffle(found)
    return found


def memory_row(pages, count, most):
    size = pages * PAGE
    segments = spans_of(size, count, most, lambda length: bytes(draw.choices((0, 1, 7, 255), k=length)))
    memory = bytearray(size)
    for at, it in segments:
        memory[at : at + len(it)] = it
    looks = [constant(at) + b"\x2d\0\0" + constant(memory[at]) + NE + TRAP_IF for at in around(segments, size)]
    return first_store(pages, segments, [], [], looks), len(looks) * 5


def table_row(count, most, blank):
    """A row whose last look, where it is to be at a blank entry, traps."""
    elements = spans_of(ENTRIES, count, most, lambda length: [draw.randint(1, 4) for _ in range(length)])
    table = [None] * ENTRIES
    for at, funcs in elements:
        table[at : at + len(funcs)] = funcs
    places = around(elements, ENTRIES)
    looks = [constant(at) + b"\x11\1\0" + constant(table[at]) + NE + TRAP_IF for at in places if table[at]]
    blanks = [at for at in places if not table[at]]
    if blank and blanks:
        last = constant(draw.choice(blanks)) + b"\x11\1\0\x1a"
        return first_store(1, [], elements, [], [*looks, last]), b"trapped %d\n" % (len(looks) * 6 + 2)
    return first_store(1, [], elements, [], looks), b"finished %d\n" % (len(looks) * 6)


def globals_row(count):
    values = [draw.choice((0, 1, -1, (1 << 31) - 1, -(1 << 31), 1 << 31, (1 << 63) - 1, draw.randrange(1 << 40))) for _ in range(count)]
    looks = [
        b"\x23" + leb(at) + ((I64_CONST + signed_leb(value) + NE_64) if value >= 1 << 31 else constant(value) + NE) + TRAP_IF for at, value in enumerate(values)
    ]
    return first_store(0, [], [], values, looks), count * 4


def first_rows():
    for pages, count, most in [(1, 0, 1), (1, 1, 9), (1, 2, 9), (2, 3, 90), (3, 16, 40), (3, 17, 40), (2, 100, 300), (256, 300, 2000), *[(2, 12, 50)] * 40]:
        content, used = memory_row(pages, count, most)
        yield content, "1000000", b"finished %d\n" % used, 0
    for count, most in [(0, 1), (1, 9), (2, 9), (3, 40), (16, 5), (17, 5), (60, 9), *[(8, 6)] * 40]:
        for blank in (False, True):
            content, said = table_row(count, most, blank)
            yield content, "1000000", said, 0
    for count in (0, 1, 2, 15, 16, 17, 1000):
        content, used = globals_row(count)
        yield content, "1000000", b"finished %d\n" % used, 0


def ran(words, folder):
    done = subprocess.run([PROGRAM, *words], cwd=folder, stdin=subprocess.DEVNULL, stdout=subprocess.PIPE, stderr=subprocess.PIPE, timeout=120)
    return done.stdout, done.returncode, done.stderr


def main():
    failed = 0
    with tempfile.TemporaryDirectory() as folder:
        tries = []
        for at, (content, fuel, said, status) in enumerate([*ROWS, *first_rows()]):
            with open(os.path.join(folder, f"{at}.wasm"), "wb") as it:
                it.write(content)
            tries.append(([f"{at}.wasm", fuel], (said, status, b"")))
        for words in ([], ["0.wasm"], ["0.wasm", "1", "1"], ["nothing.wasm", "1"]):
            tries.append((words, (b"", 1, b"")))
        for words, wanted in tries:
            got = ran(words, folder)
            if got != wanted:
                failed += 1
                print(f"FAILED: machine_bench {' '.join(words)}: {got} and not {wanted}")
    print(f"{len(tries) - failed} checks of machine_bench passed, {failed} failed")
    return 1 if failed else 0


if __name__ == "__main__":
    sys.exit(main())
