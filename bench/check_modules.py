#!/usr/bin/env python3
"""Times `check` on modules whose shapes stall a careless validator, beside `wasm-validate` (Debian's package wabt)
on the same bytes where that is installed: the best wall time of five runs of each, in milliseconds, and how many
nanoseconds a byte that is, against the plain module of the first row. The two modules with an import are refused
for it once they are validated (12); the others are accepted (0).

Run it in the repository's top folder once the program is built (README.md). The times depend on the machine and
on what else it does: compare within one run.
"""

import os
import shutil
import subprocess
import sys
import tempfile
import time

TOP = os.path.dirname(os.path.dirname(os.path.abspath(__file__)))
sys.path.insert(0, os.path.join(TOP, "oracle"))
from module_bytes import LOOP, OPENING, leb, listed, module, section  # noqa: E402

PROGRAM = os.path.abspath("crates/world_server/out/world_server")
MIB = 1 << 20


def const(number):
    # (of one byte, from 0 to 63)
    return b"\x41" + bytes([number])


def calls(params, body):
    """A module that imports a function of so many parameters, and has one that takes and gives nothing, with this body."""
    types = section(1, listed([b"\x60" + leb(params) + b"\x7f" * params + b"\0", b"\x60\0\0"]))
    imports = section(2, listed([b"\1m\1f\0\0"]))
    code = b"\0" + body + b"\x0b"
    return OPENING + types + imports + section(3, listed([b"\1"])) + section(10, listed([leb(len(code)) + code]))


def called_types(count, calls_made):
    """A module of so many types, which take and give nothing, and of so many calls of the table, each of another of them."""
    body = b"\0" + b"".join(b"\x11" + leb(n * 7919 % count) + b"\0" for n in range(calls_made))
    code = b"\0" + body + b"\x0b"
    types = section(1, listed([b"\x60\0\0"] * count))
    funcs = section(3, listed([b"\0"])) + section(4, b"\1\x70\0\0") + section(7, listed([LOOP]))
    return OPENING + types + funcs + section(10, listed([leb(len(code)) + code]))


def shapes():
    plain = const(1) + b"\x1a"
    yield "plain: const and drop", module([plain * 30] * 10_000)
    yield "one function of consts and drops", module([plain * 340_000])
    arithmetic = b"\x20\0\x41\1\x6a\x21\0"
    yield "local.get, add, local.set", module([arithmetic * 148_000], locals=b"\1\1\x7f")
    names = [bytes([3, 32 + n % 90, 32 + n // 90 % 90, 32 + n // 8100]) + b"\0\0" for n in range(150_000)]
    yield "150,000 exports", module([b""], exports=[*names, LOOP])
    table = b"\x41\0\x0e" + leb(500_000) + b"\0" * 500_001
    yield "a br_table of 500,000 labels", module([b"\2\x40" + table + b"\x0b"])
    one = b"\x41\0\x0e" + leb(900) + bytes(n % 100 for n in range(900)) + b"\0"
    nested = b"\2\x40" * 100 + b"\2\x40" * 99 + (b"\2\x40" + one + b"\x0b") * 1100 + b"\x0b" * 199
    yield "1,100 br_tables in a nest of 200", module([nested])
    yield "10,000 functions of 65,536 locals", module([b"\x01" * 80] * 10_000, locals=b"\1" + leb(65_536) + b"\x7f")
    runs = leb(65_000) + b"\1\x7f" * 65_000
    gets = b"".join(b"\x20" + leb(n * 7919 % 65_000) + b"\x1a" for n in range(180_000))
    yield "65,000 runs of locals, each looked up", module([gets], locals=runs)
    wide = (const(0) * 2_400 + b"\2\x40") * 200
    yield "200 nested blocks above wide stacks", module([wide + b"\x0c\0\x0b" * 200 + b"\x0f"])
    yield "300,000 operands", module([const(0) * 300_000 + b"\x1a" * 300_000])
    globals_ = listed([b"\x7f\0\x41\0\x0b"] * 200_000)
    yield "200,000 globals", module([b""], before=section(6, globals_))
    yield "unreachable calls of 500,000 parameters", calls(500_000, b"\0" + b"\x10\0" * 250_000)
    one_by_one = b"\0" + (b"\x41\0" + b"\x10\0") * 120_000
    yield "unreachable calls of 500,000 parameters, an operand at each", calls(500_000, one_by_one)
    yield "60,000 types, called 160,000 times behind unreachable", called_types(60_000, 160_000)
    blocks = b"\2\x40\x0b" * 340_000
    yield "340,000 empty blocks", module([blocks])
    ifs = (const(1) + b"\4\x7f\x41\1\5\x41\2\x0b\x1a") * 95_000
    yield "95,000 ifs with results", module([ifs])
    selects = b"\0" + b"\x1b" * 1_000_000 + b"\0"
    yield "a million selects behind unreachable", module([selects])


def best(words):
    """The best wall time of five runs in milliseconds, and the last exit status; none where a run takes more than ten seconds."""
    times, status = [], 0
    for _ in range(5):
        began = time.perf_counter()
        try:
            status = subprocess.run(words, stdout=subprocess.DEVNULL, stderr=subprocess.DEVNULL, check=False, timeout=10).returncode
        except subprocess.TimeoutExpired:
            return None, None
        times.append(1000 * (time.perf_counter() - began))
    return min(times), status


def shown(took, status):
    return "> 10 s" if took is None else f"{took:.1f} ({status})"


def main():
    if not os.path.isfile(PROGRAM):
        sys.exit("no program: see README.md")
    other = shutil.which("wasm-validate")
    base = None
    print("milliseconds, and the exit status behind them")
    print(f"{'shape':64}{'bytes':>9}{'check':>14}{'ns/byte':>9}{'x plain':>9}{'wasm-validate':>15}")
    with tempfile.TemporaryDirectory() as folder:
        path = os.path.join(folder, "module.wasm")
        idle = best([PROGRAM, "check", os.devnull])[0]
        for name, content in shapes():
            if len(content) > MIB:
                sys.exit(f"{name}: {len(content)} bytes")
            with open(path, "wb") as it:
                it.write(content)
            took, status = best([PROGRAM, "check", path])
            rate = 1e6 * max((took or 10_000) - idle, 0) / len(content)
            base = base or rate
            beside = shown(*best([other, path])) if other else "-"
            print(f"{name:64}{len(content):9}{shown(took, status):>14}{rate:9.1f}{rate / base:9.1f}{beside:>15}")


main()
