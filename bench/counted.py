#!/usr/bin/env python3
"""Counts the processor's instructions for one of a module, and for ticks of many players: python3 bench/counted.py PROGRAM.

Run it in the repository's top folder once the program is built (README.md), where `wat2wasm` of wabt and valgrind are installed. The loops
of bench/machine.py run as a player of 5,000,000 instructions in the second tick of a run, and as many instructions in machine_bench, which
is looked for beside PROGRAM and in crates/machine_bench/out. The second table has the fourth tick of a run of 64 players who see the same
300 rooms: without modules, with an empty `loop` each, and with one that asks for a site in each room. Counts stay the same from run to run,
whatever else the machine does, so that small differences show which times hide.
"""

import os
import re
import subprocess
import sys
import tempfile

TOP = os.path.dirname(os.path.dirname(os.path.abspath(__file__)))
sys.path[:0] = [os.path.join(TOP, it) for it in ("oracle", "checks/inputs")]
import machine  # noqa: E402
from plain_worlds import EMPTY, for_each, of_rooms, players_of, together  # noqa: E402
from players import EACH_ROOM, FUEL, Bench, machine_at  # noqa: E402
from worlds import upload_entry  # noqa: E402


def counted(folder, command):
    """The instructions that a command takes."""
    words = ["valgrind", "--tool=callgrind", f"--callgrind-out-file={folder}/callgrind", *command]
    done = subprocess.run(words, stdout=subprocess.DEVNULL, stderr=subprocess.PIPE, check=True)
    return int(re.search(rb"Collected : (\d+)", done.stderr)[1])


def crowds(bench, folder):
    """The instructions of a tick of many players who see the same rooms."""
    print(f"{'64 players of the same 300 rooms':40}{'a tick':>14}{'times':>8}")
    bench.put("world", together(64, 300))
    base = None
    for name, stream in (("no modules", b""), ("empty loops", for_each(64, EMPTY)), ("each room asked for", for_each(64, bench.module(EACH_ROOM)))):
        bench.put("uploads", stream)
        three, four = (counted(folder, bench.command(ticks)) for ticks in (3, 4))
        base = base or four - three
        print(f"{name:40}{four - three:14,}{(four - three) / base:8.2f}", flush=True)


def main():
    if len(sys.argv) != 2 or not os.path.isfile(sys.argv[1]):
        sys.exit("no program: python3 bench/counted.py PROGRAM")
    program = os.path.abspath(sys.argv[1])
    other = machine_at(program)
    if not other:
        sys.exit("no machine_bench: build it, or place it beside the program")
    print(f"{'module':10}{'program':>10}{'machine_bench':>15}{'times':>8}")
    with tempfile.TemporaryDirectory() as folder:
        bench = Bench(program, folder, True)
        for name, text in machine.ORDINARY.items():
            module = bench.module(text)
            bench.put("world", of_rooms([[]], players_of(1)))
            bench.put("uploads", upload_entry(0, 1, module))
            one, two = (counted(folder, bench.command(ticks)) for ticks in (1, 2))
            idle, whole = (counted(folder, [other, bench.path("it.wasm"), str(fuel)]) for fuel in (0, FUEL))
            each, alone = (two - one) / FUEL, (whole - idle) / FUEL
            print(f"{name:10}{each:10.2f}{alone:15.2f}{each / alone:8.3f}", flush=True)
        crowds(bench, folder)


if __name__ == "__main__":
    main()
