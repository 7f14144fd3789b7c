#!/usr/bin/env python3
"""Measures the program on large inputs: the best wall time of three runs of each, in milliseconds.

Run it in the repository's top folder once the program is built (README.md). The times depend on the
machine and on what else it does: compare two builds on one machine, one run after the other.
"""

import json
import os
import subprocess
import sys
import tempfile
import time

TOP = os.path.dirname(os.path.dirname(os.path.abspath(__file__)))
sys.path.insert(0, os.path.join(TOP, "oracle"))
from module_bytes import module  # noqa: E402

PROGRAM = os.path.abspath("crates/world_server/out/world_server")


def world():
    """400 rooms with 50 piles each, which is as many objects as a world may have."""
    terrain = ["0"] * 2500
    for corner in (0, 49, 2450, 2499):
        terrain[corner] = "1"
    rooms = []
    for index in range(400):
        piles = [
            {"id": index * 2**32 + n + 1, "kind": "pile", "x": 1 + n % 40, "y": 1 + n // 40, "energy": 1_000_000}
            for n in range(50)
        ]
        name = f"E{index % 20}S{index // 20}"
        rooms.append({"name": name, "terrain": "".join(terrain), "next": 51, "objects": piles})
    return json.dumps({"version": 1, "tick": 0, "rooms": rooms, "players": []}).encode()


def main():
    if not os.path.isfile(PROGRAM):
        sys.exit("no program: see README.md")
    flat = module([b"\x41\0\x1a" * 30] * 10_000)
    deep = module([b"\x02\x40" * 300_000 + b"\x0b" * 300_000])
    with tempfile.TemporaryDirectory() as folder:
        paths = {}
        for name, content in [("world", world()), ("uploads", b""), ("flat", flat), ("deep", deep)]:
            paths[name] = os.path.join(folder, name)
            with open(paths[name], "wb") as file:
                file.write(content)
        journal = os.path.join(folder, "journal")

        def run(ticks):
            return ["run", paths["world"], paths["uploads"], journal, "--ticks", str(ticks)]

        rows = [
            ("20,000 objects: read the world, no tick", run(0)),
            ("20,000 objects: 1 tick", run(1)),
            ("20,000 objects: 20 ticks", run(20)),
            (f"check of 10,000 functions, {len(flat):,} bytes", ["check", paths["flat"]]),
            (f"check of 300,000 blocks within one another, {len(deep):,} bytes", ["check", paths["deep"]]),
        ]
        for title, words in rows:
            best = None
            for _ in range(3):
                if os.path.exists(journal):
                    os.remove(journal)
                start = time.perf_counter()
                done = subprocess.run([PROGRAM, *words], stdout=subprocess.PIPE, stderr=subprocess.PIPE)
                took = time.perf_counter() - start
                best = took if best is None else min(best, took)
            print(f"{best * 1000:9.1f} ms  status {done.returncode}  {title}")


if __name__ == "__main__":
    main()
