#!/usr/bin/env python3
"""Measures the reading of large world files: the best of some rounds, in milliseconds, and the memory of the process.

Run it in the repository's top folder once the program world_bench is built: (cd crates/world_bench && rt run -- world
data/small.json) does that. Of each file it reads the bytes alone, then its JSON, then the whole world file. `of json` is
the world's time over the JSON's, both without that of the bytes, and so `of rust`, where `cargo` and Debian's
librust-serde-json-dev are installed: over the time in which the same text is read to a value in Rust. The times depend on
the machine and on what else it does: compare figures of one run alone. An argument says how many rounds; else 5.
"""

import json
import os
import shutil
import subprocess
import sys
import tempfile
import time

PROGRAM = os.path.abspath("crates/world_bench/out/world_bench")
SOURCE = os.path.join(os.path.dirname(os.path.abspath(__file__)), "json_value.rs")
REGISTRY = "/usr/share/cargo/registry"
SECOND = 1 << 32
OBJECTS = 20_000
TERRAIN = "".join("1" if x in (0, 49) and y in (0, 49) else "0" for y in range(50) for x in range(50))
TILES = [(x, y) for y in range(1, 49) for x in range(1, 49)]


def file_of(rooms, players=(), **more):
    """A world file of rooms, each a list of objects without ids."""
    listed = []
    for index, objects in enumerate(rooms):
        for serial, thing in enumerate(objects, 1):
            thing["id"] = index * SECOND + serial
        name = f"E{index % 20}S{index // 20}"
        listed.append({"name": name, "terrain": TERRAIN, "next": len(objects) + 1, "objects": objects})
    return json.dumps({"version": 1, "tick": 0, "rooms": listed, "players": list(players), **more}).encode()


def spread(count):
    """20,000 objects in so many rooms: on each tile a road, then a pile and a creep."""
    rooms = [[] for _ in range(count)]
    for number in range(OBJECTS):
        x, y = TILES[number // count % len(TILES)]
        layer = number // count // len(TILES)
        thing = {"kind": "road", "timer": 9} if layer == 0 else {"kind": "pile", "energy": 9}
        if layer == 2:
            thing = {"kind": "creep", "owner": 1, "body": ["move"], "timer": 9}
        rooms[number % count].append({**thing, "x": x, "y": y})
    return rooms


def files():
    player = {"player": 1, "limit": 20}
    for count in (3, 9, 400):
        yield f"20,000 objects in {count} rooms", file_of(spread(count), [player])
        yield "  a player twice", file_of(spread(count), [player, player])
    yield "20,000 on one tile of a room", file_of([[{"kind": "pile", "energy": 1, "x": 5, "y": 5} for _ in range(OBJECTS)]])
    crowded = [{"kind": "creep", "owner": 1, "body": ["move"], "timer": 9, "x": x, "y": y} for x, y in TILES for _ in range(9)]
    yield "20,000 in one room, tiles shared", file_of([crowded[:OBJECTS]], [player])
    yield "64 players with the longest texts", file_of([[]], [{"player": n + 1, "limit": 1, "memory": "5a" * 65536} for n in range(64)])
    creeps = [[{"kind": "creep", "owner": 1, "body": ["ranged_attack"] * 50, "timer": 9, "x": x, "y": y} for x, y in TILES][: 2222 + (n < 2)] for n in range(9)]
    yield "20,000 creeps of 50 parts", file_of(creeps, [player])
    yield "60 MiB of texts that are passed over", file_of([[]], notes=["a long text " * 5000] * 1000)
    yield "60 MiB of one text with escapes", file_of([[]], note="\u00e4\n" * 7_600_000)
    yield "a million objects that are passed over", file_of([[]], more=[{"a": n} for n in range(1_000_000)])


def measured(words, rounds):
    """The best time in seconds of some rounds, what was printed, and the most memory in MiB."""
    best, out, memory = None, "", 0
    for _ in range(rounds):
        begun = time.perf_counter()
        process = subprocess.Popen(words, stdout=subprocess.PIPE, text=True)
        out = process.stdout.read().strip()
        _, status, usage = os.wait4(process.pid, 0)
        took = time.perf_counter() - begun
        if status != 0:
            sys.exit(f"{words} failed")
        best = took if best is None else min(best, took)
        memory = max(memory, usage.ru_maxrss // 1024)
    return best, out, memory


def rust_reader(folder):
    """The reader in Rust, where it can be built."""
    if shutil.which("cargo") is None or not os.path.isdir(REGISTRY):
        return None
    os.makedirs(os.path.join(folder, "src"))
    shutil.copy(SOURCE, os.path.join(folder, "src/main.rs"))
    with open(os.path.join(folder, "Cargo.toml"), "w") as it:
        it.write('[package]\nname = "json_value"\nversion = "0.1.0"\nedition = "2021"\n[dependencies]\nserde_json = "1"\n')
    os.makedirs(os.path.join(folder, ".cargo"))
    with open(os.path.join(folder, ".cargo/config.toml"), "w") as it:
        it.write(f'[source.crates-io]\nreplace-with = "debian"\n[source.debian]\ndirectory = "{REGISTRY}"\n')
    if subprocess.run(["cargo", "build", "--release", "--offline", "-q"], cwd=folder).returncode != 0:
        return None
    return os.path.join(folder, "target/release/json_value")


def main():
    if not os.path.isfile(PROGRAM):
        sys.exit("no program: see the head of this file")
    rounds = int(sys.argv[1]) if len(sys.argv) > 1 else 5
    with tempfile.TemporaryDirectory() as folder:
        rust = rust_reader(os.path.join(folder, "rust"))
        if rust is None:
            print("no serde_json in Rust to compare with: skipped")
        print(f"{'file':<40}{'MiB':>6}{'answer':>10}{'json ms':>9}{'world ms':>9}{'of json':>8}{'rust ms':>9}{'of rust':>8}{'MiB held':>9}{'of json':>8}{'of rust':>8}")
        path = os.path.join(folder, "world")
        for title, text in files():
            with open(path, "wb") as it:
                it.write(text)
            bare, _, _ = measured([PROGRAM, "bytes", path], rounds)
            as_json, _, json_memory = measured([PROGRAM, "json", path], rounds)
            as_world, answer, memory = measured([PROGRAM, "world", path], rounds)
            as_json, as_world = as_json - bare, as_world - bare
            row = f"{title:<40}{len(text) / (1 << 20):>6.1f}{answer:>10}{as_json * 1e3:>9.1f}{as_world * 1e3:>9.1f}{as_world / as_json:>8.2f}"
            if rust:
                as_rust, _, rust_memory = measured([rust, path], rounds)
                row += f"{(as_rust - bare) * 1e3:>9.1f}{as_world / (as_rust - bare):>8.2f}{memory:>9}{memory / json_memory:>8.2f}{memory / rust_memory:>8.2f}"
            else:
                row += f"{'':>9}{'':>8}{memory:>9}{memory / json_memory:>8.2f}{'':>8}"
            print(row, flush=True)


main()
