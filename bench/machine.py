#!/usr/bin/env python3
"""Measures the machine: the best of some rounds of each module, in nanoseconds an instruction.

Run it in the repository's top folder once the program machine_bench is built (docs/architecture.md), where `wat2wasm` of wabt is
installed. The first table has ordinary modules, and beside each what `wasm-interp` of wabt takes for all of it, where that is installed.
The second has the modules that a player would write to hurt, with a fuel of 5,000,000, and how many times the plain loop they take. What a
run pays at its start, which is decoding, validating, linking and a new instance, is taken off, and stands in a column of its own; of
`wasm-interp` the time of an empty module is taken off. Where `rustc` is installed, the plain loop is also run by `tree_loop.rs`, which is
the loop of the machine in Rust.

The times depend on the machine and on what else it does: compare figures of one run alone. An argument says how many rounds; else 5.
"""

import os
import pathlib
import shutil
import subprocess
import sys
import tempfile
import time

PROGRAM = os.path.abspath("crates/machine_bench/out/machine_bench")
ENOUGH = 10**12
FUEL = 5_000_000

EMPTY = '(module (func (export "loop")))'

ORDINARY = {
    "plain": """(module (func (export "loop") (local $i i32) (local $a i32) (local $b i32)
        (local.set $i (i32.const 12000000))
        (loop $l
          (local.set $a (i32.add (local.get $a) (i32.mul (local.get $i) (i32.const 3))))
          (local.set $b (i32.xor (local.get $b) (i32.shl (local.get $a) (i32.const 5))))
          (br_if $l (local.tee $i (i32.sub (local.get $i) (i32.const 1)))))))""",
    "memory": """(module (memory 1) (func (export "loop") (local $i i32) (local $p i32)
        (local.set $i (i32.const 6000000))
        (loop $l
          (local.set $p (i32.and (i32.shl (local.get $i) (i32.const 3)) (i32.const 0xfff8)))
          (i32.store (local.get $p) (i32.add (i32.load (local.get $p)) (i32.load offset=4 (local.get $p))))
          (i32.store8 offset=5 (local.get $p) (i32.add (i32.load8_u offset=6 (local.get $p)) (local.get $i)))
          (i64.store (local.get $p) (i64.add (i64.load (local.get $p)) (i64.const 77)))
          (br_if $l (local.tee $i (i32.sub (local.get $i) (i32.const 1)))))))""",
    "fib": """(module (func $fib (param $n i32) (result i32)
          (if (result i32) (i32.lt_u (local.get $n) (i32.const 2))
            (then (local.get $n))
            (else (i32.add (call $fib (i32.sub (local.get $n) (i32.const 1))) (call $fib (i32.sub (local.get $n) (i32.const 2)))))))
        (func (export "loop") (drop (call $fib (i32.const 33)))))""",
    "sieve": """(module (memory 16)
        (func $sieve (param $n i32) (result i32) (local $i i32) (local $j i32) (local $c i32)
          (loop $z (i32.store8 (local.get $i) (i32.const 1))
            (br_if $z (i32.lt_u (local.tee $i (i32.add (local.get $i) (i32.const 1))) (local.get $n))))
          (local.set $i (i32.const 2))
          (block $done (loop $outer
            (br_if $done (i32.ge_u (local.get $i) (local.get $n)))
            (if (i32.load8_u (local.get $i)) (then
              (local.set $c (i32.add (local.get $c) (i32.const 1)))
              (local.set $j (i32.shl (local.get $i) (i32.const 1)))
              (block $e (loop $in
                (br_if $e (i32.ge_u (local.get $j) (local.get $n)))
                (i32.store8 (local.get $j) (i32.const 0))
                (local.set $j (i32.add (local.get $j) (local.get $i)))
                (br $in)))))
            (local.set $i (i32.add (local.get $i) (i32.const 1)))
            (br $outer)))
          (local.get $c))
        (func (export "loop") (local $k i32)
          (local.set $k (i32.const 4))
          (loop $l (drop (call $sieve (i32.const 1000000)))
            (br_if $l (local.tee $k (i32.sub (local.get $k) (i32.const 1)))))))""",
    "state": """(module (func (export "loop") (local $i i32) (local $s i32) (local $x i32) (local $a i32)
        (local.set $i (i32.const 10000000)) (local.set $x (i32.const 12345))
        (loop $l
          (local.set $x (i32.add (i32.mul (local.get $x) (i32.const 1664525)) (i32.const 1013904223)))
          (block $next
            (block $d (block $s4 (block $s3 (block $s2 (block $s1 (block $s0
              (br_table $s0 $s1 $s2 $s3 $s4 $d (local.get $s)))
              (local.set $s (i32.const 1)) (br $next))
              (local.set $s (i32.add (i32.const 2) (i32.shr_u (local.get $x) (i32.const 31)))) (br $next))
              (local.set $a (i32.add (local.get $a) (i32.const 1))) (local.set $s (i32.const 4)) (br $next))
              (local.set $a (i32.xor (local.get $a) (local.get $x))) (local.set $s (i32.const 5)) (br $next))
              (local.set $s (i32.and (local.get $x) (i32.const 7))) (br $next))
            (local.set $s (i32.const 0)))
          (br_if $l (local.tee $i (i32.sub (local.get $i) (i32.const 1)))))))""",
}


def locals_of(count):
    return "(local " + "i64 " * count + ")"


def looping(body, others=""):
    """A module that does something over and over."""
    return f"""(module {others} (func (export "loop") (local $i i32) (local.set $i (i32.const 100000000))
        (loop $l {body} (br_if $l (local.tee $i (i32.sub (local.get $i) (i32.const 1)))))))"""


def deeper(more):
    """A function that calls itself as often as its argument says."""
    return f"(func $f (param i32) {more} (if (local.get 0) (then (call $f (i32.sub (local.get 0) (i32.const 1))))))"


SCRAMBLED = "(i32.mul (local.get $i) (i32.const 40503))"

HOSTILE = {
    "calls with 65,536 locals": f"(module (func $f {locals_of(65_536)}) (func (export \"loop\") (loop $l (call $f) (br $l))))",
    "calls that set the last of 65,000": looping("(call $f)", f"(func $f {locals_of(65_000)} (local.set 64999 (i64.const 5)))"),
    "calls that read it too": looping("(call $f)", f"(func $f {locals_of(65_000)} (local.set 64999 (i64.const 5)) (drop (local.get 64999)))"),
    "calls with 64 locals": looping("(call $f)", f"(func $f {locals_of(64)})"),
    "990 calls deep": looping("(call $f (i32.const 990))", deeper("")),
    "990 calls deep with 64 locals": looping("(call $f (i32.const 990))", deeper(locals_of(63))),
    "br out of 199 blocks": looping("(block " * 199 + "(br 198)" + ")" * 199),
    "br_table of 100,000 labels": looping(f"(block (block (br_table {'0 1 ' * 50_000} 0 (i32.rem_u {SCRAMBLED} (i32.const 100000)))))"),
    "call_indirect over 65,536 entries": looping(
        f"(call_indirect (type $t) (i32.and {SCRAMBLED} (i32.const 65535)))",
        "(type $t (func)) (table 65536 funcref) (elem (i32.const 0) "
        + " ".join(f"$f{place % 1_000}" for place in range(65_536))
        + ") "
        + " ".join(f"(func $f{place})" for place in range(1_000)),
    ),
    "memory.grow that fails": looping("(drop (memory.grow (i32.const 65536)))", "(memory 1 100)"),
    "256 pages from the start": looping("(drop (i32.load (i32.const 0)))", "(memory 256)"),
}


def seconds(command):
    began = time.perf_counter()
    done = subprocess.run(command, stdout=subprocess.PIPE, check=True)
    return time.perf_counter() - began, done.stdout.decode()


def best(rounds, command):
    tries = [seconds(command) for _ in range(rounds)]
    return min(tries)[0], tries[0][1]


class Runs:
    """A folder with the modules, and their times."""

    def __init__(self, folder, rounds):
        self.folder = pathlib.Path(folder)
        self.rounds = rounds

    def module(self, text):
        (self.folder / "it.wat").write_text(text)
        path = self.folder / "it.wasm"
        subprocess.run(["wat2wasm", self.folder / "it.wat", "-o", path], check=True)
        return str(path)

    def machine(self, path, fuel):
        """Milliseconds before the first instruction, instructions, and nanoseconds for each."""
        start, _ = best(self.rounds, [PROGRAM, path, "0"])
        whole, said = best(self.rounds, [PROGRAM, path, str(fuel)])
        used = int(said.split()[1])
        return start * 1e3, used, (whole - start) * 1e9 / used

    def interpreter(self, path):
        whole, _ = best(self.rounds, ["wasm-interp", path, "--run-all-exports"])
        return whole


def in_rust(folder):
    """Nanoseconds for an instruction of the plain loop in Rust."""
    source = pathlib.Path(__file__).resolve().parent / "tree_loop.rs"
    program = pathlib.Path(folder) / "tree_loop"
    subprocess.run(["rustc", "--edition", "2021", "-O", source, "-o", program], check=True)
    _, said = seconds([program])
    return float(said.split()[1])


def ordinary(runs):
    has_interpreter = shutil.which("wasm-interp")
    empty = runs.interpreter(runs.module(EMPTY)) if has_interpreter else 0
    print(f"{'module':36}{'instructions':>14}{'start ms':>10}{'ns each':>9}{'wasm-interp':>13}{'times':>7}")
    for name, text in ORDINARY.items():
        path = runs.module(text)
        start, used, each = runs.machine(path, ENOUGH)
        row = f"{name:36}{used:14,}{start:10.1f}{each:9.2f}"
        if has_interpreter:
            other = (runs.interpreter(path) - empty) * 1e9 / used
            row += f"{other:13.2f}{other / each:7.2f}"
        print(row)
        if name == "plain" and shutil.which("rustc"):
            rust = in_rust(runs.folder)
            print(f"{'  the same in Rust':46}{'':>4}{rust:9.2f}{'of it':>13}{each / rust:7.2f}")


def hostile(runs):
    _, _, plain = runs.machine(runs.module(ORDINARY["plain"]), FUEL)
    print(f"{'module':36}{'instructions':>14}{'start ms':>10}{'ns each':>9}{'of plain':>13}")
    for name, text in HOSTILE.items():
        start, used, each = runs.machine(runs.module(text), FUEL)
        assert used == FUEL, f"{name}: stopped after {used}"
        print(f"{name:36}{used:14,}{start:10.1f}{each:9.2f}{each / plain:13.2f}")


def main():
    if not os.path.isfile(PROGRAM):
        sys.exit("no program: build crates/machine_bench first")
    rounds = int(sys.argv[1]) if len(sys.argv) > 1 else 5
    with tempfile.TemporaryDirectory() as folder:
        runs = Runs(folder, rounds)
        ordinary(runs)
        hostile(runs)


if __name__ == "__main__":
    main()
