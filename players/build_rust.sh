#!/usr/bin/env bash
# Builds a player in Rust: `players/build_rust.sh players/gatherer.rs` makes players/out/gatherer.wasm. A second word names another file for
# the module. It takes a rustc with the target wasm32-unknown-unknown: on Debian those of the packages rustc and libstd-rust-dev-wasm32, with
# lld; RUSTC names another.
set -eu
source=${1:?usage: build_rust.sh SOURCE.rs [MODULE.wasm]}
module=${2:-$(dirname "$0")/out/$(basename "$source" .rs).wasm}
mkdir -p "$(dirname "$module")"
# panic=abort      no unwinding: a panic is an `unreachable`, which traps
# opt-level=2 ..   one unit of code, so that what can't be reached is left out, and with it what the library says in a panic
# stack, memory    a stack of 8 KiB within one page of 64 KiB, as players/build.sh has it; what is static has the rest
# strip-all        no names, which count towards the mebibyte that a module may have
exec "${RUSTC:-rustc}" --edition 2021 --target wasm32-unknown-unknown --crate-type cdylib \
    -C panic=abort -C opt-level=2 -C codegen-units=1 -C lto=fat \
    -C link-arg=--strip-all -C link-arg=--initial-memory=65536 -C link-arg=-zstack-size=8192 \
    "$source" -o "$module"
