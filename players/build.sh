#!/usr/bin/env bash
# Builds a player in C or C++ with clang and lld: `players/build.sh players/dropper.c` makes players/out/dropper.wasm. A second word
# names another file for the module, and the variable CLANG another clang.
set -eu
source=${1:?usage: build.sh SOURCE [MODULE.wasm]}
here=$(dirname "$0")
name=$(basename "$source")
module=${2:-$here/out/${name%.*}.wasm}
mkdir -p "$(dirname "$module")"
# -nostdlib ..     no library, and no function that the compiler would take from one
# memory.c         what the compiler calls by itself to copy, fill and compare memory; only what is called stays
# --no-entry ..    the one export that counts is `loop`
# stack            8 KiB, in front of what is static: who needs more of it traps, and writes over nothing. The memory has as many pages as
#                  the two need
# --strip-all      no names, which count towards the mebibyte that a module may have
flags=(--target=wasm32 -O2 -Wall -Wextra -nostdlib -ffreestanding -fno-builtin)
case "$name" in
*.cpp | *.cc | *.cxx) flags+=(-fno-exceptions -fno-rtti -fno-threadsafe-statics) ;;
esac
exec "${CLANG:-clang}" "${flags[@]}" -I "$here" \
    -Wl,--no-entry -Wl,--export=loop -Wl,--strip-all -Wl,-z,stack-size=8192 -Wl,--stack-first \
    "$source" "$here/memory.c" -o "$module"
