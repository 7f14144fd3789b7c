#!/usr/bin/env python3
"""The modules that the validation is tried on, oracle/modules.tsv: of each the answer, a name, its text and its sections in hexadecimal digits.
checks/modules.py runs the built program on them.

Run by itself, this assembles the text beside each and compares. The bytes have to be those that `wat2wasm --no-check` makes of the text,
without the opening, and the answer that of `wasm-validate`, both of Debian's package wabt, with the features of Core 1.0 and sign extension. A
text that begins with `by hand:` is not assembled, one with `Core 1.0:` in it is not compared with `wasm-validate`, which knows a later rule, and
those with a float have no answer to compare, since only this server refuses floats.
"""

import csv
import pathlib
import subprocess
import sys
import tempfile
from collections import namedtuple

ROWS = pathlib.Path(__file__).resolve().parent / "modules.tsv"
OPENING = bytes([0x00, 0x61, 0x73, 0x6D, 0x01, 0x00, 0x00, 0x00])
NEWER = ["saturating-float-to-int", "simd", "multi-value", "bulk-memory", "reference-types"]
FEATURES = ["--disable-" + name for name in NEWER]

# The answer is valid, invalid or float; the content is the whole module.
Row = namedtuple("Row", "answer name text content")


def rows():
    with open(ROWS, encoding="utf-8", newline="") as it:
        for row in csv.DictReader(it, delimiter="\t", quoting=csv.QUOTE_NONE):
            yield Row(row["answer"], row["name"], row["text"], OPENING + bytes.fromhex(row["sections"]))


def run(*words):
    return subprocess.run(["timeout", "20", *words], capture_output=True, text=True)


def main():
    count = 0
    wrong = 0
    with tempfile.TemporaryDirectory() as folder:
        text_file, binary = folder + "/module.wat", folder + "/module.wasm"
        for row in rows():
            count += 1
            if row.text.startswith("by hand:"):
                pathlib.Path(binary).write_bytes(row.content)
            else:
                plain = row.text.replace("Core 1.0: ", "")
                pathlib.Path(text_file).write_text("(module " + ("" if plain == "nothing" else plain) + ")")
                made = run("wat2wasm", "--no-check", "--disable-mutable-globals", *FEATURES, text_file, "-o", binary)
                if made.returncode != 0 or pathlib.Path(binary).read_bytes() != row.content:
                    wrong += 1
                    print(f"{row.name}: other bytes: {made.stderr}")
            if row.answer == "float" or "Core 1.0:" in row.text:
                continue
            valid = run("wasm-validate", *FEATURES, binary).returncode == 0
            if valid != (row.answer == "valid"):
                wrong += 1
                print(f"{row.name}: wasm-validate says the other")
    print(f"{count} modules, {wrong} wrong")
    return 1 if wrong or count == 0 else 0


if __name__ == "__main__":
    sys.exit(main())
