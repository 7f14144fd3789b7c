#!/usr/bin/env python3
"""Assembles the text beside each of the modules that the machine is tried on, and works out what it does in two ways.

It reads the tables of crates/machine_examples/src, where a line `// NAME: TEXT` stands above each module and a line `// NAME` above what it
does; a long text goes on in further lines of comment. The bytes have to be those that `wat2wasm`, of wabt, makes of the text with the features
of Core 1.0 and sign extension, without the opening. What it does is worked out by the interpreter below, which is written from the W3C standard
and from the rules of this machine for fuel and for room, and, where `node` is installed, by node's WebAssembly, with calls put into each module
that count instructions, frames and values.

A text leaves out the imports where it has no word `import`: each host call that it names, as `$see`, is imported from `screeps`, in the order of
CALLS. `[3 nop]` stands for `nop nop nop`.

With `--alone` it also prints the modules whose outcome node can't confirm.
"""

import json
import pathlib
import re
import shutil
import subprocess
import sys
import tempfile
import threading

SOURCES = pathlib.Path(__file__).resolve().parent.parent / "crates/machine_examples/src"
OPENING = bytes([0x00, 0x61, 0x73, 0x6D, 0x01, 0x00, 0x00, 0x00])
NEWER = ["saturating-float-to-int", "simd", "multi-value", "bulk-memory", "reference-types"]
FEATURES = ["--disable-" + name for name in NEWER]

MOST_FRAMES = 1_000
MOST_VALUES = 65_536
MOST_PAGES = 256
PAGE = 65_536
I32, I64 = 0x7F, 0x7E

# Of each operator of sign extension the low bits that it looks at, and its width.
EXTENSIONS = {0xC0: (8, 32), 0xC1: (16, 32), 0xC2: (8, 64), 0xC3: (16, 64), 0xC4: (32, 64)}

# What the host of the tests offers: the parameters and the result of each call.
CALLS = {
    "see": ([I64], None),
    "see32": ([I32], None),
    "mix": ([I32, I64, I32], None),
    "mark": ([I32], None),
    "ask": ([], I64),
    "ask32": ([], I32),
    "sum": ([I32, I64], I64),
    "sum32": ([I32, I32], I32),
    "write": ([I32, I64], None),
    "read": ([I32], I64),
}
ORDER = list(CALLS)
TYPE_NAMES = {I32: "i32", I64: "i64"}
ASKED = 0xFEDC_BA98_7654_3210
ASKED32 = 0x7654_3210_8000_0001

# The outcomes of a module that is not run.
REFUSALS = ["NO_LOOP", "SEGMENT", "IMPORT"]


def signed(value, bits):
    value &= (1 << bits) - 1
    return value - (1 << bits) if value >> (bits - 1) else value


# The binary form.


class Reader:
    def __init__(self, data):
        self.data = data
        self.at = 0

    def byte(self):
        self.at += 1
        return self.data[self.at - 1]

    def take(self, count):
        self.at += count
        return self.data[self.at - count : self.at]

    def groups(self):
        """The number that groups of seven bits spell, how many bits they have, and the last byte."""
        value = bits = 0
        while True:
            byte = self.byte()
            value |= (byte & 0x7F) << bits
            bits += 7
            if byte < 0x80:
                return value, bits, byte

    def unsigned(self):
        return self.groups()[0]

    def signed(self, bits):
        value, read, last = self.groups()
        return signed(value | (-(1 << read) if last & 0x40 else 0), bits)

    def name(self):
        return self.take(self.unsigned()).decode()

    def bounds(self):
        has_most = self.byte()
        least = self.unsigned()
        return least, self.unsigned() if has_most else None


def leb(value):
    out = bytearray()
    while True:
        byte = value & 0x7F
        value >>= 7
        if value == 0:
            return bytes(out) + bytes([byte])
        out.append(byte | 0x80)


def signed_leb(value):
    out = bytearray()
    while True:
        byte = value & 0x7F
        value >>= 7
        if (value == 0 and byte < 0x40) or (value == -1 and byte >= 0x40):
            return bytes(out) + bytes([byte])
        out.append(byte | 0x80)


BLOCK, LOOP, IF, ELSE, END = 0x02, 0x03, 0x04, 0x05, 0x0B


def instruction(reader):
    """The next opcode with what stands behind it."""
    code = reader.byte()
    if code in (BLOCK, LOOP, IF):
        return code, reader.byte()
    if code in (0x0C, 0x0D, 0x10) or 0x20 <= code <= 0x24:
        return code, reader.unsigned()
    if code == 0x0E:
        return code, [reader.unsigned() for _ in range(reader.unsigned() + 1)]
    if code == 0x11:
        kind = reader.unsigned()
        reader.byte()
        return code, kind
    if 0x28 <= code <= 0x3E:
        reader.unsigned()
        return code, reader.unsigned()
    if code in (0x3F, 0x40):
        return code, reader.byte()
    if code == 0x41:
        return code, reader.signed(32)
    if code == 0x42:
        return code, reader.signed(64)
    return code, None


def tree(reader):
    """A run of instructions, and the opcode that ends it. Blocks hold theirs."""
    run = []
    while True:
        code, operand = instruction(reader)
        if code in (ELSE, END):
            return run, code
        inner = other = None
        if code in (BLOCK, LOOP, IF):
            inner, ended = tree(reader)
            other = []
            if ended == ELSE:
                other, _ = tree(reader)
        run.append((code, operand, inner, other))


def constant(reader):
    """The value of an initialiser, which is one constant in these modules."""
    run, _ = tree(reader)
    return run[0][1]


class Module:
    def __init__(self, data):
        self.sections = []
        self.has_other_imports = False
        self.types, self.imports, self.kinds, self.tables, self.memories = [], [], [], [], []
        self.globals, self.exports, self.start, self.elements, self.codes, self.data = [], {}, None, [], [], []
        reader = Reader(data)
        while reader.at < len(data):
            number = reader.byte()
            content = reader.take(reader.unsigned())
            self.sections.append((number, content))
            self.section(number, Reader(content))

    def section(self, number, reader):
        count = reader.unsigned()
        if number == 8:
            self.start = count
            return
        for _ in range(count):
            if number == 1:
                reader.byte()
                params = list(reader.take(reader.unsigned()))
                result = list(reader.take(reader.unsigned()))
                self.types.append((params, result[0] if result else None))
            elif number == 2:
                words = reader.name(), reader.name()
                kind = reader.byte()
                if kind == 0:
                    self.imports.append((*words, reader.unsigned()))
                    continue
                self.has_other_imports = True
                reader.at += 2 if kind == 3 else 1 if kind == 1 else 0
                if kind != 3:
                    reader.bounds()
            elif number == 3:
                self.kinds.append(reader.unsigned())
            elif number == 4:
                reader.byte()
                self.tables.append(reader.bounds())
            elif number == 5:
                self.memories.append(reader.bounds())
            elif number == 6:
                bits = 32 if reader.byte() == I32 else 64
                reader.byte()
                self.globals.append(constant(reader) & ((1 << bits) - 1))
            elif number == 7:
                word = reader.name()
                self.exports[word] = reader.byte(), reader.unsigned()
            elif number == 9:
                reader.unsigned()
                offset = constant(reader) & 0xFFFF_FFFF
                self.elements.append((offset, [reader.unsigned() for _ in range(reader.unsigned())]))
            elif number == 10:
                reader.unsigned()
                local_count = 0
                for _ in range(reader.unsigned()):
                    local_count += reader.unsigned()
                    reader.byte()
                self.codes.append((local_count, tree(reader)[0]))
            elif number == 11:
                reader.unsigned()
                offset = constant(reader) & 0xFFFF_FFFF
                self.data.append((offset, reader.take(reader.unsigned())))

    def type_of(self, function):
        if function < len(self.imports):
            return self.types[self.imports[function][2]]
        return self.types[self.kinds[function - len(self.imports)]]


# The interpreter: W3C Core 1.0, chapter 4, with a count of instructions and of values.


class Stopped(Exception):
    """A trap, or the end of the fuel."""


class Refused(Exception):
    pass


def host_answer(name, args, memory):
    """What the host of the tests answers, its arguments signed."""
    if name == "ask":
        return ASKED
    if name == "ask32":
        return ASKED32
    if name in ("sum", "sum32"):
        return args[0] + args[1]
    at = args[0] & 0xFFFF_FFFF if args else 0
    within = at + 8 <= len(memory)
    if name == "write" and within:
        memory[at : at + 8] = (args[1] & (1 << 64) - 1).to_bytes(8, "little")
    if name == "read":
        return int.from_bytes(memory[at : at + 8], "little") if within else -1
    return 0


def compared(code, left, right, bits):
    first, second = signed(left, bits), signed(right, bits)
    return [
        left == right, left != right, first < second, left < right, first > second, left > right,
        first <= second, left <= right, first >= second, left >= right,
    ][code]  # fmt: skip


def quotient(left, right):
    return abs(left) // abs(right) * (1 if (left < 0) == (right < 0) else -1)


def combined(code, left, right, bits):
    """The binary operations from `add` on, in the order of their opcodes."""
    mask = (1 << bits) - 1
    first, second = signed(left, bits), signed(right, bits)
    if 3 <= code <= 6 and right == 0:
        raise Stopped("DIVIDE_BY_ZERO")
    if code == 3:
        if quotient(first, second) == 1 << (bits - 1):
            raise Stopped("OVERFLOW")
        return quotient(first, second) & mask
    if code == 5:
        return (first - second * quotient(first, second)) & mask
    by = right % bits
    return [
        lambda: left + right, lambda: left - right, lambda: left * right,
        None, lambda: left // right, None, lambda: left % right,
        lambda: left & right, lambda: left | right, lambda: left ^ right,
        lambda: left << by, lambda: first >> by, lambda: left >> by,
        lambda: (left << by) | (left >> (bits - by)), lambda: (left >> by) | (left << (bits - by)),
    ][code]() & mask  # fmt: skip


def counted(code, value, bits):
    """`clz`, `ctz` and `popcnt`."""
    digits = format(value, f"0{bits}b")
    if code == 0:
        return bits - len(digits.lstrip("0"))
    if code == 1:
        return bits - len(digits.rstrip("0"))
    return digits.count("1")


# The bits of the result, the bits that are read, and whether their sign is kept, of each load from 0x28 on.
LOADS = {
    0x28: (32, 32, False), 0x29: (64, 64, False), 0x2C: (32, 8, True), 0x2D: (32, 8, False), 0x2E: (32, 16, True), 0x2F: (32, 16, False),
    0x30: (64, 8, True), 0x31: (64, 8, False), 0x32: (64, 16, True), 0x33: (64, 16, False), 0x34: (64, 32, True), 0x35: (64, 32, False),
}  # fmt: skip
STORES = {0x36: 32, 0x37: 64, 0x3A: 8, 0x3B: 16, 0x3C: 8, 0x3D: 16, 0x3E: 32}

RETURNED = -1


def outer(label):
    """A label as it is counted one block further out."""
    return label if label in (None, RETURNED) else label - 1


class Machine:
    def __init__(self, module, fuel):
        self.module, self.fuel = module, fuel
        self.used = self.frames = self.locals_held = 0
        self.stack, self.seen = [], []
        self.linked()
        self.globals = list(module.globals)
        least, most = module.memories[0] if module.memories else (0, None)
        self.memory = bytearray(least * PAGE)
        self.most_pages = min(MOST_PAGES, MOST_PAGES if most is None else most)
        self.table = [None] * (module.tables[0][0] if module.tables else 0)
        segments = [(self.table, offset, content) for offset, content in module.elements]
        segments += [(self.memory, offset, content) for offset, content in module.data]
        for place, (whole, offset, content) in enumerate(segments):
            if offset + len(content) > len(whole):
                raise Refused("SEGMENT", place)
        for whole, offset, content in segments:
            whole[offset : offset + len(content)] = content

    def linked(self):
        for whole, name, kind in self.module.imports:
            offered = CALLS.get(name) if whole == "screeps" else None
            if offered is None or self.module.types[kind] != offered:
                raise Refused("IMPORT", 0)
        if self.module.has_other_imports:
            raise Refused("IMPORT", 0)
        kind, index = self.module.exports.get("loop", (None, 0))
        if kind != 0 or self.module.type_of(index) != ([], None):
            raise Refused("NO_LOOP", 0)

    def step(self):
        if self.used == self.fuel:
            raise Stopped("SPENT")
        self.used += 1

    def room(self, more):
        if self.locals_held + len(self.stack) + more > MOST_VALUES:
            raise Stopped("STACK_FULL")

    def push(self, value):
        self.room(1)
        self.stack.append(value)

    def popped(self, count):
        values = self.stack[len(self.stack) - count :]
        del self.stack[len(self.stack) - count :]
        return values

    def span(self, address, offset, bits):
        at = address + offset
        if at + bits // 8 > len(self.memory):
            raise Stopped("MEMORY_BOUNDS")
        return slice(at, at + bits // 8)

    def call(self, function):
        if function < len(self.module.imports):
            self.call_host(self.module.imports[function][1])
            return
        params, result = self.module.type_of(function)
        local_count, body = self.module.codes[function - len(self.module.imports)]
        if self.frames == MOST_FRAMES:
            raise Stopped("CALL_DEPTH")
        self.room(local_count)
        values = self.popped(len(params)) + [0] * local_count
        self.frames += 1
        self.locals_held += len(values)
        height = len(self.stack)
        if self.run(body, values) is not None:
            self.kept(0 if result is None else 1, height)
        self.frames -= 1
        self.locals_held -= len(values)

    def call_host(self, name):
        params, result = CALLS[name]
        if result is not None:
            self.room(1 - len(params))
        args = [signed(value, 32 if kind == I32 else 64) for kind, value in zip(params, self.popped(len(params)))]
        self.seen += [ORDER.index(name), *args]
        answer = host_answer(name, args, self.memory)
        if result is not None:
            self.push(answer & ((1 << (32 if result == I32 else 64)) - 1))

    def call_indirect(self, kind):
        (index,) = self.popped(1)
        if index >= len(self.table):
            raise Stopped("TABLE_BOUNDS")
        if self.table[index] is None:
            raise Stopped("EMPTY_ENTRY")
        if self.module.type_of(self.table[index]) != self.module.types[kind]:
            raise Stopped("WRONG_TYPE")
        self.call(self.table[index])

    def kept(self, arity, height):
        """Drops what lies below the values of a label, down to this height."""
        values = self.popped(arity)
        del self.stack[height:]
        self.stack += values

    def block(self, body, kind, values):
        """Runs a block, and answers the label that is branched to from here, or RETURNED, or None."""
        height = len(self.stack)
        label = self.run(body, values)
        if label == 0:
            self.kept(0 if kind == 0x40 else 1, height)
            return None
        return outer(label)

    def loop(self, body, values):
        height = len(self.stack)
        label = self.run(body, values)
        while label == 0:
            del self.stack[height:]
            self.step()
            label = self.run(body, values)
        return outer(label)

    def run(self, body, values):
        for code, operand, inner, other in body:
            self.step()
            label = None
            if code == 0x00:
                raise Stopped("UNREACHABLE")
            if code == BLOCK:
                label = self.block(inner, operand, values)
            elif code == LOOP:
                label = self.loop(inner, values)
            elif code == IF:
                label = self.block(inner if self.stack.pop() else other, operand, values)
            elif code == 0x0C:
                label = operand
            elif code == 0x0D:
                label = operand if self.stack.pop() else None
            elif code == 0x0E:
                label = operand[min(self.stack.pop(), len(operand) - 1)]
            elif code == 0x0F:
                label = RETURNED
            elif code == 0x10:
                self.call(operand)
            elif code == 0x11:
                self.call_indirect(operand)
            else:
                self.plain(code, operand, values)
            if label is not None:
                return label
        return None

    def plain(self, code, operand, values):
        stack = self.stack
        if code == 0x01:
            return
        if code == 0x1A:
            stack.pop()
        elif code == 0x1B:
            first, second, choice = self.popped(3)
            self.push(first if choice else second)
        elif code == 0x20:
            self.push(values[operand])
        elif code == 0x21:
            values[operand] = stack.pop()
        elif code == 0x22:
            values[operand] = stack[-1]
        elif code == 0x23:
            self.push(self.globals[operand])
        elif code == 0x24:
            self.globals[operand] = stack.pop()
        elif code in LOADS:
            bits, width, keeps_sign = LOADS[code]
            value = int.from_bytes(self.memory[self.span(stack.pop(), operand, width)], "little")
            self.push((signed(value, width) if keeps_sign else value) & ((1 << bits) - 1))
        elif code in STORES:
            address, value = self.popped(2)
            width = STORES[code]
            self.memory[self.span(address, operand, width)] = (value & ((1 << width) - 1)).to_bytes(width // 8, "little")
        elif code == 0x3F:
            self.push(len(self.memory) // PAGE)
        elif code == 0x40:
            by, size = stack.pop(), len(self.memory) // PAGE
            grows = size + by <= self.most_pages
            if grows:
                self.memory += bytes(by * PAGE)
            self.push(size if grows else 0xFFFF_FFFF)
        elif code in (0x41, 0x42):
            self.push(operand & ((1 << (32 if code == 0x41 else 64)) - 1))
        else:
            self.number(code)

    def number(self, code):
        if code in (0x45, 0x50):
            self.push(1 if self.stack.pop() == 0 else 0)
        elif 0x46 <= code <= 0x4F or 0x51 <= code <= 0x5A:
            left, right = self.popped(2)
            base, bits = (0x46, 32) if code <= 0x4F else (0x51, 64)
            self.push(int(compared(code - base, left, right, bits)))
        elif 0x67 <= code <= 0x69 or 0x79 <= code <= 0x7B:
            base, bits = (0x67, 32) if code <= 0x69 else (0x79, 64)
            self.push(counted(code - base, self.stack.pop(), bits))
        elif 0x6A <= code <= 0x78 or 0x7C <= code <= 0x8A:
            left, right = self.popped(2)
            base, bits = (0x6A, 32) if code <= 0x78 else (0x7C, 64)
            self.push(combined(code - base, left, right, bits))
        elif code == 0xA7:
            self.push(self.stack.pop() & 0xFFFF_FFFF)
        elif code == 0xAC:
            self.push(signed(self.stack.pop(), 32) & ((1 << 64) - 1))
        elif code == 0xAD:
            pass
        elif code in EXTENSIONS:
            low, bits = EXTENSIONS[code]
            self.push(signed(self.stack.pop(), low) & ((1 << bits) - 1))
        else:
            raise ValueError(f"opcode {code:#x}")


def interpreted(data, fuel):
    """What the tests say of a module: the fuel, the outcome, what is used, and what the host got."""
    module = Module(data)
    try:
        machine = Machine(module, fuel)
    except Refused as refusal:
        return [fuel, *refusal.args]
    outcome = "FINISHED"
    try:
        if module.start is not None:
            machine.call(module.start)
        machine.call(module.exports["loop"][1])
    except Stopped as stop:
        outcome = str(stop)
    return [fuel, outcome, machine.used, *machine.seen]


# Node's WebAssembly.

# Why the functions that are put in stop a module.
STOPS = ["", "SPENT", "CALL_DEPTH", "STACK_FULL"]


def got(index):
    return b"\x20" + leb(index)


def i32_const(value):
    return b"\x41" + signed_leb(max(value, 0))


def stop_where(condition, stop, reason):
    return condition + b"\x04\x40" + i32_const(STOPS.index(reason)) + b"\x24" + stop + b"\x00\x0b"


def past(index, most):
    return got(index) + i32_const(most) + b"\x4a"


def sized(body):
    return leb(len(body)) + body


class Watched:
    """A module for node, with functions put in that count and stop: one is called before each instruction, with the values that are held once
    it is done, and one at the head of each function, with the number of its frame and the values that are held there. Two more locals keep
    that number and how many values the frames below hold. An indirect call's result is not counted before the call."""

    def __init__(self, data, fuel):
        self.module = module = Module(data)
        place = len(module.globals)
        self.used, self.stop, self.depth, self.below = (leb(place + more) for more in range(4))
        self.count, self.enter = (b"\x10" + leb(len(module.imports) + len(module.kinds) + more) for more in range(2))
        self.sections = {number: content for number, content in module.sections if number not in (0, 8)}
        if 10 in self.sections:
            self.sections[10] = leb(len(module.codes)) + self.bodies(self.sections[10])
        exports = [exported(word, 3, place + more) for more, word in enumerate(["used!", "stop!", "depth!", "below!"])]
        if module.start is not None:
            exports.append(exported("start!", 0, module.start))
        if module.memories:
            exports.append(exported("memory!", 2, 0))
            least, most = module.memories[0]
            self.sections[5] = b"\x01\x01" + leb(least) + leb(MOST_PAGES if most is None else min(most, MOST_PAGES))
        self.behind(1, [b"\x60\x01\x7f\x00", b"\x60\x02\x7f\x7f\x00"])
        self.behind(3, [leb(len(module.types)), leb(len(module.types) + 1)])
        self.behind(6, [b"\x7e\x01\x42\x00\x0b"] + [b"\x7f\x01\x41\x00\x0b"] * 3)
        self.behind(7, exports)
        self.behind(10, [self.counter(fuel), self.entrance()])

    def counter(self, fuel):
        body = b"\x00" + stop_where(b"\x23" + self.used + b"\x42" + signed_leb(fuel) + b"\x51", self.stop, "SPENT")
        body += b"\x23" + self.used + b"\x42\x01\x7c\x24" + self.used
        return sized(body + stop_where(past(0, MOST_VALUES), self.stop, "STACK_FULL") + b"\x0b")

    def entrance(self):
        body = b"\x00" + stop_where(past(0, MOST_FRAMES), self.stop, "CALL_DEPTH")
        return sized(body + stop_where(past(1, MOST_VALUES), self.stop, "STACK_FULL") + b"\x0b")

    def behind(self, number, more):
        old = self.sections.get(number, b"\x00")
        reader = Reader(old)
        self.sections[number] = leb(reader.unsigned() + len(more)) + old[reader.at :] + b"".join(more)

    def bodies(self, content):
        reader = Reader(content)
        out = b""
        for at in range(reader.unsigned()):
            size = reader.unsigned()
            out += sized(self.body(Reader(reader.take(size)), at))
        return out

    def body(self, reader, at):
        params, result = self.module.type_of(len(self.module.imports) + at)
        held = len(params) + self.module.codes[at][0]
        runs = reader.unsigned()
        begin = reader.at
        for _ in range(runs):
            reader.unsigned()
            reader.byte()
        out = bytearray(leb(runs + 1) + reader.data[begin : reader.at] + b"\x02\x7f")
        out += b"\x23" + self.depth + i32_const(1) + b"\x6a\x21" + leb(held) + b"\x23" + self.below + b"\x21" + leb(held + 1)
        out += got(held) + got(held + 1) + i32_const(held) + b"\x6a" + self.enter
        height, blocks = 0, [(0, 0 if result is None else 1)]
        while reader.at < len(reader.data):
            begin = reader.at
            code, operand = instruction(reader)
            raw = reader.data[begin : reader.at]
            if code in (ELSE, END):
                height, arity = blocks[-1] if code == ELSE else blocks.pop()
                height += arity if code == END else 0
                out += raw
                continue
            pops, pushes = self.change(code, operand)
            after = height - pops + pushes
            watch = got(held + 1) + i32_const(held + (height if code == 0x11 or self.is_own(code, operand) else after)) + b"\x6a" + self.count
            if code in (0x10, 0x11):
                watch += got(held) + b"\x24" + self.depth + got(held + 1) + i32_const(held + height - pops) + b"\x6a\x24" + self.below
            out += raw + watch if code == LOOP else watch + raw
            height = after
            if code in (BLOCK, LOOP, IF):
                blocks.append((height, 0 if operand == 0x40 else 1))
        return bytes(out)

    def is_own(self, code, operand):
        return code == 0x10 and operand >= len(self.module.imports)

    def change(self, code, operand):
        """How many values an instruction takes and gives."""
        if code in (0x10, 0x11):
            params, result = self.module.type_of(operand) if code == 0x10 else self.module.types[operand]
            return len(params) + (1 if code == 0x11 else 0), 0 if result is None else 1
        if code in (0x20, 0x23, 0x3F, 0x41, 0x42):
            return 0, 1
        if code in (IF, 0x0D, 0x0E, 0x1A, 0x21, 0x24):
            return 1, 0
        if code == 0x1B:
            return 3, 1
        if code in STORES:
            return 2, 0
        if code < 0x20:
            return 0, 0
        if 0x46 <= code <= 0x4F or 0x51 <= code <= 0x5A or 0x6A <= code <= 0x78 or 0x7C <= code <= 0x8A:
            return 2, 1
        return 1, 1

    def binary(self):
        return OPENING + b"".join(bytes([number]) + sized(self.sections[number]) for number in sorted(self.sections))


def exported(word, kind, index):
    return sized(word.encode()) + bytes([kind]) + leb(index)


NODE = r"""
const fs = require("fs");
const folder = process.argv[2];
const rows = JSON.parse(fs.readFileSync(folder + "/rows.json"));
const order = rows.order;
const said = [];
const messages = [
  ["UNREACHABLE", /^unreachable/], ["DIVIDE_BY_ZERO", /^(divide|remainder) by zero/], ["OVERFLOW", /^divide result unrepresentable/],
  ["MEMORY_BOUNDS", /^memory access out of bounds/], ["TABLE_BOUNDS", /^table index is out of bounds/],
  ["ENTRY", /^null function or function signature/],
];
function host(seen, memory) {
  const calls = {};
  const view = () => new DataView(memory() ? memory().buffer : new ArrayBuffer(0));
  const note = (name, values) => { seen.push(String(order.indexOf(name)), ...values.map(String)); };
  calls.see = (a) => note("see", [a]);
  calls.see32 = (a) => note("see32", [a]);
  calls.mix = (a, b, c) => note("mix", [a, b, c]);
  calls.mark = (a) => note("mark", [a]);
  calls.ask = () => { note("ask", []); return BigInt.asIntN(64, BigInt(rows.asked)); };
  calls.ask32 = () => { note("ask32", []); return Number(BigInt.asIntN(32, BigInt(rows.asked32))); };
  calls.sum = (a, b) => { note("sum", [a, b]); return BigInt.asIntN(64, BigInt(a) + b); };
  calls.sum32 = (a, b) => { note("sum32", [a, b]); return (a + b) | 0; };
  calls.write = (a, b) => {
    note("write", [a, b]);
    if ((a >>> 0) + 8 <= view().byteLength) view().setBigInt64(a >>> 0, b, true);
  };
  calls.read = (a) => {
    note("read", [a]);
    return (a >>> 0) + 8 <= view().byteLength ? view().getBigInt64(a >>> 0, true) : -1n;
  };
  return { screeps: calls };
}
for (let at = 0; at < rows.count; at++) {
  const seen = [];
  let instance, outcome = "FINISHED";
  try {
    const whole = new WebAssembly.Module(fs.readFileSync(folder + "/" + at + ".wasm"));
    const memory = () => instance.exports["memory!"];
    try {
      instance = new WebAssembly.Instance(whole, host(seen, memory));
    } catch (error) {
      said.push([/Import #/.test(error.message) ? "IMPORT" : "SEGMENT", "0"]);
      continue;
    }
  } catch (error) {
    said.push(["NOT_COMPILED", "0", error.message]);
    continue;
  }
  const given = instance.exports;
  if (typeof given.loop !== "function" || given.loop.length !== 0) {
    said.push(["NO_LOOP", "0"]);
    continue;
  }
  try {
    if (given["start!"]) given["start!"]();
    given["depth!"].value = 0;
    given["below!"].value = 0;
    given.loop();
  } catch (error) {
    const known = messages.find(([, pattern]) => pattern.test(error.message));
    outcome = known ? known[0] : error.message;
    outcome = rows.stops[given["stop!"].value] || outcome;
  }
  said.push([outcome, String(given["used!"].value), ...seen]);
}
fs.writeFileSync(folder + "/said.json", JSON.stringify(said));
"""


def said_by_node(modules, folder):
    """What node says of each module with the outcome of the tests beside it."""
    for at, (data, said) in enumerate(modules):
        pathlib.Path(f"{folder}/{at}.wasm").write_bytes(Watched(data, said[0]).binary())
    about = {"order": ORDER, "asked": str(ASKED), "asked32": str(ASKED32), "stops": STOPS, "count": len(modules)}
    pathlib.Path(folder + "/rows.json").write_text(json.dumps(about))
    pathlib.Path(folder + "/rows.js").write_text(NODE)
    subprocess.run(["timeout", "300", "node", folder + "/rows.js", folder], check=True)
    return json.loads(pathlib.Path(folder + "/said.json").read_text())


def node_agrees(said, other):
    """Whether what node said is what the tests say: True, False, or None where node can't know."""
    outcome = said[1]
    if other[0] == "NOT_COMPILED":
        return None
    if outcome in REFUSALS:
        return True if other[0] == outcome else (False if outcome == "SEGMENT" else None)
    same = [int(word) for word in other[2:]] == said[3:]
    if other[0] == "ENTRY":
        return same and outcome in ("EMPTY_ENTRY", "WRONG_TYPE") and int(other[1]) == said[2]
    return same and other[0] == outcome and int(other[1]) == said[2]


# The rows of the tests.


def expanded(text):
    """The text of a module as the assembler takes it."""
    text = re.sub(r"\[(\d+) ([^\]]*)\]", lambda found: " ".join([found[2]] * int(found[1])), text)
    if "(import" in text or text == "nothing":
        return f"(module {'' if text == 'nothing' else text})"
    imports = ""
    for name, (params, result) in CALLS.items():
        if re.search(rf"\${name}\b", text):
            kind = "".join(f" (param {TYPE_NAMES[kind]})" for kind in params)
            kind += f" (result {TYPE_NAMES[result]})" if result else ""
            imports += f'(import "screeps" "{name}" (func ${name}{kind})) '
    return f"(module {imports}{text})"


def assembled(text, folder):
    """The bytes behind the opening."""
    source, binary = folder + "/module.wat", folder + "/module.wasm"
    pathlib.Path(source).write_text(expanded(text))
    words = ["timeout", "20", "wat2wasm", "--disable-mutable-globals", *FEATURES, source, "-o", binary]
    made = subprocess.run(words, capture_output=True, text=True)
    if made.returncode != 0:
        raise ValueError(made.stderr)
    return pathlib.Path(binary).read_bytes()[len(OPENING) :]


def unescaped(escaped):
    return bytes(int(byte, 16) for byte in re.findall(r"\\x([0-9a-f]{2})", escaped))


def tables(source):
    return dict(re.findall(r"^(?:pub )?const (\w+): \[[^;]*; \d+\] = \[\n(.*?)^\];", source, re.MULTILINE | re.DOTALL))


def named_bytes(content):
    found = re.findall(r'((?:^    // .*\n)+)    b"([^"]*)"', content, re.MULTILINE)
    texts = [(" ".join(line.strip().removeprefix("// ") for line in lines.splitlines()), raw) for lines, raw in found]
    return [(*text.split(": ", 1), unescaped(raw)) for text, raw in texts]


def named_results(content):
    for name, words in re.findall(r"^    // (.*)\n    &\[\s*([^\]]*)\]", content, re.MULTILINE):
        yield name, [word if word.isidentifier() else int(word.replace("_", "")) for word in re.split(r",\s*", words.strip().rstrip(","))]


def rows():
    """The name of each module with its text, its bytes and what it is to do."""
    for path in sorted(SOURCES.glob("*.rt")):
        found = tables(path.read_text())
        for table, content in found.items():
            if table + "_RESULTS" not in found:
                continue
            modules = named_bytes(content)
            if table + "_UNITS" in found:
                units = [unescaped(raw) for raw in re.findall(r'b"([^"]*)"', found[table + "_UNITS"])]
                counts = [int(word.replace("_", "")) for word in re.findall(r"[\d_]+", found[table + "_COUNTS"])]
                ends = [unescaped(raw) for raw in re.findall(r'b"([^"]*)"', found[table + "_ENDS"])]
                modules = [(name, text, raw + unit * count + end) for (name, text, raw), unit, count, end in zip(modules, units, counts, ends, strict=True)]
            results = list(named_results(found[table + "_RESULTS"]))
            for (name, text, raw), (other, said) in zip(modules, results, strict=True):
                place = f"{path.name}: {name}"
                yield place if name == other else f"{place}, {other}", name == other, text, raw, resolved(said)


def resolved(said):
    """The outcome as a name, and all else as numbers."""
    calls = {name.upper(): at for at, name in enumerate(ORDER)}
    return [word if at == 1 else calls.get(word, word) for at, word in enumerate(said)]


def checked(folder):
    count = wrong = 0
    modules = []
    for name, is_beside, text, raw, said in rows():
        count += 1
        try:
            found = interpreted(raw, said[0])
            same = assembled(text, folder) == raw
        except ValueError as error:
            found, same = error, False
        if not is_beside or not same:
            wrong += 1
            print(f"{name}: other bytes or another row")
        if found != said:
            wrong += 1
            print(f"{name}: {said}, and the interpreter says {found}")
        modules.append((name, raw, said))
    if shutil.which("node") is None:
        print("node is not here: the interpreter alone was asked")
        return count, wrong
    for (name, _, said), other in zip(modules, said_by_node([row[1:] for row in modules], folder), strict=True):
        agrees = node_agrees(said, other)
        if agrees is False:
            wrong += 1
            print(f"{name}: {said}, and node says {other}")
        if agrees is None and "--alone" in sys.argv:
            print(f"{name}: {said[1]} by the interpreter alone; node: {other[0]}")
    return count, wrong


def main():
    with tempfile.TemporaryDirectory() as folder:
        count, wrong = checked(folder)
    print(f"{count} modules, {wrong} wrong")
    return 1 if wrong or count == 0 else 0


def in_a_thread():
    """A thousand frames of blocks go deep in this interpreter too."""
    sys.setrecursionlimit(1_000_000)
    threading.stack_size(1 << 29)
    status = []
    thread = threading.Thread(target=lambda: status.append(main()))
    thread.start()
    thread.join()
    return status[0] if status else 1


if __name__ == "__main__":
    sys.exit(in_a_thread())
