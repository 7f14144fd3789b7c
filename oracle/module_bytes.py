"""Modules of WebAssembly by their parts, for the measures and the checks."""

OPENING = b"\0asm\1\0\0\0"


def leb(number):
    out = b""
    while number >= 0x80:
        out += bytes([number & 0x7F | 0x80])
        number >>= 7
    return out + bytes([number])


def listed(entries):
    return leb(len(entries)) + b"".join(entries)


def section(number, content):
    return bytes([number]) + leb(len(content)) + content


LOOP = b"\4loop\0\0"


def module(bodies, locals=b"\0", params=b"", before=b"", after=b"", results=b"", exports=(LOOP,)):
    """A module of functions of one type with these bodies, the first exported as `loop`; sections may stand before and after the exports."""
    codes = [locals + body + b"\x0b" for body in bodies]
    types = section(1, b"\1\x60" + leb(len(params)) + params + leb(len(results)) + results)
    funcs = section(3, listed([b"\0"] * len(bodies)))
    return OPENING + types + funcs + before + section(7, listed(exports)) + section(10, listed([leb(len(it)) + it for it in codes])) + after


# ---- modules of players

I32, I64 = b"\x7f", b"\x7e"

# The calls of the host in the order of their numbers, each with the types of its arguments and of its answer.
HOST_CALLS = {
    "tick": (b"", I64),
    "me": (b"", I32),
    "allowance": (b"", I32),
    "bucket": (b"", I32),
    "points": (b"", I64),
    "level": (b"", I32),
    "rooms": (b"", I32),
    "room": (I32, I32),
    "room_name": (I32, I32),
    "terrain": (I32 * 3, I32),
    "count": (b"", I32),
    "find": (I64, I32),
    "get": (I32 * 2, I64),
    "memory_length": (b"", I32),
    "memory_read": (I32, I32),
    "memory_write": (I32 * 2, I32),
    "drop": (I64 + I32, I32),
    "transfer": (I64 * 2 + I32, I32),
    "withdraw": (I64 * 2 + I32, I32),
    "pickup": (I64 * 2, I32),
    "heal": (I64 * 2, I32),
    "ranged_heal": (I64 * 2, I32),
    "dismantle": (I64 * 2, I32),
    "attack": (I64 * 2, I32),
    "harvest": (I64 * 2, I32),
    "repair": (I64 * 2, I32),
    "build": (I64 * 2, I32),
    "ranged_mass_attack": (I64, I32),
    "ranged_attack": (I64 * 2, I32),
    "suicide": (I64, I32),
    "claim_controller": (I64 * 2, I32),
    "upgrade": (I64 * 2, I32),
    "reserve": (I64 * 2, I32),
    "attack_controller": (I64 * 2, I32),
    "create_site": (I32 * 4, I32),
    "remove_site": (I64, I32),
    "spawn_creep": (I64 + I32 * 2, I32),
    "move": (I64 + I32, I32),
}


def signed_leb(number):
    out = b""
    while not -64 <= number < 64:
        out += bytes([number & 0x7F | 0x80])
        number >>= 7
    return out + bytes([number & 0x7F])


def name_bytes(name):
    return leb(len(name)) + name.encode()


def func_type(params, result):
    return b"\x60" + leb(len(params)) + params + leb(len(result)) + result


def host_import(name, type_index):
    return name_bytes("screeps") + name_bytes(name) + b"\0" + leb(type_index)


def code_entry(code, locals=b"\0"):
    content = locals + code + b"\x0b"
    return leb(len(content)) + content


def player_module(loop, calls=(), start=None, helpers=(), pages=None, table=b"", elements=b"", data=b""):
    """The module of a player. Its functions are the calls that it imports, by name, then `loop`, then `start` where there is one,
    then helpers, each a type (0 for that of `loop`, 1 for one that takes an i32), locals and code."""
    types = [func_type(b"", b""), func_type(I32, b"")] + [func_type(*HOST_CALLS[name]) for name in calls]
    imports = [host_import(name, place + 2) for place, name in enumerate(calls)]
    starts = [] if start is None else [(0, b"\0", start)]
    functions = [(0, b"\0", loop), *starts, *helpers]
    content = OPENING + section(1, listed(types))
    if imports:
        content += section(2, listed(imports))
    content += section(3, listed([leb(kind) for kind, _, _ in functions]))
    if table:
        content += section(4, listed([table]))
    if pages is not None:
        content += section(5, listed([b"\0" + leb(pages)]))
    content += section(7, listed([name_bytes("loop") + b"\0" + leb(len(calls))]))
    if starts:
        content += section(8, leb(len(calls) + 1))
    if elements:
        content += section(9, listed([elements]))
    content += section(10, listed([code_entry(code, locals) for _, locals, code in functions]))
    return content + (section(11, listed([data])) if data else b"")
