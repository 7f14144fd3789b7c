"""Worlds for the checks: the world file, the journal's contents, the tick and the printed lines.

It is a second, slow writing of docs/formats.md, which shares nothing with the program. A world is what its file
says, as Python has it from JSON. What players do in a tick stands in oracle/game.py and oracle/movement.py, and the end of
a tick in oracle/upkeep.py.
"""

import copy
import json
import struct

from game import ACTIONS, FIELDS, KINDS, MOST_POINTS, PARTS, Course, Harm, counting, hits_max, place_of, thing
from movement import crossed, moved
from upkeep import settled

MIB = 1 << 20
CORNERS = (0, 49, 2450, 2499)
RESULTS = [
    "accepted",
    "UnknownPlayer",
    "WrongToken",
    "TooLarge",
    "Malformed",
    "FloatRefused",
    "Invalid",
    "UnknownImport",
    "ImportKind",
    "NoLoop",
    "Segment",
]
OUTCOMES = ["finished", "trapped", "spent"]
UNIT = 10_000
MOST_UNITS = 500
MOST_BUCKET = 10_000


# ---- worlds by their parts


def grounds(tiles=()):
    """Plain ground with walls in the corners, but for these tiles."""
    digits = ["0"] * 2500
    for corner in CORNERS:
        digits[corner] = "1"
    for tile, ground in dict(tiles).items():
        digits[tile] = ground
    return "".join(digits)


def room(name, next, *objects, terrain=None):
    return {"name": name, "terrain": terrain or grounds(), "next": next, "objects": list(objects)}


def world(*rooms, tick=0, players=()):
    return {"version": 1, "tick": tick, "rooms": list(rooms), "players": list(players)}


def full(it):
    """A world with every key of each object and player, but for the tokens, which no world has."""
    it = copy.deepcopy(it)
    for place in it["rooms"]:
        for one in place["objects"]:
            for field in FIELDS:
                one.setdefault(field, 0)
            one.setdefault("body", [])
            one.setdefault("hits", hits_max(one))
        place["objects"].sort(key=lambda one: one["id"])
    for player in it["players"]:
        player.pop("token", None)
        for field, default in (("bucket", 0), ("points", 0), ("memory", "")):
            player.setdefault(field, default)
    it["players"].sort(key=lambda player: player["player"])
    return it


def objects_of(it):
    return [one for place in it["rooms"] for one in place["objects"]]


def account_of(it, player):
    return next((account for account in it["players"] if account["player"] == player), None)


def allowance(account):
    return min(MOST_UNITS, account["limit"] + account["bucket"])


def bytes_of(it):
    """The world file."""
    return json.dumps(it, indent=1).encode()


def text_of(it):
    """The world file as `write_world` gives it."""
    return json.dumps(full(it), sort_keys=True, separators=(",", ":")).encode()


# ---- bytes


def listed(entries):
    return struct.pack("<I", len(entries)) + b"".join(entries)


def object_bytes(one):
    return struct.pack(
        "<QBBBIIQIIQIIB",
        one["id"],
        1 + KINDS.index(one["kind"]),
        one["x"],
        one["y"],
        one["owner"],
        one["hits"],
        one["energy"],
        one["timer"],
        one["extra"],
        one["progress"],
        one["other"],
        one["other_ticks"],
        len(one["body"]),
    ) + part_bytes(one["body"])


def room_bytes(index, place):
    return struct.pack("<II", index, place["next"]) + listed([object_bytes(one) for one in place["objects"]])


def account_bytes(account):
    memory = bytes.fromhex(account["memory"])
    numbers = struct.pack("<IIIQI", account["player"], account["limit"], account["bucket"], account["points"], len(memory))
    return numbers + memory


def base_content(it):
    it = full(it)
    content = b"SWSJ" + struct.pack("<IQI", 1, it["tick"], len(it["rooms"]))
    for index, place in enumerate(it["rooms"]):
        content += struct.pack("<ii", *place_of(place["name"])) + bytes(map(int, place["terrain"])) + room_bytes(index, place)
    return content + listed([account_bytes(account) for account in it["players"]])


def upload_bytes(player, result, content):
    return struct.pack("<IBI", player, RESULTS.index(result), len(content)) + content


def part_bytes(body):
    return bytes(1 + PARTS.index(part) for part in body)


def entry_bytes(action, actor, target, amount, body=()):
    return struct.pack("<BQQQB", action, actor, target, amount, len(body)) + part_bytes(body)


def run_bytes(run):
    numbered = sorted((ACTIONS[name].number, actor, *wanted) for (name, actor), wanted in run.entries.items())
    entries = [entry_bytes(*entry) for entry in numbered]
    return struct.pack("<IBBQ", run.player, OUTCOMES.index(run.outcome), run.trap, run.used) + listed(entries)


def forms_of(it):
    """The forms of the accounts of a world, and those of its rooms."""
    return [account_bytes(account) for account in it["players"]], [room_bytes(index, place) for index, place in enumerate(it["rooms"])]


def changed(before, after):
    """The forms that are not as before, behind their number."""
    return listed([form for earlier, form in zip(before, after, strict=True) if form != earlier])


def tick_content(before, step):
    """The content of a tick: of the accounts and rooms those whose form isn't that of the full world before."""
    accounts, rooms = map(changed, forms_of(before), forms_of(step.world))
    numbers = struct.pack("<Q", step.world["tick"])
    uploads, runs = listed([upload_bytes(*upload) for upload in step.uploads]), listed([run_bytes(run) for run in step.runs])
    return b"T" + numbers + uploads + runs + accounts + rooms


OPEN, CLOSED = b"\1", b"\0"


def frame(content):
    return struct.pack("<Q", len(content)) + content


def gated(contents):
    """The journal of these contents: an open gate before each frame, and a closed one at the end."""
    return b"".join(OPEN + frame(content) for content in contents) + CLOSED


def contents_of(journal):
    """The contents of a journal up to its closed gate, or, where it is damaged, up to the first frame that doesn't lie in it with the gate behind it."""
    at, found = 0, []
    while at + 10 <= len(journal) and journal[at]:
        (length,) = struct.unpack_from("<Q", journal, at + 1)
        if at + 9 + length >= len(journal):
            break
        found.append(journal[at + 9 : at + 9 + length])
        at += 9 + length
    return found


class Fields:
    """Numbers at the front of bytes."""

    def __init__(self, content):
        self.content, self.at = content, 0

    def take(self, form):
        found = struct.unpack_from("<" + form, self.content, self.at)
        self.at += struct.calcsize("<" + form)
        return found

    def bytes(self, length):
        self.at += length
        return self.content[self.at - length : self.at]

    def list(self, read):
        return [read() for _ in range(self.take("I")[0])]

    def upload(self):
        player, result, length = self.take("IBI")
        return player, RESULTS[result], self.bytes(length)

    def entry(self):
        action, actor, target, amount, parts = self.take("BQQQB")
        return action, actor, target, amount, self.bytes(parts)

    def run(self):
        player, outcome, trap, used = self.take("IBBQ")
        return player, OUTCOMES[outcome], trap, used, self.list(self.entry)

    def account(self):
        player, limit, bucket, points, length = self.take("IIIQI")
        return player, limit, bucket, points, self.bytes(length)

    def one(self):
        numbers = self.take("QBBBIIQIIQIIB")
        return (*numbers[:-1], self.bytes(numbers[-1]))

    def room(self):
        index, following = self.take("II")
        return index, following, self.list(self.one)

    def base_room(self):
        self.bytes(2508)
        return self.room()


def read_base(content):
    """The tick, rooms and accounts of a base."""
    fields = Fields(content)
    _, _, tick = fields.take("4sIQ")
    return {"tick": tick, "rooms": fields.list(fields.base_room), "accounts": fields.list(fields.account)}


def read_tick(content):
    """The tick, uploads and runs of a tick's content, and the accounts and rooms that changed."""
    fields = Fields(content)
    _, tick = fields.take("BQ")
    parts = {"tick": tick, "uploads": fields.list(fields.upload), "runs": fields.list(fields.run), "accounts": fields.list(fields.account)}
    parts["rooms"] = fields.list(fields.room)
    parts["left"] = content[fields.at :]
    return parts


def ticks_in(journal):
    """The ticks of a journal, each with all accounts and all rooms of the world after it."""
    base, *contents = contents_of(journal)
    base = read_base(base)
    accounts, rooms = ({one[0]: one for one in base[part]} for part in ("accounts", "rooms"))
    for content in contents:
        parts = read_tick(content)
        accounts |= {one[0]: one for one in parts["accounts"]}
        rooms |= {one[0]: one for one in parts["rooms"]}
        yield {**parts, "accounts": [accounts[player] for player in sorted(accounts)], "rooms": [rooms[index] for index in sorted(rooms)]}


# ---- players


class Run:
    """What a player's module did in a tick: `entries` has the target, the amount and, where a spawn makes a creep, the body, by action and actor."""

    def __init__(self, player, outcome, used, memory, entries=None, trap=0):
        self.player, self.outcome, self.used, self.trap = player, outcome, used, trap
        self.entries, self.memory = dict(entries or {}), memory


class Upload:
    """An entry of the upload stream. Its module has `content`, `refusal`, which is None where it is accepted, and `run`."""

    def __init__(self, tick, player, module):
        self.tick, self.player, self.module = tick, player, module


class Refused:
    """Bytes that are refused for this reason."""

    def __init__(self, refusal, content):
        self.refusal, self.content = refusal, content


def upload_entry(tick, player, content):
    return struct.pack("<QII", tick, player, len(content)) + content


def stream_of(uploads):
    return b"".join(upload_entry(it.tick, it.player, it.module.content) for it in uploads)


# ---- the tick


def in_rising_id(it):
    for place in it["rooms"]:
        place["objects"].sort(key=lambda one: one["id"])


def acted(it, runs, harm=None):
    """What the entries of these runs make of a world: how often an action had an effect, and how often it had none. Damage and healing are
    summed beside it, and accounts gain the points. Creeps step when all else is done."""
    course, done, moves = Course(it["rooms"], harm), {}, []
    wanted = [(run.player, counting(run.entries)) for run in sorted(runs, key=lambda run: run.player)]
    for action in ACTIONS:
        for player, entries in wanted:
            for name, actor in sorted(key for key in entries if key[0] == action):
                target, amount, *body = entries[name, actor]
                if name == "move":
                    moves.append((player, actor, amount))
                    continue
                effect = course.act(player, name, actor, target, amount, *body)
                done[name, effect] = done.get((name, effect), 0) + 1
    stepping = len(moved(course, moves))
    done |= {("move", effect): count for effect, count in ((True, stepping), (False, len(moves) - stepping)) if count}
    in_rising_id(it)
    for account in it["players"]:
        account["points"] = min(MOST_POINTS, account["points"] + course.gains.get(account["player"], 0))
    return done


def ticked(it, runs=()):
    """The world after a tick with these runs."""
    it = full(it)
    it["tick"] += 1
    harm = Harm()
    acted(it, runs, harm)
    settled(it["rooms"], harm)
    crossed(it["rooms"])
    in_rising_id(it)
    for account in it["players"]:
        run = next((run for run in runs if run.player == account["player"]), None)
        units = -(-run.used // UNIT) if run else 0
        account["bucket"] = min(MOST_BUCKET, account["limit"] + account["bucket"] - units)
        if run:
            account["memory"] = run.memory.hex()
    return it


class Step:
    """A tick: its uploads as (player, result, bytes), its runs, and the world after it."""

    def __init__(self, uploads, runs, after):
        self.uploads, self.runs, self.world = uploads, runs, after


def played(first, ticks, uploads=()):
    """The steps of a run of so many ticks with these uploads."""
    it, modules, steps = full(first), {}, []
    for _ in range(ticks):
        results = []
        for upload in uploads:
            if upload.tick != it["tick"]:
                continue
            module = upload.module
            result = "UnknownPlayer" if account_of(it, upload.player) is None else module.refusal or "accepted"
            results.append((upload.player, result, module.content if len(module.content) <= MIB else b""))
            if result == "accepted":
                modules[upload.player] = module
        runs = [modules[player].run(it, player) for player in sorted(modules)]
        it = ticked(it, runs)
        steps.append(Step(results, runs, it))
    return steps


def journal_of(first, steps):
    worlds = [full(first), *(step.world for step in steps)]
    return gated([base_content(first), *map(tick_content, worlds, steps)])


# ---- lines


def start_line(it):
    return f"start tick {it['tick']} rooms {len(it['rooms'])} objects {len(objects_of(it))} players {len(it['players'])}\n"


def step_lines(step):
    lines = ""
    for player, result, _ in step.uploads:
        lines += f"upload player {player} {result if result == 'accepted' else 'refused ' + result}\n"
    for run in step.runs:
        lines += f"player {run.player} {run.outcome} {run.used}\n"
    objects, intents = objects_of(step.world), sum(len(run.entries) for run in step.runs)
    energy = sum(one["energy"] for one in objects)
    return lines + f"tick {step.world['tick']} objects {len(objects)} intents {intents} energy {energy}\n"


def output_of(first, steps):
    return (start_line(first) + "".join(map(step_lines, steps))).encode()


# ---- the worlds of several checks

SMALL = world(room("E0S0", 3, thing("source", 1, 10, 10, timer=1), thing("pile", 2, 20, 20, energy=1001)))
