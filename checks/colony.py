#!/usr/bin/env python3
"""How colonies live: players/colony.wasm plays both players of worlds/colonies.json for 2,000 ticks in the built program.

It runs behind `rt ci`, which builds crates/world_server/out/world_server. From what the program prints and from its journal it is seen
that both players reach level 2 and are alive, that they build what they are to build and stay within their budget, that worlds keep the
rules of docs/formats.md, and that no energy comes from nowhere. Each tick is also compared with what the model in oracle/ makes of the
intents that were recorded. Smaller runs have strangers in the room of a young colony, raiders in that of a grown one, spawns that begin
with nothing, and a small budget. In another the player in Rust, players/gatherer.wasm, plays for player 1; and what its file of calls says
is compared with the C header.
"""

import json
import os
import re
import sys
import tempfile

TOP = os.path.dirname(os.path.dirname(os.path.abspath(__file__)))
sys.path[:0] = [os.path.join(TOP, it) for it in ("oracle", "checks/harness")]
from checked_program import Checks, content_of, run, write_files  # noqa: E402
from compared_runs import ACTION_NAMES, OBJECT_FIELDS  # noqa: E402
from game import KINDS, PARTS, SECOND, capacity, thing  # noqa: E402
from rules import broken  # noqa: E402
from worlds import Run, base_content, bytes_of, contents_of, full, objects_of, read_tick, ticked, upload_entry  # noqa: E402

checks = Checks(__file__)
PLAYERS = (1, 2)
BOTH = {player: "colony" for player in PLAYERS}
TICKS = 2000

# What a colony has to come to: level 2, a number of workers, and all extensions, each by so many ticks.
LEVEL_2_BY, EXTENDED_BY = 450, 1800
WORKERS, EXTENSIONS, ROADS = 8, 5, 10

# After so many ticks raiders come to a colony, in a run of its own.
GROWN = 600

# The hits that the roads of the file, which begin with 1,500 to 3,500, have at the end.
MENDED = 4000

# The most instructions of a tick, and in the mean of all ticks.
MOST_USED, MEAN_USED = 1_500_000, 100_000


def sample():
    with open(os.path.join(TOP, "worlds/colonies.json"), encoding="utf-8") as it:
        return json.load(it)


def module(name):
    return content_of(os.path.join(TOP, f"players/{name}.wasm"))


def stream_of(modules, tick=0):
    """An upload stream with the modules of these names, by player."""
    return b"".join(upload_entry(tick, player, module(name)) for player, name in modules.items())


# ---- the worlds of a journal


def object_in(numbers):
    one = dict(zip(OBJECT_FIELDS, numbers, strict=True))
    return {**one, "kind": KINDS[one["kind"] - 1], "body": [PARTS[number - 1] for number in one["body"]]}


def account_in(player, limit, bucket, points, memory):
    return {"player": player, "limit": limit, "bucket": bucket, "points": points, "memory": memory.hex()}


def entry_in(action, actor, target, amount, parts):
    """An intent as a Run has it."""
    body = ([PARTS[number - 1] for number in parts],) if parts else ()
    return (ACTION_NAMES[action], actor), (target, amount, *body)


def run_in(texts, player, outcome, trap, used, entries):
    return Run(player, outcome, used, texts[player], dict(entry_in(*it) for it in entries), trap)


class Tick:
    """A tick of a journal: the worlds before and after, and the runs, each with its intents."""

    def __init__(self, before, content):
        self.before, self.after = before, dict(before)
        parts = read_tick(content)
        changed = {account[0]: account_in(*account) for account in parts["accounts"]}
        self.after["tick"] = parts["tick"]
        self.after["players"] = [changed.get(account["player"], account) for account in before["players"]]
        self.after["rooms"] = list(before["rooms"])
        for index, following, objects in parts["rooms"]:
            self.after["rooms"][index] = {**before["rooms"][index], "next": following, "objects": [object_in(one) for one in objects]}
        texts = {account["player"]: bytes.fromhex(account["memory"]) for account in self.after["players"]}
        self.runs = [run_in(texts, *it) for it in parts["runs"]]


def ticks_of(first, journal):
    """The ticks of a journal, one after the other."""
    it = full(first)
    for content in contents_of(journal)[1:]:
        tick = Tick(it, content)
        yield tick
        it = tick.after


def of_player(it, player, kind):
    return [one for one in objects_of(it) if one["kind"] == kind and one["owner"] == player]


def level_of(it, player):
    return max((one["extra"] for one in of_player(it, player, "controller")), default=0)


def energy_of(it):
    return sum(one["energy"] for one in objects_of(it))


# ---- a run


class Colony:
    """A run of a world in which these modules play, by player: its ticks, and what is wrong of it as a whole."""

    def __init__(self, first, ticks, modules):
        self.players = list(modules)
        place = "/dev/shm" if os.path.isdir("/dev/shm") else None
        with tempfile.TemporaryDirectory(dir=place) as folder:
            write_files(folder, {"world": bytes_of(first), "uploads": stream_of(modules, first["tick"])})
            status, out, err = run(["run", "world", "uploads", "journal", "--ticks", str(ticks)], folder)
            journal = content_of(os.path.join(folder, "journal"))
        self.lines = out.decode().splitlines()
        self.ticks = list(ticks_of(first, journal))
        self.faults = [] if (status, err) == (0, b"") else [f"status {status}, standard error {err[-400:]!r}"]
        self.faults += [] if contents_of(journal)[0] == base_content(first) else ["the journal has another base"]
        self.faults += [] if len(self.ticks) == ticks else [f"{len(self.ticks)} ticks in the journal, and not {ticks}"]

    @property
    def last(self):
        return self.ticks[-1].after


def line_faults(colony):
    """What is wrong of the printed lines: uploads are accepted, runs finish, and the energy is what the journal has."""
    wanted = [f"upload player {player} accepted" for player in colony.players]
    for tick in colony.ticks:
        wanted += [f"player {it.player} finished {it.used}" for it in tick.runs]
        entries = sum(len(it.entries) for it in tick.runs)
        wanted.append(f"tick {tick.after['tick']} objects {len(objects_of(tick.after))} intents {entries} energy {energy_of(tick.after)}")
    pairs = zip(colony.lines[1:], wanted)
    faults = [f"printed {line!r}, and not {other!r}" for line, other in pairs if line != other]
    return faults + ([] if len(colony.lines) == 1 + len(wanted) else [f"{len(colony.lines)} lines, and not {1 + len(wanted)}"])


def given(before):
    """The most that sources and spawns give in a tick: a source whose timer ends what it holds, and a spawn 1."""
    found = 0
    for place in before["rooms"]:
        found += sum(capacity(one, place["objects"]) for one in place["objects"] if one["kind"] == "source" and one["timer"] == 1)
        found += sum(one["kind"] == "spawn" for one in place["objects"])
    return found


def energy_faults(colony):
    for tick in colony.ticks:
        rise = energy_of(tick.after) - energy_of(tick.before)
        if rise > given(tick.before):
            yield f"tick {tick.after['tick']}: the energy rose by {rise}, and sources and spawns give {given(tick.before)} at most"


def rule_faults(colony):
    """The rules that are broken in the last world, and in each hundredth."""
    for tick in [*colony.ticks[99::100], colony.ticks[-1]]:
        yield from (f"tick {tick.after['tick']}: {fault}" for fault in broken(tick.after))


def model_faults(colony):
    """Where the model makes another world of the intents of a tick. It is asked again for each tick, so that one fault is one."""
    for tick in colony.ticks:
        wanted = ticked(tick.before, tick.runs)
        if wanted != tick.after:
            yield f"tick {tick.after['tick']}: {first_difference(tick.after, wanted)}"


def first_difference(got, wanted):
    if got["players"] != wanted["players"]:
        return f"players {got['players']}, and not {wanted['players']}"[:400]
    objects, others = ({one["id"]: one for one in objects_of(it)} for it in (got, wanted))
    for id in sorted({*objects, *others}):
        if objects.get(id) != others.get(id):
            return f"{objects.get(id)}, and not {others.get(id)}"
    return "another `next` of a room"


def used_faults(colony):
    for player in PLAYERS:
        used = [it.used for tick in colony.ticks for it in tick.runs if it.player == player]
        if max(used) > MOST_USED or sum(used) > MEAN_USED * len(used):
            yield f"player {player} used {max(used):,} instructions in a tick, and {sum(used) // len(used):,} in the mean"


def note_run(name, colony):
    """What holds of each run."""
    checks.note(f"{name}: the run", colony.faults)
    checks.note(f"{name}: its lines", line_faults(colony), rows=len(colony.lines))
    checks.note(f"{name}: no energy comes from nowhere", list(energy_faults(colony)), rows=len(colony.ticks))
    checks.note(f"{name}: worlds keep the rules", list(rule_faults(colony)))
    checks.note(f"{name}: ticks are those of the model", list(model_faults(colony)), rows=len(colony.ticks))


# ---- what becomes of the colonies


def first_tick(colony, holds):
    """The first tick after which something holds of the world, or None."""
    return next((tick.after["tick"] for tick in colony.ticks if holds(tick.after)), None)


def by(what, tick, most):
    return [] if tick is not None and tick <= most else [f"{what} in tick {tick}, and not by {most}"]


def at_least(what, count, least):
    return [] if count >= least else [f"{what}: {count}, and not {least} at least"]


def growth_faults(colony, player):
    faults = by("level 2", first_tick(colony, lambda it: level_of(it, player) >= 2), LEVEL_2_BY)
    faults += by("all extensions", first_tick(colony, lambda it: len(of_player(it, player, "extension")) >= EXTENSIONS), EXTENDED_BY)
    faults += at_least("workers at the end", len(of_player(colony.last, player, "creep")), WORKERS)
    since = first_tick(colony, lambda it: of_player(it, player, "creep"))
    dead = [tick.after["tick"] for tick in colony.ticks[since - 1 :] if not of_player(tick.after, player, "creep")] if since else []
    return faults + [f"no creep in tick {tick}" for tick in dead[:1]]


def roads_of(it, player):
    """The hits of the roads of all rooms in which the player owns the controller, by id."""
    rooms = [place["objects"] for place in it["rooms"] if any(one["kind"] == "controller" and one["owner"] == player for one in place["objects"])]
    return {one["id"]: one["hits"] for objects in rooms for one in objects if one["kind"] == "road"}


def road_faults(first, colony, player):
    """Roads are laid, and those that the file has are mended."""
    before, after = (roads_of(it, player) for it in (full(first), colony.last))
    faults = at_least("roads", len(after), ROADS)
    return faults + [f"road {id} of {hits} hits has {after.get(id)} at the end" for id, hits in before.items() if after.get(id, 0) < MENDED]


def check_colonies():
    first = sample()
    checks.note("worlds/colonies.json keeps the rules", broken(first))
    same = content_of(os.path.join(TOP, "worlds/colonies.uploads")) == stream_of(BOTH)
    checks.note("worlds/colonies.uploads has players/colony.wasm twice", [] if same else ["it is another stream"])
    checks.check("players/colony.wasm is accepted", ["check", "module"], {"module": module("colony")}, 0, b"accepted\n")
    colony = Colony(first, TICKS, BOTH)
    note_run("two colonies", colony)
    checks.note("they stay within their budget", list(used_faults(colony)))
    for player in PLAYERS:
        checks.note(f"player {player} grows", growth_faults(colony, player))
        checks.note(f"player {player} lays and mends roads", road_faults(first, colony, player))
    return colony


# ---- other worlds


def with_strangers(first, index, *strangers):
    """The world with creeps of player 2 in a room, each of a tile and a body, and with no others of his."""
    for place in first["rooms"]:
        place["objects"] = [one for one in place["objects"] if one["kind"] != "creep" or one["owner"] != 2]
    place = first["rooms"][index]
    for x, y, body in strangers:
        place["objects"].append(thing("creep", index * SECOND + place["next"], x, y, owner=2, body=body.split(), timer=1400))
        place["next"] += 1
    return first


def note_guards(name, colony, least):
    """Guards end all strangers, and the colony has so many creeps at the end."""
    note_run(name, colony)
    guards = {one["id"] for tick in colony.ticks for one in of_player(tick.after, 1, "creep") if "attack" in one["body"]}
    faults = [f"creep {one['id']} lives" for one in of_player(colony.last, 2, "creep")] + at_least("guards", len(guards), 1)
    checks.note(f"{name}: guards end them", faults + at_least("creeps", len(of_player(colony.last, 1, "creep")), least))


def check_strangers(grown):
    """Two creeps in the room of a young colony, which do nothing but strike back; and two raiders who come to a grown one."""
    young = with_strangers(sample(), 0, (27, 24, "attack attack move move"), (12, 22, "tough move"))
    note_guards("strangers in a colony", Colony(young, 300, {1: "colony"}), 2)
    raiders = [(3, 23, "tough tough attack attack move move move move"), (3, 24, "tough ranged_attack ranged_attack move move move")]
    raided = Colony(with_strangers(full(grown), 1, *raiders), 400, {1: "colony", 2: "raider"})
    note_guards("raiders in a colony", raided, 5)
    checks.note("the spawn stands after the raid", at_least("spawns", len(of_player(raided.last, 1, "spawn")), 1))


def check_poor():
    """Spawns that begin with nothing, and players with a small limit who saved nothing."""
    first = sample()
    for one in objects_of(first):
        one["energy"] = 0 if one["kind"] == "spawn" else one.get("energy", 0)
    for player in first["players"]:
        player.update(limit=20, bucket=0)
    colony = Colony(first, 700, BOTH)
    note_run("colonies of nothing", colony)
    for player in PLAYERS:
        checks.note(f"player {player} begins with nothing", at_least("creeps", len(of_player(colony.last, player, "creep")), 5))


# ---- the player in Rust


def widths(wide, types):
    """The bits of each type of a list, by the name of that which has 64."""
    return [64 if wide in it else 32 for it in types.split(",") if it not in ("", "void")]


def c_calls():
    """The calls of the C header by the names of their imports: the bits of each argument and of the answer."""
    with open(os.path.join(TOP, "players/screeps.h"), encoding="utf-8") as it:
        header = it.read()
    found = re.findall(r"^SCREEPS_CALL\((\w+)\) ([\w ]+?) \w+\(([^)]*)\);", header, re.M)
    calls = {name: (widths("long long", params), *widths("long long", answer)) for name, answer, params in found}
    return calls, {name: int(number) for name, number in re.findall(r"\b(?:CODE|FIELD|KIND|PART)_(\w+) = (-?\d+)", header)}


def rust_calls():
    with open(os.path.join(TOP, "players/screeps.rs"), encoding="utf-8") as it:
        text = it.read()
    found = re.findall(r"^ +\w+, \"(\w+)\", \(([^)]*)\) -> (\w+);", text, re.M) + re.findall(r"^ +pub fn (\w+)\(([^)]*)\) -> (\w+);", text, re.M)
    calls = {name: (widths("i64", params), *widths("i64", answer)) for name, params, answer in found}
    return calls, {name: int(number) for name, number in re.findall(r"^pub const (\w+): \w+ = (-?\d+);", text, re.M)}


def check_gatherer():
    for what, rust, header in zip(("calls", "numbers"), rust_calls(), c_calls()):
        faults = [f"{name}: {rust.get(name)}, and not {header.get(name)}" for name in sorted({*rust, *header}) if rust.get(name) != header.get(name)]
        checks.note(f"the {what} of players/screeps.rs are those of players/screeps.h", faults)
    checks.check("players/gatherer.wasm is accepted", ["check", "module"], {"module": module("gatherer")}, 0, b"accepted\n")
    colony = Colony(sample(), 500, {1: "gatherer"})
    note_run("gatherers", colony)
    faults = by("level 2", first_tick(colony, lambda it: level_of(it, 1) >= 2), LEVEL_2_BY)
    checks.note("gatherers grow", faults + at_least("creeps", len(of_player(colony.last, 1, "creep")), 5))


def main():
    colonies = check_colonies()
    check_strangers(colonies.ticks[GROWN - 1].after)
    check_poor()
    check_gatherer()
    checks.finish()


if __name__ == "__main__":
    main()
