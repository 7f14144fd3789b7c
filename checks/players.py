#!/usr/bin/env python3
"""Checks what is in players/ for those who write players: the C header and the tables of docs/players.md against each other and
against the definitions of the calls and of the game's numbers, the maker of upload streams, and the sample player, which the built
program runs over several worlds.

It runs behind `rt ci`, which builds crates/world_server/out/world_server; a word names another build of it. What a run prints
and what it leaves in its journal is compared with a second, slow writing of the sample players in this file, at the desk of
oracle/scripts.py and in the tick of oracle/worlds.py. The instructions that a run used are those that it prints. Where clang and
wasm-ld are installed, the sample players are built anew and held against the same, and other players in C and C++ are built and run.
With --model in place of a build no program is run.
"""

import json
import os
import random
import re
import resource
import shlex
import shutil
import struct
import subprocess
import sys
import tempfile

TOP = os.path.dirname(os.path.dirname(os.path.abspath(__file__)))
sys.path[:0] = [os.path.join(TOP, it) for it in ("oracle", "checks/harness")]
from compared_runs import ACTION_NAMES, journal_faults, world_faults  # noqa: E402
from game import ACTIONS, BUILDINGS, DIRECTIONS, FULL, NOT_ENOUGH, STORES, capacity, distance, hits_max, live, place_of, sees, thing  # noqa: E402
from movement import beyond, obstructed, pace  # noqa: E402
from scripts import Desk  # noqa: E402
from worlds import Run, Step, allowance, full, grounds, journal_of, objects_of, output_of, ticked, ticks_in  # noqa: E402

PLAYERS = os.path.join(TOP, "players")
WORLD = os.path.join(TOP, "worlds/one_player.json")
HARVEST = os.path.join(TOP, "worlds/harvest.json")
WALK = os.path.join(TOP, "worlds/walk.json")
FIGHT = os.path.join(TOP, "worlds/fight.json")
MODEL = "--model" in sys.argv[1:]
PROGRAM = os.path.abspath(sys.argv[1]) if len(sys.argv) > 1 else os.path.join(TOP, "crates/world_server/out/world_server")

MIB = 1 << 20
MOST_STREAM = 256 * MIB

failures = 0
passed = 0


def note(name, *faults):
    """One check, with what is wrong of it."""
    global failures, passed
    found = [fault for fault in faults if fault]
    if found:
        failures += 1
        print(f"FAILED: {name}")
        for fault in found:
            print(f"    {fault}")
    else:
        passed += 1


def differ(what, got, wanted):
    """That two values differ, and nothing where they don't."""
    if got == wanted:
        return None
    if isinstance(got, bytes) and isinstance(wanted, bytes):
        at = next((at for at, (one, other) in enumerate(zip(got, wanted)) if one != other), min(len(got), len(wanted)))
        return f"{what}: {len(got)} bytes, wanted {len(wanted)}, first other at {at}: {got[at : at + 40]!r}, wanted {wanted[at : at + 40]!r}"
    return f"{what}: {got!r}, wanted {wanted!r}"


def text_of(*path):
    with open(os.path.join(TOP, *path), encoding="utf-8") as it:
        return it.read()


def bytes_of(*path):
    with open(os.path.join(TOP, *path), "rb") as it:
        return it.read()


# ---- the header

C_TYPES = {"void": None, "int": "I32", "unsigned": "I32", "void *": "I32", "const void *": "I32", "long long": "I64"}


def snake(name):
    """InvalidArgs as INVALID_ARGS."""
    return re.sub(r"(?<=[a-z])(?=[A-Z])", "_", name).upper()


def c_type(text):
    """The value type of a C type, which may have a name behind it."""
    bare = re.sub(r"\s+", " ", text.strip())
    return C_TYPES[bare] if bare in C_TYPES else C_TYPES[re.sub(r"\w+$", "", bare).strip()]


def header_calls(header):
    """The calls of the header, in their order: name, types of the arguments, type of the answer."""
    calls = []
    for name, answer, c_name, params in re.findall(r"^SCREEPS_CALL\((\w+)\) ([\w ]+?) (\w+)\(([^)]*)\);", header, re.M):
        types = [c_type(it) for it in params.split(",")]
        calls.append((name, [it for it in types if it], c_type(answer)))
        note(f"the C name of {name}", differ("name", c_name, f"screeps_{name}"))
    return calls


def defined_rows():
    """The calls of the definitions by their names there, in the order of their numbers."""
    text = text_of("crates/host_calls/specs/Calls.antt")
    order = re.findall(r"call\.(\w+)\s*∷", text[text.index("all_calls =") : text.index("call_at")])
    form = r'^row call\.(\w+) =\s+record \{\s*name = codes "(\w+)";\s*params = ([^;]+);\s*result = (\w+);?\s*\}$'
    rows = {call: (name, re.findall(r"(I32|I64) ∷", types), answer) for call, name, types, answer in re.findall(form, text, re.M)}
    return {it: rows[it] for it in order}


def defined_calls():
    return list(defined_rows().values())


def defined_actions():
    """The calls of actions, by the name of the action in the definitions: that of the call there, or that by which it is imported."""
    actions = re.findall(r"^action_number (\w+) = \d+$", text_of("crates/game_tables/specs/Actions.antt"), re.M)
    named = {name: action for action in actions for name in (action, snake(action).lower())}
    found = {(named.get(call) or named.get(row[0])): row for call, row in defined_rows().items()}
    return {action: row for action, row in found.items() if action}


def numbers(path, function, value=r"(\d+)"):
    """The lines `function Name = number` of a file of definitions, as NAME and number."""
    found = re.findall(rf"^{function} (\w+) = {value}$", text_of(*path), re.M)
    return {snake(name): int(number) for name, number in found}


CODE_NAMES = r"code\.Code\.TheVariants\.\{([\w, ]+)\}"


def code_names(text):
    """The names of codes that a file imports, on one line or on several."""
    return [name for names in re.findall(CODE_NAMES, text) for name in names.split(", ")]


def action_tables():
    """Of each action in the definitions its part, its range and the kinds of its targets, by its name there."""
    text = text_of("crates/game_tables/specs/Actions.antt")
    parts = dict(re.findall(r"^needed_part (\w+) = Some part\.(\w+)$", text, re.M))
    ranges = {name: int(most) for name, most in re.findall(r"^max_range (\w+) = Some (\d+)$", text, re.M)}
    targets = {}
    for name, kind, said in re.findall(r"^is_target (\w+) (\w+) = (true|is_building kind)$", text, re.M):
        targets.setdefault(name, set()).update({snake(kind).lower()} if said == "true" else building_kinds())
    return parts, ranges, targets


def building_kinds():
    return {snake(name).lower() for name in re.findall(r"^is_building (\w+) = true$", text_of("crates/game_tables/specs/Kinds.antt"), re.M)}


def block_of(text, name):
    """The lines of a definition."""
    return re.search(rf"^abbrev pub {name} :.*?(?=^\s*$|\Z)", text, re.M | re.S)[0]


def codes_in(text, names):
    """The codes of the checks of a text, in their order: `(.., Code)`."""
    return [it for it in re.findall(r", (\w+)\)", text) if it in names]


def further_codes(text, names):
    """The codes of the further checks of each action, in their order. A check by a name is defined beside them; one that bars tiles
    is passed over, as long as no tile is barred."""
    bars_none = re.search(r"^is_barred [\w ]+ = false$", text_of("crates/room_table/specs/Tables.antt"), re.M)
    further = {}
    for action, body in re.findall(r"^further_checks (\w+) scene =((?:[^\n]*)(?:\n    [^\n]*)*)", text, re.M):
        codes = []
        for check in body.split("∷"):
            named = re.match(r"\s*([a-z_]+)\b", check)
            if bars_none and "is_reachable" in check or check.strip() == "[]":
                continue
            found = codes_in(block_of(text, named[1]) if named else check, names)
            note(f"a check of {action} has a code", None if len(found) == 1 else f"{check.strip()!r} has {found}")
            codes += found
        further[action] = codes
    return further


def call_codes():
    """The codes that each call of an action answers, in the order of its checks, by the name of the call."""
    text = text_of("crates/world_rules/specs/Checks.antt")
    names = code_names(text)
    parts, ranges, _ = action_tables()
    further, codes = further_codes(text, names), {}
    for action, (name, params, _) in defined_actions().items():
        if action in OF_NO_CREEP:
            codes[name] = codes_of_no_creep(action) + record_codes()
            continue
        order = codes_in(block_of(text, "creep_checks"), names)
        # (an amount that the call doesn't take is 0, which is not negative)
        order += codes_in(block_of(text, "amount_checks"), names) if "I32" in params else []
        order += codes_in(block_of(text, "part_checks"), names) if action in parts else []
        order += codes_in(block_of(text, "target_checks"), names) if action in ranges else []
        codes[name] = order + further.get(action, []) + record_codes()
    return codes


def record_codes():
    """The code of the last check of each call of an action."""
    replies = text_of("crates/host_calls/specs/Replies.antt")
    return codes_in(block_of(replies, "record_checks"), code_names(replies))


# The actions of which no creep is the actor: the file of definitions with their checks, and the definitions there in their order. The
# first check of a new site, that the room is seen, is the desk's.
OF_NO_CREEP = {"CreateSite": ("Sites", ["room_checks", "tile_checks"]), "RemoveSite": ("Sites", ["removal_checks"]), "SpawnCreep": ("Spawns", ["spawn_checks"])}


def codes_of_no_creep(action):
    file, blocks = OF_NO_CREEP[action]
    text = text_of(f"crates/world_rules/specs/{file}.antt")
    names = code_names(text)
    room = re.findall(r"^site_code_in desk wish x y None = (\w+)$", text_of("crates/host_calls/specs/Replies.antt"), re.M) if action == "CreateSite" else []
    return room + [code for block in blocks for code in codes_in(block_of(text, block), names)]


def answered_codes():
    """The codes that some call answers today, by the name in the header: those of the desk, and those of the calls of actions."""
    codes = numbers(["crates/game_tables/specs/Codes.antt"], "code_number", r"neg_ℤ \(pos (\d+)\)")
    used = set(code_names(text_of("crates/host_calls/specs/Replies.antt")))
    used |= {code for order in call_codes().values() for code in order}
    return {"CODE_OK": 0, **{f"CODE_{snake(name)}": -codes[snake(name)] for name in used if name != "Done"}}


def defined_constants():
    """Each constant that the header has to have."""
    wanted = answered_codes()
    later = re.findall(r"^is_in_rules (\w+) rules = false", text_of("crates/game_tables/specs/Kinds.antt"), re.M)
    kinds = numbers(["crates/game_tables/specs/Numbers.antt"], "kind_number")
    wanted |= {f"KIND_{name}": number for name, number in kinds.items() if name not in [snake(it) for it in later]}
    wanted |= {f"PART_{name}": number for name, number in numbers(["crates/game_tables/specs/Numbers.antt"], "part_number").items()}
    wanted |= {f"GROUND_{name}": number for name, number in numbers(["crates/room_terrain/specs/Tiles.antt"], "ground_number").items()}
    wanted |= {f"DIRECTION_{name}": number for name, number in defined_directions().items()}
    return {**wanted, **defined_fields(), "MEMORY_MOST": defined_number("game_tables/specs/Limits.antt", "most_memory")}


def defined_directions():
    return numbers(["crates/room_terrain/specs/Geometry.antt"], "direction_number")


def defined_number(path, name):
    """The number of a definition `name = number`, or of one that says `<= number` of something."""
    found = re.search(rf"^{name}\b[^\n]*(?:= |≤ )(\d+)$", text_of("crates", path), re.M)
    return int(found[1])


def defined_fields():
    """The numbers of the fields."""
    text = text_of("crates/visible_view/specs/Fields.antt")
    named = {"kind_number": "kind", "capacity_as": "capacity", "length": "parts"}
    fields = {}
    for number, value in re.findall(r"field == (\d+)\s+then Some \(?([\w.]+)", text):
        fields[f"FIELD_{named.get(value, value.split('.')[-1]).upper()}"] = int(number)
    fields["FIELD_PART"] = int(re.search(r"nat_lt field (\d+) then None", text)[1])
    return fields


def header_constants(header):
    return {name: int(number) for name, number in re.findall(r"\b([A-Z][A-Z_]+) = (-?\d+)", header)}


def check_header():
    header = text_of("players/screeps.h")
    note("the calls of the header", differ("calls", header_calls(header), defined_calls()))
    imported = '__attribute__((import_module("screeps"), import_name(#name)))'
    note("the header imports from `screeps`", None if f"#define SCREEPS_CALL(name) {imported}\n" in header else "SCREEPS_CALL is another macro")
    constants, wanted = header_constants(header), defined_constants()
    for name in sorted({*constants, *wanted}):
        note(f"the header's {name}", differ(name, constants.get(name), wanted.get(name)))


# ---- the tables of docs/players.md


def table_under(text, head):
    """The rows of the table with this head, each a list of its cells."""
    lines = text[text.index(head) :].splitlines()[2:]
    rows = []
    for line in lines:
        if not line.startswith("|"):
            break
        rows.append([cell.strip() for cell in line.strip("|").split("|")])
    return rows


def table_types(text):
    """The types of a call as `(L creep, I amount) -> I` has them."""
    letters = {"I": "I32", "L": "I64"}
    params, answer = re.fullmatch(r"`\(([^)]*)\) -> ([IL])`", text).groups()
    return [letters[it.split()[0]] for it in params.split(",") if it.strip()], letters[answer]


def named_numbers(text, prefix, names):
    """What `1 source, 2 controller` says, as constants, where the names are among these."""
    return {f"{prefix}_{name.upper()}": int(number) for number, name in re.findall(r"\b(\d+) (\w+)", text) if name.upper() in names}


def of_prefix(constants, prefix):
    return {name: number for name, number in constants.items() if name.startswith(prefix + "_")}


def table_fields(rows):
    """The numbers of the fields by the table, as constants; FIELD_PART is the number of the first part."""
    fields = {}
    for numbers_, names, _ in rows:
        if numbers_.startswith("100 + i"):
            fields["FIELD_PART"] = 100
            continue
        names = [{"number of parts": "parts"}.get(it, it).replace(" ", "_").upper() for it in names.split(", ")]
        fields |= {f"FIELD_{name}": int(number) for number, name in zip(numbers_.split(", "), names, strict=True)}
    return fields


def whole(text):
    """A number of the documents, as `10,000`, at the front of a text; a mebibyte is 2^20."""
    number = int(re.match(r"[\d,]*\d", text)[0].replace(",", ""))
    return number << 20 if re.match(r"[\d,]+ MiB", text) else number


def check_tables():
    """The tables for those who write players say what the header does, and the limits are those of the definitions."""
    text, header = text_of("docs/players.md"), text_of("players/screeps.h")
    constants = header_constants(header)
    calls = table_under(text, "| Name | Type | Answer |")
    note("the calls of the table", differ("calls", [(name, *table_types(types)) for name, types, _ in calls], header_calls(header)))
    codes = table_under(text, "| Code | In `screeps.h` | Says |")
    note("the codes of the table", differ("codes", {name.strip("`"): int(number) for number, name, _ in codes}, of_prefix(constants, "CODE")))
    said = {int(it) for row in calls for it in re.findall(r"-\d+", row[2])} | {0}
    for name, order in call_codes().items():
        rows = table_under(text, f"| Order | Check of `{name}` | Else |")
        note(f"the order of the checks of {name}", differ("orders", [int(it) for it, _, _ in rows], list(range(1, len(rows) + 1))))
        wanted = [constants[f"CODE_{snake(code)}"] for code in order]
        note(f"the codes of {name}, in their order", differ("codes", [int(code) for _, _, code in rows], wanted))
        said |= {int(code) for _, _, code in rows}
    note("the codes of the calls", differ("codes", said, set(of_prefix(constants, "CODE").values())))
    check_actions(text)
    fields = table_under(text, "| Number | Field | Is |")
    note("the fields of the table", differ("fields", table_fields(fields), of_prefix(constants, "FIELD")))
    cells = {"KIND": next(it[2] for it in fields if it[1] == "kind"), "PART": fields[-1][2], "GROUND": next(it[2] for it in calls if it[0] == "terrain")}
    for prefix, cell in cells.items():
        wanted = of_prefix(constants, prefix)
        names = {name[len(prefix) + 1 :] for name in wanted}
        note(f"the numbers {prefix} of the table", differ("numbers", named_numbers(cell, prefix, names), wanted))
    check_limits(text, header)


def check_actions(text):
    """What the table of actions says of parts, targets and ranges, and that of sites of their work and hits."""
    parts, ranges, targets = action_tables()
    wanted = []
    for action, (name, _, _) in defined_actions().items():
        part = snake(parts[action]).lower() if action in parts else "none"
        wanted.append((name, part, targets.get(action, {"none"}), str(ranges.get(action, ""))))
    rows = table_under(text, "| Call | Part | Target | Range |")
    found = [(name, part, {it.removeprefix("another ") for it in kinds.split(", ")}, most) for name, part, kinds, most in rows]
    note("the table of actions", differ("actions", found, wanted))
    kinds = text_of("crates/game_tables/specs/Kinds.antt")
    totals = dict(re.findall(r"^build_total (\w+) = Some (\d+)$", kinds, re.M))
    hits = dict(re.findall(r"^hits_max (\w+) parts = (\d+)$", kinds, re.M))
    known = numbers(["crates/game_tables/specs/Numbers.antt"], "kind_number")
    wanted = [[snake(name).lower(), known[snake(name)], int(total), int(hits[name])] for name, total in totals.items()]
    rows = table_under(text, "| Site of | Number | Work | Hits |")
    note("the table of sites", differ("sites", [[name, *map(whole, numbers_)] for name, *numbers_ in rows], wanted))
    check_powers(text)
    check_levels(text)
    check_spawning(text)
    check_overruling(text)
    check_steps(text)


def check_powers(text):
    """The sentences that say how much a part does, and how long a building lasts."""
    work, kinds = text_of("crates/world_rules/specs/Work.antt"), text_of("crates/game_tables/specs/Kinds.antt")
    harvested, mended, worked = (re.search(rf"{name}.*?(\d+) \* live_work creep", work, re.S)[1] for name in ("dug creep", "hits_gained creep", "work_put kind creep"))
    timers = {name: int(ticks) for *name, ticks in re.findall(r"^full_timer (\w+) (\w+) = (\d+)$", kinds, re.M) for name in [" ".join(name)]}
    sentences = [
        f"**harvest**: {harvested} for each work part leave the source",
        f"**repair**: the building gains {mended} hits for each work part",
        f"**build**: {worked} for each work part go into the site",
        f"its full timer: {timers['Road in_owned']:,} a road, a container {timers['Container true']} where somebody owns the room's controller and else {timers['Container false']}.",
    ]
    note_sentences(text, sentences + fight_sentences() + controller_sentences())


def note_sentences(text, sentences):
    """Each of these stands in the text, wherever its lines end."""
    words = " ".join(text.split())
    for sentence in sentences:
        note(f"docs/players.md says {sentence[:40]!r}", None if sentence in words else f"{sentence!r} does not stand there")


def fight_sentences():
    """What the text says of damage and healing, and of how spawns gain."""
    fights, tick, upkeep = (text_of(f"crates/world_rules/specs/{it}.antt") for it in ("Fights", "Tick", "Upkeep"))
    blow, torn, share = (re.search(it, fights)[1] for it in (r"strength creep = (\d+) \* live_count part_kinds\.Attack", r"tear creep = (\d+) \* live_work", r"building\.hits / (\d+)"))
    shot = re.search(r"shot_strength (\d+) creep\)", fights)[1]
    near, two, three = re.search(r"nat_le range 1 then (\d+) else if range == 2 then (\d+) else (\d+)", fights).groups()
    heal, far = (re.search(rf"^harm_by {it} .*\(healed_by (\d+)\)", tick, re.M)[1] for it in ("Heal", "RangedHeal"))
    most = re.search(r"^spawn_capacity = (\d+)$", upkeep, re.M)[1]
    return [
        f"**heal**: the target gains {heal} hits for each heal part",
        f"**ranged_heal**: the same with {far} hits for each heal part",
        f"**dismantle**: the building gets {torn} damage for each work part, and the creep 1 energy for each {share} of it",
        f"**attack**: the target gets {blow} damage for each attack part.",
        f"the attacker gets {blow} damage for each attack part of the target",
        f"damage for each ranged attack part: {near} at one tile, {two} at two and {three} at three.",
        f"**ranged_attack**: the target gets {shot} damage for each ranged attack part",
        f"| attack | {blow} damage, and each attack part of a creep that is struck gives {blow} back | 1 |",
        f"| ranged attack | {shot} damage | 3 |",
        f"| ranged mass attack | {near} damage at one tile, {two} at two, {three} at three | 3 |",
        f"| dismantle | {torn} damage to a building | 1 |",
        f"| heal | {heal} healing | 1 |",
        f"| ranged heal | {far} healing | 3 |",
        f"as long as they have less than {most}, and the spawns and extensions of their owner in the room have less than {most} together.",
    ]


def controller_sentences():
    """What the text says of upgrades, of reservations and of attacks on controllers."""
    claims = text_of("crates/world_rules/specs/Claims.antt")
    last, first = (re.search(it, claims, re.M)[1] for it in (r"^most_at_last = (\d+)$", r"if controller\.other == 0 then (\d+) else"))
    longer, cut = (re.search(it, claims)[1] for it in (r"controller\.timer \+ (\d+)\)", r"controller\.timer - (\d+) \* live_claim creep"))
    most = defined_number("game_tables/specs/Fields.antt", "most_other_ticks Controller")
    points = 2 ** int(re.search(r"^most_points = 2 \^ (\d+)$", text_of("crates/game_tables/specs/Limits.antt"), re.M)[1])
    return [
        f"together put {last} at most into a controller of level 8 in a tick.",
        f"for each claim part, up to {most:,}. A new reservation begins with {first}.",
        f"the time of another player's controller falls by {cut} ticks for each claim part",
        f"makes the time longer by {longer} ticks",
        f"No player has more than {points:,}",
    ]


def check_levels(text):
    """The table of levels says what the next one wants, and how long each is kept."""
    levels = text_of("crates/game_tables/specs/Levels.antt")
    totals, times = ([int(it) for it in re.findall(r"Some (\d+)", block_of(levels, name))] for name in ("totals", "downgrades"))
    wanted = [[level, total, time] for level, (total, time) in enumerate(zip([*totals, None], times, strict=True), 1)]
    rows = table_under(text, "| Level | The next wants | Time |")
    note("the table of levels", differ("levels", [[whole(level), whole(total) if total else None, whole(time)] for level, total, time in rows], wanted))


def check_spawning(text):
    """The tables of parts and of what a level allows say what the definitions do, and so do the sentences on new creeps and on sites."""
    bodies, spawns = text_of("crates/game_tables/specs/Bodies.antt"), text_of("crates/world_rules/specs/Spawns.antt")
    costs, known = (numbers([f"crates/game_tables/specs/{it}.antt"], name) for it, name in (("Bodies", "part_cost"), ("Numbers", "part_number")))
    rows = table_under(text, "| Part | Its number | Costs | In a tick, while it has hits |")
    note("the table of parts", differ("parts", {name.upper(): (int(number), int(cost)) for name, number, cost, _ in rows}, {it: (known[it], costs[it]) for it in known}))
    counts = dict(re.findall(r"^counts ([A-Z]\w+) = ([\d ∷]+)∷ \[\]$", text_of("crates/game_tables/specs/Levels.antt"), re.M))
    wanted = [list(row) for row in zip(*[[int(it) for it in counts[kind].split("∷")] for kind in ("Spawn", "Extension", "Storage", "Container", "Road")])]
    rows = table_under(text, "| Room's level | Spawns | Extensions | Storages | Containers | Roads |")
    note("the table of what a level allows", differ("counts", [[whole(it) for it in row] for row in rows], [[level, *row] for level, row in enumerate(wanted)]))
    claiming, others = (f"{int(it):,}" for it in re.search(r"has_part Claim parts then (\d+) else (\d+)", bodies).groups())
    most, sites = defined_number("game_tables/specs/Bodies.antt", "most_parts"), defined_number("game_tables/specs/Limits.antt", "most_sites")
    ticks = re.search(r"timer = (\d+) \* length body", spawns)[1]
    sentences = [
        f"A spawn takes {ticks} ticks for each part",
        f"It lives {others} ticks, with a claim part in its body {claiming}.",
        f"A body is a list of 1 to {most} parts.",
        f"A player has {sites} sites at most in all rooms together.",
        f"are fewer than {sites} | -8 |",
    ]
    note_sentences(text, sentences)


def check_overruling(text):
    """The table of what overrules what says what the definitions do, as far as there are calls."""
    specs = text_of("crates/game_tables/specs/Actions.antt")
    lists = {}
    for name, by, more in re.findall(r"^drops_(\w+) (\w+) = (true|drops_\w+ by)$", specs, re.M):
        lists.setdefault(name, set()).update(lists[more[6:-3]] if by == "by" else {by})
    wanted = {}
    for by, name, said in re.findall(r"^dominates (\w+) (\w+) = (true|drops_\w+ by)$", specs, re.M):
        wanted.setdefault(name, set()).update(lists[said[6:-3]] if by == "by" else {by})
    actions = {action: name for action, (name, _, _) in defined_actions().items()}
    wanted = {actions[name]: {actions[it] for it in found if it in actions} for name, found in wanted.items() if name in actions}
    rows = table_under(text, "| Doesn't count | Where the creep has one of |")
    note("the table of what doesn't count", differ("rows", {name: set(others.split(", ")) for name, others in rows}, wanted))


def check_steps(text):
    """What the text and the path finder say of the cost of a step, and of what wears and decays."""
    moves, upkeep, kinds = (text_of("crates", it) for it in ("world_rules/specs/Moves.antt", "world_rules/specs/Upkeep.antt", "game_tables/specs/Kinds.antt"))
    road, swamp, plain = (int(re.search(rf"^pace {it} = (\d+)$", moves, re.M)[1]) for it in ("true surface", r"false \(Some Swamp\)", "false other"))
    load = int(re.search(r"\(creep\.energy \+ \d+\) / (\d+)", moves)[1])
    rest = int(re.search(r"creep\.extra - (\d+) \* live_count Move", upkeep)[1])
    lost, road_lost = (int(re.search(rf"^decay_hits {it} = (\d+)$", upkeep, re.M)[1]) for it in ("Container", "_"))
    timers = {name: int(ticks) for *name, ticks in re.findall(r"^full_timer (\w+) (\w+) = (\d+)$", kinds, re.M) for name in [" ".join(name)]}
    sentences = [
        f"{road} on a road, and else {swamp} on swamp and {plain} on plain ground",
        f"1 for each {load} of its load that were begun",
        f"falls by {rest} for each move part with hits",
        f"a container loses {lost:,} hits then, and its timer is {timers['Container true']} again where somebody owns the room's controller and else {timers['Container false']};",
        f"a road loses {road_lost} hits, and its timer is {timers['Road in_owned']:,} again",
    ]
    note_sentences(text, sentences)
    constants = header_constants(text_of("players/path.h"))
    found = {name: constants.get(f"PATH_{name}") for name in ("ROAD", "PLAIN", "SWAMP")}
    note("players/path.h has the cost of a step", differ("costs", found, {"ROAD": road, "PLAIN": plain, "SWAMP": swamp}))
    check_path(text, constants)


def check_path(text, constants):
    """The functions of the path finder stand in the text, with the instructions that it says they take."""
    functions = re.findall(r"^PATH_FUNCTION [\w ]+?(\w+)\(([^)]*)\)", text_of("players/path.h"), re.M)
    wanted = {name: [re.sub(r".*\W", "", it) for it in params.split(",")] for name, params in functions}
    rows = table_under(text, "| Function | Does |")
    found = {name: params.split(", ") for cell, _ in rows for name, params in re.findall(r"`(\w+)\(([^)]*)\)`", cell)}
    note("the functions of players/path.h", differ("functions", found, wanted))
    rows = table_under(text, "| | Instructions |")
    names = ("ROOM", "OBJECT", "GOING_ON", "TILE")
    note("what the functions of players/path.h take", differ("instructions", [whole(most) for _, most in rows[:4]], [constants.get(f"PATH_COST_OF_{it}") for it in names]))


def check_limits(text, header):
    limits, nesting = "wasm_module/specs/Limits.antt", "wasm_values/specs/Nesting.antt"
    names = [(limits, "most_functions"), (nesting, "most_nesting")]
    names += [(limits, name) for name in ("most_locals", "most_pages_at_first", "most_entries_at_first")]
    wanted = [MIB, *(defined_number(path, name) for path, name in names)]
    rows = table_under(text, "| Limit | Most |")
    note("the limits of the table", differ("limits", [whole(most) for _, most in rows], wanted))
    named = {name: defined_number("game_tables/specs/Limits.antt", name) for name in ("most_limit", "most_bucket", "unit_instructions", "most_memory")}
    named["entries_bound"] = defined_number("intent_book/specs/Records.antt", "entries_bound")
    named |= {name: defined_number("wasm_steps/specs/Program.antt", name) for name in ("most_frames", "most_values")}
    texts = {"docs/players.md": " ".join(text.split()), "players/screeps.h": re.sub(r"[\s*]+", " ", header)}
    sentences = [
        ("docs/players.md", "up to {most_bucket}. In a tick he may use"),
        ("docs/players.md", "but at most {most_limit} units. A unit is {unit_instructions} instructions."),
        ("docs/players.md", "more than {most_frames} calls within one another, or where locals and operands of all calls together would be more than {most_values}."),
        ("docs/players.md", "It is up to {most_memory} bytes of any kind"),
        ("docs/players.md", "`len` is above {most_memory} or"),
        ("docs/players.md", "At most {entries_bound} intents are recorded in a tick, of all actions together"),
        ("players/screeps.h", "or {entries_bound} intents are recorded in this tick"),
        ("players/screeps.h", "CODE_FULL where {entries_bound} intents are recorded."),
        ("players/screeps.h", "in this tick, 0 to {most_limit}. A unit is {unit_instructions} instructions."),
        ("players/screeps.h", "saved before this tick, 0 to {most_bucket}."),
    ]
    for path, sentence in sentences:
        wanted = sentence.format(**{name: f"{number:,}" for name, number in named.items()})
        note(f"{path} says its limit", None if wanted in texts[path] else f"{wanted!r} does not stand there")


# ---- the maker of upload streams


def streamed(words, folder, stdout=subprocess.PIPE, prepare=None):
    """Runs players/upload_stream.py: its exit status, its standard output and its standard error."""
    command = [sys.executable, os.path.join(PLAYERS, "upload_stream.py"), *words]
    done = subprocess.run(command, cwd=folder, stdin=subprocess.DEVNULL, stdout=stdout, stderr=subprocess.PIPE, preexec_fn=prepare, timeout=60)
    return done.returncode, done.stdout or b"", done.stderr.decode()


def refusal_faults(found, said):
    """What is wrong of a refusal, which is a status other than 0, no output, and one line that says this."""
    status, out, err = found
    faults = [None if status == 1 else f"status {status}", differ("output", out, b"")]
    if not re.fullmatch(r"upload_stream\.py: [^\n]+\n", err):
        faults.append(f"no single line that begins with its name: {err[-400:]!r}")
    return [*faults, None if said in err else f"{said!r} is not in {err[-400:]!r}"]


def stream(*entries):
    return b"".join(struct.pack("<QII", tick, player, len(module)) + module for tick, player, module in entries)


def check_streams(folder):
    files = {"one.wasm": b"\0asm\1\0\0\0", "none": b"", "a:b": bytes(range(256)) * 300}
    for name, content in files.items():
        with open(os.path.join(folder, name), "wb") as it:
            it.write(content)
    one, colon = files["one.wasm"], files["a:b"]
    rows = [
        ([], stream()),
        (["0:1:one.wasm"], stream((0, 1, one))),
        (["7:4294967295:none", "7:0:a:b", "18446744073709551615:2:one.wasm"], stream((7, 2**32 - 1, b""), (7, 0, colon), (2**64 - 1, 2, one))),
        (["003:1:one.wasm"], stream((3, 1, one))),
    ]
    for words, wanted in rows:
        status, out, err = streamed(words, folder)
        note(f"the stream of {words}", differ("status", status, 0), differ("stream", out, wanted), differ("standard error", err, ""))
        status, out, err = streamed([*words, "-o", "made"], folder)
        with open(os.path.join(folder, "made"), "rb") as it:
            note(f"the stream of {words} in a file", differ("status", status, 0), differ("file", it.read(), wanted), differ("output", out, b""))
        os.remove(os.path.join(folder, "made"))
    check_refused_streams(folder)
    check_outputs(folder, stream((0, 1, one)))
    status, out, _ = streamed(["--help"], folder)
    note("the help of upload_stream.py", differ("status", status, 0), None if b"TICK:PLAYER:FILE" in out else f"said {out!r}")
    samples = {"one_player": ["dropper"], "harvest": ["harvester"], "walk": ["walker"], "fight": ["guard", "raider"], "colonies": ["colony", "colony"]}
    for name, players in samples.items():
        wanted = stream(*[(0, number, bytes_of(f"players/{player}.wasm")) for number, player in enumerate(players, 1)])
        note(f"worlds/{name}.uploads has players/{'.wasm and players/'.join(players)}.wasm", differ("stream", bytes_of(f"worlds/{name}.uploads"), wanted))


def check_refused_streams(folder):
    """Words of which there is no stream: each refusal is one line, and no file is made or changed."""
    for name, length in (("half", MOST_STREAM // 2), ("above", MOST_STREAM - 15), ("whole", MOST_STREAM - 16)):
        with open(os.path.join(folder, name), "wb") as it:
            it.truncate(length)
    os.mkdir(os.path.join(folder, "folder"))
    refused = [
        (["1:1:one.wasm", "0:1:one.wasm"], "rising tick"),
        (["0:1:one.wasm", "9:1:one.wasm", "8:1:one.wasm"], "rising tick"),
        ([""], "TICK:PLAYER:FILE"),
        (["0:1"], "TICK:PLAYER:FILE"),
        (["0:1:"], "TICK:PLAYER:FILE"),
        (["x:1:one.wasm"], "no number"),
        (["-1:1:one.wasm"], ""),
        (["1\n:1:one.wasm"], "no number"),
        (["²:1:one.wasm"], "no number"),
        (["0::one.wasm"], "no number"),
        (["0:4294967296:one.wasm"], "above"),
        (["18446744073709551616:1:one.wasm"], "above"),
        (["9" * 5000 + ":1:one.wasm"], "above"),
        (["0:" + "9" * 5000 + ":one.wasm"], "above"),
        (["0:1:no such file"], "no such file"),
        (["0:1:no\nsuch\nfile"], "No such file"),
        (["0:1:folder"], "Is a directory"),
        (["0:1:one.wasm", "0:1:folder/none"], "No such file"),
        (["0:1:above"], "longer than 268435456"),
        (["0:1:half", "0:1:half"], "longer than 268435456"),
        (["0:1:whole", "0:1:none"], "longer than 268435456"),
        (["0:1:/dev/zero"], "longer than 268435456"),
        (["--none"], "--none"),
    ]
    for words, said in refused:
        name = f"no stream of {[it[:60] for it in words]}"
        # (what never ends is not read to its end)
        found = streamed([*words, "-o", "made"], folder, prepare=little_memory)
        note(name, *refusal_faults(found, said), differ("files", os.listdir(folder).count("made"), 0))
        with open(os.path.join(folder, "old"), "wb") as it:
            it.write(b"old")
        found = streamed([*words, "-o", "old"], folder, prepare=little_memory)
        with open(os.path.join(folder, "old"), "rb") as it:
            note(f"{name}, over an old file", *refusal_faults(found, said), differ("file", it.read(), b"old"))
    found = streamed(["0:1:whole", "-o", "made"], folder)
    made = os.path.join(folder, "made")
    with open(made, "rb") as it:
        note("a stream of 256 MiB", differ("said", found, (0, b"", "")), differ("head", it.read(17), struct.pack("<QII", 0, 1, MOST_STREAM - 16) + b"\0"))
    note("the length of a stream of 256 MiB", differ("length", os.path.getsize(made), MOST_STREAM))
    for name in ("half", "above", "whole", "made", "old"):
        os.remove(os.path.join(folder, name))
    left = sorted(it for it in os.listdir(folder) if it not in ("one.wasm", "none", "a:b", "folder"))
    note("nothing else is left by refused streams", differ("files", left, []))


def little_memory():
    resource.setrlimit(resource.RLIMIT_AS, (1 << 30, 1 << 30))


def check_outputs(folder, wanted):
    """Outputs that fail, each with one line."""
    word = "0:1:one.wasm"
    for words in ([word], ["--help"]):
        with open("/dev/full", "wb") as sink:
            note(f"{words} to a full output", *refusal_faults(streamed(words, folder, stdout=sink), "standard output"))
        for_reading, for_writing = os.pipe()
        os.close(for_reading)
        with open(for_writing, "wb") as sink:
            note(f"{words} to a pipe that nobody reads", *refusal_faults(streamed(words, folder, stdout=sink), "standard output"))
        note(f"{words} to a closed output", *refusal_faults(streamed(words, folder, stdout=None, prepare=lambda: os.close(1)), "standard output"))
    for path, said in (("/dev/full", "No space"), ("folder", "Is a directory"), ("folder/none/made", "No such file"), ("", "no name")):
        note(f"a stream in {path!r}", *refusal_faults(streamed([word, "-o", path], folder), said))
    found = streamed([word, "-o", "/dev/stdout"], folder)
    note("a stream in a file that is no plain one", differ("said", found, (0, wanted, "")))
    os.symlink("behind", os.path.join(folder, "link"))
    found = streamed([word, "-o", "link"], folder)
    with open(os.path.join(folder, "behind"), "rb") as it:
        note("a stream behind a link", differ("said", found, (0, b"", "")), differ("file", it.read(), wanted))
    note("the link stays", None if os.path.islink(os.path.join(folder, "link")) else "it is none any more")


# ---- the sample players, written anew


def dropper(desk):
    """What players/dropper.c does."""
    runs, drops = struct.unpack("<II", desk.text) if len(desk.text) == 8 else (0, 0)
    runs += 1
    usual = 0 if runs % 10 == 0 else 5
    for _, it in desk.objects[: allowance(desk.account) * 100 - 1]:
        if it["kind"] != "creep" or it["owner"] != desk.player:
            continue
        code = desk.acted("drop", it["id"], amount=usual)
        if code == NOT_ENOUGH and usual:
            code = desk.acted("drop", it["id"])
        if code == FULL:
            break
        drops += code == 0
    desk.text = struct.pack("<II", runs, drops)


class Harvester:
    """What players/harvester.c does."""

    def __init__(self, desk):
        self.desk, self.looks = desk, allowance(desk.account) * 50 - 1
        self.ours = (0, desk.player)
        for index, it in self.looked():
            if it["kind"] == "creep" and it["owner"] == desk.player:
                self.work(index, it)

    def looked(self):
        """The objects, as far as the budget goes."""
        for seen in self.desk.objects:
            if self.looks == 0:
                return
            self.looks -= 1
            yield seen

    def serves(self, task, room, it, index, creep):
        if room != index:
            return False
        far, objects = distance(it, creep), self.desk.world["rooms"][index]["objects"]
        return {
            "harvest": it["kind"] == "source" and it["energy"] > 0 and far <= 1,
            "transfer": it["kind"] in STORES and it["owner"] in self.ours and it["energy"] < capacity(it, objects) and far <= 1,
            "build": it["kind"] == "site" and it["owner"] in self.ours and far <= 3,
            "repair": it["kind"] in BUILDINGS and it["owner"] in self.ours and it["hits"] < hits_max(it) and far <= 3,
        }[task]

    def work(self, index, creep):
        for task in ("harvest", "transfer", "build", "repair"):
            most = capacity(creep, self.desk.world["rooms"][index]["objects"])
            if not (creep["energy"] < most if task == "harvest" else creep["energy"] > 0):
                continue
            target = next((it for room, it in self.looked() if self.serves(task, room, it, index, creep)), None)
            if target and self.desk.acted(task, creep["id"], target["id"]) == 0:
                return


# ---- runs of the sample player


def used_by(out, player, end="finished"):
    """The instructions that each run of the player used which ended so, as they are printed."""
    return [int(it) for it in re.findall(rf"^player {player} {end} (\d+)$", out, re.M)]


def expected(file, player, module, acts, used):
    """The steps of a run in which this player acts in each tick, and his runs use so much."""
    world, steps = full(file), []
    for at, instructions in enumerate(used):
        desk = Desk(world, player)
        acts(desk)
        run = Run(player, "finished", instructions, desk.text, desk.entries)
        world = ticked(world, [run])
        steps.append(Step([(player, "accepted", module)] if at == 0 else [], [run], world))
    return steps


def served(words, folder):
    done = subprocess.run([PROGRAM, *words], cwd=folder, stdin=subprocess.DEVNULL, capture_output=True, timeout=120)
    return done.returncode, done.stdout.decode(), done.stderr.decode()


def ran(name, file, modules, ticks, end="finished"):
    """Uploads a module for each of some players in the first tick, whose runs all end so: what was printed, and the journal, or None where it
    went wrong."""
    with tempfile.TemporaryDirectory() as folder:
        with open(os.path.join(folder, "world.json"), "w", encoding="utf-8") as it:
            json.dump(file, it)
        with open(os.path.join(folder, "uploads"), "wb") as it:
            it.write(stream(*[(file["tick"], player, module) for player, module in modules]))
        status, out, err = served(["run", "world.json", "uploads", "journal", "--ticks", str(ticks)], folder)
        if (status, err) != (0, "") or any(len(used_by(out, player, end)) != ticks for player, _ in modules):
            note(name, f"status {status}, said {err!r}, printed {out[:500]!r}")
            return None
        with open(os.path.join(folder, "journal"), "rb") as it:
            return out, it.read()


def check_run(name, file, player, module, ticks, acts):
    """Compares all that a run does with what the sample player would."""
    if MODEL:
        note(name, *world_faults(file, expected(file, player, module, acts, [0] * ticks)))
        return
    found = ran(name, file, [(player, module)], ticks)
    if found:
        steps = expected(file, player, module, acts, used_by(found[0], player))
        faults = journal_faults(file, [])("journal.bin", found[1], journal_of(file, steps))
        note(name, differ("lines", found[0], output_of(file, steps).decode()), *faults)


def plain_room(name, next, objects):
    grounds = ["0"] * 2500
    for corner in (0, 49, 2450, 2499):
        grounds[corner] = "1"
    return {"name": name, "terrain": "".join(grounds), "next": next, "objects": objects}


def carrier(id, owner, energy, place):
    """A creep at a place of a room's inner tiles, of which there are 2,304."""
    return {"id": id, "kind": "creep", "x": 1 + place % 48, "y": 1 + place // 48, "owner": owner, "body": ["carry"], "energy": energy, "timer": 1500}


def two_players():
    """Creeps of two players in two rooms, some with nothing, and a third room that only the other sees. The ids don't go by rooms."""
    second, third = 1 << 32, 2 << 32
    first = [carrier(second + 7, 2, 50, 3), carrier(9, 1, 0, 4), carrier(8, 2, 3, 5), carrier(2, 1, 4, 6), carrier(5, 1, 50, 7)]
    other = [carrier(second + 3, 2, 50, 70), carrier(1, 2, 9, 71), {"id": third + 1, "kind": "pile", "x": 9, "y": 9, "energy": 2000}]
    rooms = [plain_room("E0S0", 11, [carrier(second + 6, 2, 1, 0)]), plain_room("W0N12", 20, first), plain_room("E127N0", 3, other)]
    players = [{"player": 7, "limit": 3}, {"player": 2, "limit": 500, "bucket": 9_990}, {"player": 1, "limit": 20, "bucket": 5, "memory": "68656c6c6f"}]
    return {"version": 1, "tick": 41, "rooms": rooms, "players": players}


def crowd(rooms, each, limit):
    """So many rooms, each full of so many loaded creeps of player 1."""
    filled = [[carrier((index << 32) + 1 + place, 1, 12, place) for place in range(each)] for index in range(rooms)]
    named = [plain_room(f"E{index}S0", each + 1, objects) for index, objects in enumerate(filled)]
    return {"version": 1, "tick": 0, "rooms": named, "players": [{"player": 1, "limit": limit}]}


def two_workers():
    """Rooms in which creeps of two players stand among sources, stores, sites and what is worn, some out of reach, and some without parts for it."""
    worker, first, second = ["work", "carry", "move"], [], []
    for serial, (x, y, owner, body, energy) in enumerate([(9, 9, 1, worker, 0), (11, 11, 2, worker * 2, 30), (9, 11, 1, ["carry"], 20), (13, 10, 1, ["work"], 0), (8, 8, 2, worker, 50), (30, 30, 1, worker, 50)], 1):
        first.append(thing("creep", serial, x, y, owner=owner, body=body, energy=energy, timer=1500))
        second.append(thing("creep", (1 << 32) + 20 - serial, 49 - x, y, owner=3 - owner, body=body, energy=energy, timer=1500))
    first += [thing("source", 20, 10, 10, energy=37, timer=40), thing("container", 21, 10, 11, energy=1990, timer=9, hits=249_000), thing("site", 22, 12, 12, owner=1, extra=8, progress=280)]
    first += [thing("site", 23, 11, 9, owner=2, extra=5, progress=2980), thing("road", 24, 9, 12, timer=9, hits=4800), thing("spawn", 25, 12, 10, owner=2, energy=250, hits=4000), thing("pile", 26, 9, 9, energy=8)]
    second += [thing("source", (1 << 32) + 20, 39, 10, energy=1500), thing("extension", (1 << 32) + 21, 38, 10, owner=1, energy=9), thing("storage", (1 << 32) + 22, 39, 9, owner=2, hits=9990)]
    second += [thing("controller", (1 << 32) + 23, 20, 20, owner=2, extra=7, timer=9), thing("site", (1 << 32) + 24, 40, 12, owner=2, extra=7, progress=4990), thing("site", (1 << 32) + 25, 38, 11, owner=1, extra=5)]
    players = [{"player": 1, "limit": 20}, {"player": 2, "limit": 20}]
    return {"version": 1, "tick": 7, "rooms": [plain_room("E0S0", 40, first), plain_room("W5N5", 40, second)], "players": players}


def sample(path):
    with open(path, encoding="utf-8") as it:
        return json.load(it)


def check_dropper(name, module):
    """What the module does is what players/dropper.c says."""
    check_run(f"{name} in worlds/one_player.json", sample(WORLD), 1, module, 25, dropper)
    check_run(f"{name} among two players", two_players(), 1, module, 11, dropper)
    check_run(f"{name} as player 2", two_players(), 2, module, 3, dropper)
    check_run(f"{name} with more creeps than intents", crowd(2, 2100, 500), 1, module, 2, dropper)
    check_run(f"{name} with more objects than its budget is for", crowd(1, 400, 1), 1, module, 3, dropper)


def check_harvester(name, module):
    """What the module does is what players/harvester.c says."""
    check_run(f"{name} in worlds/harvest.json", sample(HARVEST), 1, module, 300, Harvester)
    check_run(f"{name} in worlds/one_player.json", sample(WORLD), 1, module, 40, Harvester)
    check_run(f"{name} among two players", two_players(), 2, module, 3, Harvester)
    check_run(f"{name} as each of two who work", two_workers(), 1, module, 60, Harvester)
    check_run(f"{name} as the other", two_workers(), 2, module, 60, Harvester)
    check_run(f"{name} with more objects than its budget is for", {**two_workers(), "players": [{"player": 1, "limit": 1}, {"player": 2, "limit": 0, "bucket": 1}]}, 1, module, 60, Harvester)


# ---- ways, which are judged by what they cost: of several ways of one cost a player may go any


def leads_to_wall(world, place, tile, player):
    """The tile beyond a border tile is a wall of a room that the player sees."""
    name, (x, y) = beyond(place["name"], tile)
    others = [it for it in world["rooms"] if place_of(it["name"]) == name and sees(player, it["objects"])]
    return any(it["terrain"][50 * y + x] == "1" for it in others)


def side_exits(world, place, column, player):
    """The border tiles of a column to which a player goes who leaves the room there."""
    return {(column, y) for y in range(1, 49) if not leads_to_wall(world, place, (column, y), player)}


def exits_of(world, place):
    """The border tiles to which players/walker.c goes in a room."""
    return side_exits(world, place, 49 if place_of(place["name"])[0] % 2 == 0 else 0, 1)


def around(one, most=1):
    """The inner tiles within a range of an object."""
    reach = range(-most, most + 1)
    return {(one["x"] + right, one["y"] + down) for right in reach for down in reach if 1 <= one["x"] + right <= 48 and 1 <= one["y"] + down <= 48}


def beside(x, y):
    return [(x + columns, y + rows) for columns, rows in DIRECTIONS.values()]


def least_costs(place, goals, creeps):
    """What the cheapest way from each tile of a room to one of the goals costs, where there is one, by a slow search over all tiles until
    none gets cheaper: no way goes over a border tile but at its ends, nor over the tiles of these creeps."""
    closed, roads = obstructed(place) | creeps, {(one["x"], one["y"]) for one in place["objects"] if one["kind"] == "road"}
    ground = {(x, y): place["terrain"][50 * y + x] for x in range(50) for y in range(50) if (x, y) not in closed}
    steps = {tile: 1 if tile in roads else 10 if digit == "2" else 2 for tile, digit in ground.items() if digit != "1"}
    found = {tile: 0 for tile in goals if tile in steps}
    changed = set(found)
    while changed:
        near = {tile for goal in changed for tile in beside(*goal) if tile in steps}
        changed = set()
        for tile in near:
            ways = [found[it] + steps[it] for it in beside(*tile) if it in found and (it in goals or not {0, 49} & set(it))]
            if min(ways, default=1 << 30) < found.get(tile, 1 << 30):
                found[tile] = min(ways)
                changed.add(tile)
    return found


class Leg:
    """A part of a walk: from a tile of a room of a world to a goal there, which is a source or the exit."""

    def __init__(self, world, index, start, source=None):
        self.index, self.place, self.start, self.tiles = index, world["rooms"][index], start, []
        self.is_out = source is None
        self.goals = exits_of(world, self.place) if self.is_out else around(source)

    def is_over(self):
        return (self.tiles or [self.start])[-1] in self.goals

    def faults(self):
        creeps = {(one["x"], one["y"]) for one in self.place["objects"] if one["kind"] == "creep"} - {self.start}
        spent, least = sum(pace(self.place, tile) for tile in self.tiles), least_costs(self.place, self.goals, creeps).get(self.start)
        return [] if spent == least else [f"the way in room {self.index} from {self.start} by {self.tiles} costs {spent}, and the cheapest {least}"]


def source_of(place):
    return min((one for one in place["objects"] if one["kind"] == "source"), key=lambda one: one["id"], default=None)


def first_leg(world, index, start):
    """What the walker does first in a room: it goes to a source, where there is one."""
    return Leg(world, index, start, source_of(world["rooms"][index]))


def creep_in(world, id):
    return next((index, one) for index, place in enumerate(world["rooms"]) for one in place["objects"] if one["id"] == id)


def stepped(tile, direction):
    return tuple(at + by for at, by in zip(tile, DIRECTIONS[direction]))


def next_leg(leg, world, tile, direction):
    """The leg of a creep that stands on this tile, and wants to step there in this tick, if it wants to step at all: where it came to a
    source it goes out; and where it stands at the border, and didn't get over, it steps back first and comes again."""
    if not leg.is_over():
        return leg
    if not leg.is_out:
        return Leg(world, leg.index, tile)
    return Leg(world, leg.index, stepped(tile, direction)) if direction else leg


def walk_faults(file, steps, id, least):
    """What is wrong of the walk of a creep: each leg that it ends is one of the cheapest, it waits only where it is tired or searches, and
    it ends so many legs at least."""
    before, faults, ended, idle = full(file), [], 0, 0
    index, creep = creep_in(before, id)
    leg = first_leg(before, index, (creep["x"], creep["y"]))
    for step in steps:
        tile, wanted = (creep["x"], creep["y"]), step.runs[0].entries.get(("move", id), (0, None))[1]
        leg = next_leg(leg, before, tile, wanted)
        idle = 0 if wanted or creep["extra"] else idle + 1
        if idle > MOST_IDLE:
            return [*faults, f"it stands still at {tile} of room {index} before tick {step.world['tick']}"]
        if wanted and stepped(tile, wanted) != leg.start:
            leg.tiles.append(stepped(tile, wanted))
        before, (index, creep) = step.world, creep_in(step.world, id)
        if wanted and leg.is_over():
            ended += 1
            faults += leg.faults()
        if index != leg.index:
            over = beyond(leg.place["name"], leg.tiles[-1])
            faults += [] if over[1] == (creep["x"], creep["y"]) and leg.is_over() else [f"it came to {creep['x']}, {creep['y']} of room {index}"]
            leg = first_leg(before, index, (creep["x"], creep["y"]))
    return faults + ([] if ended >= least else [f"{ended} legs were ended, and not {least}"])


# The walker searches for so many ticks at most, one after the other, those counted in which it saves units for it.
MOST_IDLE = 30


def steps_in(file, modules, journal):
    """The steps of a run, with what the journal says that the players wanted and kept in their memory texts: what becomes of it is worked out
    here."""
    world, steps = full(file), []
    for tick in ticks_in(journal):
        runs = []
        texts = {it[0]: it[4] for it in tick["accounts"]}
        for player, _, _, used, listed in tick["runs"]:
            entries = {(ACTION_NAMES[action], actor): (target, amount) for action, actor, target, amount, _ in listed}
            runs.append(Run(player, "finished", used, texts[player], entries))
        world = ticked(world, runs)
        steps.append(Step([] if steps else [(player, "accepted", module) for player, module in modules], runs, world))
    return steps


def check_walk(name, file, module, ticks, id, least):
    """The creep walks the cheapest ways, and so many legs at least."""
    if MODEL:
        note(name, *world_faults(file, []))
        return
    modules = [(1, module)]
    found = ran(name, file, modules, ticks)
    if found:
        steps = steps_in(file, modules, found[1])
        note(name, *journal_run_faults(file, steps, found), *walk_faults(file, steps, id, least))


def journal_run_faults(file, steps, found):
    """What is another than in these steps in the lines and the journal of a run."""
    faults = journal_faults(file, [])("journal.bin", found[1], journal_of(file, steps))
    return [differ("lines", found[0], output_of(file, steps).decode()), *faults]


def with_objects(file, index, *objects):
    """The world with more objects in a room, under its next serials."""
    file = json.loads(json.dumps(file))
    place = file["rooms"][index]
    for one in objects:
        place["objects"].append({"id": (index << 32) + place["next"], **one})
        place["next"] += 1
    return file


def standing(x, y, owner):
    return {"kind": "creep", "x": x, "y": y, "owner": owner, "body": ["carry"], "timer": 1500}


def in_the_way():
    """A creep on the road that the walker would go, which passes it round."""
    return with_objects(sample(WALK), 0, standing(46, 24, 1))


def beyond_the_border():
    """Creeps of another player on all tiles to which the walker could go over."""
    file = with_objects(sample(WALK), 1, *[standing(0, y, 2) for y in range(1, 49) if sample(WALK)["rooms"][1]["terrain"][50 * y] != "1"])
    return {**file, "players": [*file["players"], {"player": 2, "limit": 0}]}


def narrow_exit():
    """Another creep of the player shows him the next room, in which all but the tile that is the farthest to come to is walls."""
    file = with_objects(sample(WALK), 1, standing(20, 20, 1))
    place = file["rooms"][1]
    place["terrain"] = "".join("1" if tile % 50 == 0 and tile != 50 * 22 else ground for tile, ground in enumerate(place["terrain"]))
    return file


def along_the_border():
    """A wall through the room, with a gap at the border, over which no way leads, and another one."""
    tiles = {50 * y + x: "1" for y in range(50) for x in (0, 20, 49) if (x, y) not in ((20, 0), (20, 10))}
    objects = [thing("creep", 1, 18, 2, owner=1, body=["move"], timer=1500), thing("source", 2, 22, 2, energy=9)]
    return {"version": 1, "tick": 0, "rooms": [{"name": "E0S0", "terrain": grounds(tiles), "next": 3, "objects": objects}], "players": [{"player": 1, "limit": 30}]}


def maze():
    """Two rooms side by side of walls with gaps at their ends in turn, with swamp and some roads."""
    tiles = {50 * y + x: "1" for y in range(4, 48, 4) for x in range(50) if x not in ((2, 3) if y % 8 else (46, 47))}
    tiles |= {50 * y + x: "2" for y in range(1, 49) for x in range(1, 49) if 50 * y + x not in tiles and (x * 7 + y * 3) % 5 < 2}
    tiles |= {50 * y + x: "1" for x in (0, 49) for y in range(50) if y != 46}
    tiles |= {50 * y + x: "1" for y in (0, 49) for x in range(50)}
    roads = [thing("road", 3 + at, x, 2, timer=900) for at, x in enumerate(range(10, 20))]
    # (of the two tiles of a gap one is taken by what obstructs, and in others there is what doesn't)
    taken = [("extension", 3, 4), ("spawn", 46, 8), ("storage", 2, 12), ("controller", 47, 16), ("container", 2, 20), ("container", 3, 20)]
    owned = {"extension": {"owner": 1}, "spawn": {"owner": 1}, "storage": {"owner": 1}, "container": {"timer": 9}, "controller": {}}
    blocks = [thing(kind, 13 + at, x, y, **owned[kind]) for at, (kind, x, y) in enumerate(taken)]
    creep = thing("creep", 1, 3, 2, owner=1, body=["work", "carry"] + ["move"] * 9, energy=50, timer=1500)
    first = {"name": "W1S5", "terrain": grounds(tiles), "next": 30, "objects": [creep, thing("source", 2, 30, 2, energy=9), *roads, *blocks]}
    other = {"name": "W0S5", "terrain": grounds(tiles), "next": 30, "objects": [thing("source", (1 << 32) + 1, 5, 14, energy=9)]}
    return {"version": 1, "tick": 9, "rooms": [first, other], "players": [{"player": 1, "limit": 25}]}


def check_walker(name, module):
    """What the module does is what players/walker.c says."""
    file = sample(WALK)
    check_walk(f"{name} in worlds/walk.json", file, module, 130, 2, 8)
    check_walk(f"{name} with a budget that is saved", {**file, "players": [{"player": 1, "limit": 4, "bucket": 1}]}, module, 160, 2, 4)
    check_walk(f"{name} with a budget for some tiles", {**file, "players": [{"player": 1, "limit": 9}]}, module, 120, 2, 4)
    check_walk(f"{name} round a creep", in_the_way(), module, 60, 2, 4)
    check_walk(f"{name} to the one tile that leads on", narrow_exit(), module, 60, 2, 3)
    check_walk(f"{name} to a border that is taken", beyond_the_border(), module, 50, 2, 6)
    check_walk(f"{name} beside a gap at the border", along_the_border(), module, 40, 1, 1)
    check_walk(f"{name} in a maze", maze(), module, 960, 1, 3)


# ---- players who fight: what they strike and heal is written anew here, and their ways are judged by what they cost


def may_step(one):
    return one["extra"] == 0 and live(one, "move") > 0


def nearest(one, others, most):
    """The first of those that are nearest to an object, and so far away at most."""
    near = [it for it in others if distance(it, one) <= most]
    return min(near, key=lambda it: (distance(it, one), it["id"]), default=None)


class Guard:
    """What players/guard.c wants in a tick: its calls but for moves are made at the desk, and of each guard that has to walk there is where to."""

    def __init__(self, world, player):
        self.world, self.player, self.desk, self.goals = world, player, Desk(world, player), {}
        self.seen = self.desk.objects
        guards = [(index, one) for index, one in self.seen if self.is_own(one, "creep") and any(live(one, it) for it in ("attack", "ranged_attack", "heal"))]
        for index, one in guards:
            self.fight(index, one)
        spawn = next(((index, one) for index, one in self.seen if self.is_own(one, "spawn")), None)
        if spawn:
            foe = nearest(spawn[1], self.foes(spawn[0]), 12)
            for index, one in guards:
                if index == spawn[0] and may_step(one):
                    self.walk(one, foe or spawn[1], 2 if foe is None or not live(one, "attack") else 1)

    def is_own(self, one, kind):
        return one["kind"] == kind and one["owner"] == self.player

    def foes(self, index):
        return [it for other, it in self.seen if other == index and it["kind"] == "creep" and it["owner"] != self.player]

    def fight(self, index, one):
        foe = nearest(one, self.foes(index), 3)
        hurt = [it for other, it in self.seen if other == index and self.is_own(it, "creep") and distance(it, one) <= 3 and it["hits"] < hits_max(it)]
        strikes = foe is not None and self.desk.acted("attack", one["id"], foe["id"]) == 0
        if hurt and not strikes:
            most = min(hurt, key=lambda it: (it["hits"] - hits_max(it), it["id"]))
            self.desk.acted("heal" if distance(most, one) <= 1 else "ranged_heal", one["id"], most["id"])
        if foe:
            self.desk.acted("ranged_attack", one["id"], foe["id"])

    def walk(self, one, goal, most):
        if distance(one, goal) > most:
            self.goals[one["id"]] = around(goal, most)


class Raider:
    """What players/raider.c wants in a tick, in the same way."""

    def __init__(self, world, player):
        self.world, self.player, self.desk, self.goals = world, player, Desk(world, player), {}
        for index, one in self.desk.objects:
            if one["kind"] == "creep" and one["owner"] == player:
                self.raid(index, one)

    def raid(self, index, one):
        prey = [it for it in self.world["rooms"][index]["objects"] if it["kind"] in ("creep", "spawn", "extension", "storage") and it["owner"] != self.player]
        found = nearest(one, prey, 49)
        if found:
            self.desk.acted("attack", one["id"], found["id"])
            self.desk.acted("ranged_attack", one["id"], found["id"])
        if may_step(one):
            self.goals[one["id"]] = around(found) if found else side_exits(self.world, self.world["rooms"][index], 0, self.player)


# On plain ground fewer than 1,000 tiles are nearer to a goal than one from which the way costs so much.
FOUND_BY_ALL = 24


def step_faults(world, index, creep, goals, direction, all_walk):
    """What is wrong of a creep's step to goals: it has to lie on a cheapest way round the other creeps. Where the budget is enough for all, each that
    has one which doesn't cost too much to be found takes it."""
    place, tile = world["rooms"][index], (creep["x"], creep["y"])
    others = {(one["x"], one["y"]) for one in place["objects"] if one["kind"] == "creep"} - {tile}
    least = least_costs(place, goals, others)
    if direction is None:
        stays = all_walk and 0 < least.get(tile, 0) <= FOUND_BY_ALL
        return [f"creep {creep['id']} stays at {tile}, from where a way costs {least[tile]}"] if stays else []
    to = stepped(tile, direction)
    if least.get(tile) and to in least and least[to] + pace(place, to) == least[tile]:
        return []
    return [f"creep {creep['id']} steps from {tile} to {to}, from where ways cost {least.get(tile)} and {least.get(to)}"]


def tick_fight_faults(world, run, wanted, all_walk):
    """What is another in a run than a sample player wants."""
    faults, fights = [], {key: it for key, it in run.entries.items() if key[0] != "move"}
    if fights != wanted.desk.entries:
        faults.append(f"before tick {world['tick'] + 1} player {run.player} wants {fights} and not {wanted.desk.entries}")
    moves = {id: direction for (name, id), (_, direction) in run.entries.items() if name == "move"}
    faults += [f"creep {id} has no reason to walk" for id in moves if id not in wanted.goals]
    for index, one in wanted.desk.objects:
        if one["id"] in wanted.goals:
            faults += step_faults(world, index, one, wanted.goals[one["id"]], moves.get(one["id"]), all_walk)
    return faults


def check_fight(name, file, players, ticks, least, all_walk=True):
    """Players fight: each is a number, what it should want, and a module. So many strikes, shots, heals and steps there are at least."""
    if MODEL:
        note(name, *world_faults(file, []))
        return
    modules = [(number, module) for number, _, module in players]
    found = ran(name, file, modules, ticks)
    if not found:
        return
    steps = steps_in(file, modules, found[1])
    faults, before, counts = [], full(file), dict.fromkeys(ACTIONS, 0)
    for step in steps:
        for run, (number, wants, _) in zip(step.runs, players):
            faults += tick_fight_faults(before, run, wants(before, number), all_walk)
            for action, _ in run.entries:
                counts[action] += 1
        before = step.world
    few = [f"{action}: {counts[action]} times, and not {most}" for action, most in least.items() if counts[action] < most]
    note(name, *journal_run_faults(file, steps, found), *faults[:20], *few)


def brawl(limit=500):
    """A room with walls and swamp in which fighters of two players stand about, some hurt and some with parts of all sorts, round a spawn of each."""
    draw = random.Random(5)
    tiles = [(x, y) for x in range(14, 34) for y in range(14, 34)]
    draw.shuffle(tiles)
    ground = {50 * y + x: draw.choice("0122") for x, y in tiles[60:160]}
    bodies = ["tough attack move move", "tough tough attack attack heal move move move", "ranged_attack heal move move", "heal heal move", "ranged_attack ranged_attack move", "carry carry move"]
    objects = [thing("spawn", 1, *tiles[0], owner=1, energy=100, hits=900), thing("spawn", 2, *tiles[1], owner=2, energy=250, hits=700), thing("extension", 3, *tiles[2], owner=1, energy=20, hits=90)]
    for serial, tile in enumerate(tiles[3:19], 4):
        body = bodies[serial % 12 // 2].split()
        hits = draw.choice((100 * len(body), draw.randint(1, 100 * len(body))))
        objects.append(thing("creep", serial, *tile, owner=1 + serial % 2, body=body, hits=hits, timer=draw.choice((9, 1500))))
    room = {"name": "E4S4", "terrain": grounds(ground), "next": 60, "objects": objects}
    return {"version": 1, "tick": 3, "rooms": [room], "players": [{"player": 1, "limit": limit, "bucket": limit}, {"player": 2, "limit": limit, "bucket": limit}]}


def check_fights(guard, raider, which):
    """What these modules do is what players/guard.c and players/raider.c say."""
    sides = [(1, Guard, guard), (2, Raider, raider)]
    check_fight(f"{which} in worlds/fight.json", sample(FIGHT), sides, 40, {"attack": 20, "heal": 15, "ranged_heal": 1, "ranged_attack": 8, "move": 40})
    check_fight(f"{which} in a brawl", brawl(), sides, 12, {"attack": 10, "heal": 5, "ranged_heal": 5, "ranged_attack": 5, "move": 40})
    others = [(1, Raider, raider), (2, Guard, guard)]
    check_fight(f"{which} in a brawl, the other way round", brawl(), others, 12, {"attack": 5, "heal": 5, "ranged_heal": 5, "ranged_attack": 5, "move": 40})
    check_fight(f"{which} in a brawl with a budget for some ways", brawl(60), sides, 8, {"attack": 5, "move": 10}, all_walk=False)


CHECKS = {"dropper": check_dropper, "dropping": check_dropper, "harvester": check_harvester, "walker": check_walker}
FIGHTERS = ("guard", "raider")
IN_CPP = ("dropping",)


def text_file_of(player):
    return f"{player}.cpp" if player in IN_CPP else f"{player}.c"


def check_accepted(name, path):
    """The program accepts the module of a file."""
    if MODEL:
        return
    with tempfile.TemporaryDirectory() as folder:
        note(name, differ("said", served(["check", path], folder), (0, "accepted\n", "")))


def check_samples():
    for player in (*CHECKS, *FIGHTERS):
        path = os.path.join(PLAYERS, f"{player}.wasm")
        check_accepted(f"players/{player}.wasm is accepted", path)
        size = os.path.getsize(path)
        note(f"players/{player}.wasm is small", None if size < 6144 else f"{size} bytes")
    for player, check in CHECKS.items():
        check(f"players/{player}.wasm", bytes_of(f"players/{player}.wasm"))
    check_fights(*[bytes_of(f"players/{player}.wasm") for player in FIGHTERS], "players/guard.wasm and players/raider.wasm")


# ---- the sample players, built anew

# A player that calls each of the calls of the header, so that the module imports each with its type.
ALL_CALLS = """#include "screeps.h"
static char text[64];
void loop(void) {
    long long sum = screeps_tick() + screeps_me() + screeps_allowance() + screeps_bucket() + screeps_points() + screeps_level();
    sum += screeps_rooms() + screeps_room(0) + screeps_room_name(0) + screeps_terrain(0, 1, 2) + screeps_count();
    sum += screeps_find(1) + screeps_get(0, FIELD_ID) + screeps_memory_length() + screeps_memory_read(text);
    text[0] = (char)sum;
    screeps_memory_write(text, sizeof text);
    screeps_drop(1, 0);
    sum += screeps_transfer(1, 2, 0) + screeps_withdraw(1, 2, 0) + screeps_pickup(1, 2);
    sum += screeps_heal(1, 2) + screeps_ranged_heal(1, 2) + screeps_dismantle(1, 2) + screeps_attack(1, 2);
    sum += screeps_harvest(1, 2) + screeps_repair(1, 2) + screeps_build(1, 2);
    sum += screeps_ranged_mass_attack(1) + screeps_ranged_attack(1, 2) + screeps_suicide(1) + screeps_upgrade(1, 2);
    sum += screeps_claim_controller(1, 2) + screeps_reserve(1, 2) + screeps_attack_controller(1, 2);
    sum += screeps_create_site(0, 1, 2, KIND_ROAD) + screeps_remove_site(1) + screeps_spawn_creep(1, text, 3);
    sum += screeps_move(1, DIRECTION_TOP_LEFT);
}
"""


# What a compiler turns into calls of memcpy and memset, with the other two called by name.
MEMORY = """#include "screeps.h"
void *memmove(void *to, const void *from, __SIZE_TYPE__ length);
int memcmp(const void *one, const void *other, __SIZE_TYPE__ length);
struct big { unsigned char bytes[300]; };
static struct big first, second;
static unsigned char told[1400];
void loop(void) {
    int zeros[200] = {0};
    unsigned char counted[20];
    int count = screeps_count();
    for (int at = 0; at < 300; at++) first.bytes[at] = (unsigned char)(at * 7 + count);
    second = first;
    struct big third = second;
    third.bytes[count] = 0;
    zeros[count] = 77;
    for (int at = 0; at < 20; at++) counted[at] = (unsigned char)at;
    memmove(counted + 3, counted, 10);
    memmove(counted, counted + 5, 10);
    for (int at = 0; at < 300; at++) told[at] = second.bytes[at], told[300 + at] = third.bytes[at];
    for (int at = 0; at < 200; at++) *(int *)(told + 600 + 4 * at) = zeros[at];
    told[1] = (unsigned char)(2 + memcmp(&first, &second, 300));
    told[2] = (unsigned char)(2 + memcmp(&third, &second, 300));
    told[3] = (unsigned char)(2 + memcmp(&second, &third, 300));
    memmove(told + 4, counted, 20);
    screeps_memory_write(told, sizeof told);
}
"""


def memory_told(count):
    """The memory text that it leaves where so many objects are seen."""
    first = bytes((at * 7 + count) % 256 for at in range(300))
    third = bytearray(first)
    third[count] = 0
    counted = list(range(20))
    counted[3:13] = counted[0:10]
    counted[0:10] = counted[5:15]
    told = bytearray(first + third + b"".join(struct.pack("<i", 77 if at == count else 0) for at in range(200)))
    told[1:4] = 2, 1, 3
    told[4:24] = bytes(counted)
    return bytes(told)


# More that is static than a page holds.
LARGE = """#include "screeps.h"
static char text[200000];
void loop(void) {
    screeps_memory_read(text);
    screeps_memory_write(text + 130000, 3);
}
"""


def built(source, module, script=os.path.join(PLAYERS, "build.sh")):
    words = [script, source] if module is None else [script, source, module]
    done = subprocess.run(words, stdin=subprocess.DEVNULL, capture_output=True, timeout=120)
    said = (done.stdout + done.stderr).decode()
    note(f"{os.path.basename(source)} is built", differ("status", done.returncode, 0), differ("said", said, ""))
    return done.returncode == 0


def check_documented(folder, module):
    """The command that docs/players.md has for clang makes the same module as players/build.sh."""
    lines = text_of("docs/players.md").splitlines()
    first = next(at for at, line in enumerate(lines) if line.startswith("    clang "))
    last = next(at for at in range(first, len(lines)) if not lines[at].endswith("\\"))
    words = shlex.split(" ".join(line.strip().removesuffix("\\") for line in lines[first : last + 1]))
    shutil.copytree(PLAYERS, os.path.join(folder, "players"), ignore=shutil.ignore_patterns("out"))
    os.mkdir(os.path.join(folder, "players/out"))
    done = subprocess.run(words, cwd=folder, stdin=subprocess.DEVNULL, stdout=subprocess.PIPE, stderr=subprocess.STDOUT, timeout=120)
    note("the documented command for clang", differ("said", (done.returncode, done.stdout), (0, b"")))
    if done.returncode == 0:
        note("the module of the documented command", differ("module", bytes_of(folder, words[-1]), bytes_of(module)))
    # (without a second word the module comes into the folder that is not tracked, and nothing else is changed)
    before = sorted(os.listdir(os.path.join(folder, "players")))
    os.remove(os.path.join(folder, words[-1]))
    os.rmdir(os.path.join(folder, "players/out"))
    if built(os.path.join(folder, "players/dropper.c"), None, os.path.join(folder, "players/build.sh")):
        note("the module comes into players/out", differ("module", bytes_of(folder, words[-1]), bytes_of(module)))
        note("nothing else is made", differ("files", sorted(os.listdir(os.path.join(folder, "players"))), before))


def documented(path, line):
    """The lines of an indented block of a document, from this line on."""
    lines = text_of(path).splitlines()
    first = lines.index(f"    {line}")
    last = next(at for at in range(first, len(lines)) if lines[at] and not lines[at].startswith("    "))
    return [line[4:] for line in lines[first:last]]


def documented_player():
    """The text of the player that docs/players.md has for the path finder."""
    return "".join(f"{line}\n" for line in documented("docs/players.md", '#include "path.h"'))


def check_logged(folder):
    """The player of docs/faq.md who keeps a log, and what its journal shows."""
    module = built_text(folder, "logged", "".join(f"{line}\n" for line in documented("docs/faq.md", '#include "screeps.h"')))
    command, *lines = documented("docs/faq.md", "players/show_run.py logged.journal 1 1")
    if not module or MODEL:
        return
    found = ran("the player of docs/faq.md is run", sample(WORLD), [(1, bytes_of(module))], 1, "trapped")
    if found:
        with open(os.path.join(folder, command.split()[1]), "wb") as it:
            it.write(found[1])
        shower = os.path.join(TOP, command.split()[0])
        done = subprocess.run([sys.executable, shower, *command.split()[1:]], cwd=folder, stdin=subprocess.DEVNULL, capture_output=True, timeout=60)
        said = (done.returncode, done.stdout.decode(), done.stderr.decode())
        note("what docs/faq.md says of its log", differ("said", said, (0, "".join(f"{line}\n" for line in lines if line), "")))


def built_text(folder, name, text, suffix="c"):
    """A player of this text, or None where it isn't built."""
    source, module = os.path.join(folder, f"{name}.{suffix}"), os.path.join(folder, f"{name}.wasm")
    with open(source, "w", encoding="utf-8") as it:
        it.write(text)
    return module if built(source, module) else None


def section_of(module, wanted):
    """The content of a section of this number, which is shorter than 128 bytes, or None."""
    at = 8
    while at < len(module):
        kind, length, shift = module[at], 0, 0
        while True:
            at += 1
            length, shift = length | (module[at] & 127) << shift, shift + 7
            if module[at] < 128:
                break
        if kind == wanted:
            return module[at + 1 : at + 1 + length]
        at += 1 + length
    return None


def check_layout(module):
    """The stack of 8 KiB stands at the beginning of the memory, which has four pages for what is static behind it."""
    note("the memory is as large as it has to be", differ("memory", section_of(module, 5), b"\1\0\4"))
    # (the first global is the stack's end: i32, set by the module, from 8,192 on)
    note("the stack comes first", differ("global", section_of(module, 6)[:7], b"\1\x7f\1\x41\x80\xc0\0"))


def imports_of(module):
    """The imports of a module: module name, name, and the types of the function."""
    at, types, imports = 8, [], []

    def number():
        nonlocal at
        value, shift = 0, 0
        while True:
            byte = module[at]
            at, value, shift = at + 1, value | (byte & 127) << shift, shift + 7
            if byte < 128:
                return value

    def some(count):
        nonlocal at
        at += count
        return module[at - count : at]

    def kinds():
        return [{0x7F: "I32", 0x7E: "I64"}[it] for it in some(number())]

    while at < len(module):
        kind, length = some(1)[0], number()
        end = at + length
        if kind == 1:
            for _ in range(number()):
                some(1)
                types.append((kinds(), kinds()))
        if kind == 2:
            for _ in range(number()):
                names = [some(number()).decode() for _ in range(2)]
                some(1)
                params, results = types[number()]
                imports.append((*names, params, results))
        at = end
    return imports


def check_built_fighters(folder):
    """The two who fight, built anew."""
    modules = [os.path.join(folder, f"{player}.wasm") for player in FIGHTERS]
    if not all(built(os.path.join(PLAYERS, f"{player}.c"), module) for player, module in zip(FIGHTERS, modules)):
        return
    found = [bytes_of(module) for module in modules]
    if found != [bytes_of(f"players/{player}.wasm") for player in FIGHTERS]:
        for module in modules:
            check_accepted(f"{os.path.basename(module)}, built anew, is accepted", module)
        check_fights(*found, "players/guard.c and players/raider.c, built anew,")


def check_built(folder):
    for player, check in CHECKS.items():
        module = os.path.join(folder, f"{player}.wasm")
        if built(os.path.join(PLAYERS, text_file_of(player)), module):
            # (as another clang makes it, it may be another module that does the same)
            if bytes_of(module) != bytes_of(f"players/{player}.wasm"):
                check_accepted(f"players/{text_file_of(player)}, built anew, is accepted", module)
                check(f"players/{text_file_of(player)}, built anew,", bytes_of(module))
            if player == "dropper":
                check_documented(folder, module)
    check_built_fighters(folder)
    called = set(re.findall(r"screeps_(\w+)\(", ALL_CALLS))
    note("each call of the header is called", differ("calls", called, {name for name, _, _ in defined_calls()}))
    for suffix, language in (("c", "C"), ("cpp", "C++")):
        module = built_text(folder, f"all_calls_of_{suffix}", ALL_CALLS, suffix)
        if module:
            check_accepted(f"a player in {language} with every call of the header is accepted", module)
            wanted = [("screeps", name, params, [answer]) for name, params, answer in defined_calls()]
            note(f"its imports in {language}", differ("imports", sorted(imports_of(bytes_of(module))), sorted(wanted)))
    built_text(folder, "documented_in_cpp", documented_player(), "cpp")
    module = built_text(folder, "large", LARGE)
    if module:
        check_accepted("a player with 200,000 bytes that are static is accepted", module)
        check_layout(bytes_of(module))
    module = built_text(folder, "documented", documented_player())
    if module:
        check_accepted("the player of docs/players.md that finds its way is accepted", module)
        check_walk("the player of docs/players.md that finds its way", along_the_border(), bytes_of(module), 40, 1, 1)
    check_logged(folder)
    module = built_text(folder, "memory", MEMORY)
    if module:
        check_accepted("a player that copies structs and fills arrays is accepted", module)
        check_told("what it copied and filled", bytes_of(module))


def check_told(name, module):
    """The memory text of player 1 after a tick of worlds/one_player.json."""
    file = sample(WORLD)

    def tells(desk):
        desk.text = memory_told(len(objects_of(file)))

    check_run(name, file, 1, module, 1, tells)


def main():
    if not MODEL and not os.path.isfile(PROGRAM):
        sys.exit(f"{os.path.relpath(__file__)}: there is no {os.path.relpath(PROGRAM)}: `rt ci` builds it")
    check_header()
    check_tables()
    with tempfile.TemporaryDirectory() as folder:
        check_streams(folder)
    check_samples()
    if shutil.which("clang") and shutil.which("wasm-ld"):
        with tempfile.TemporaryDirectory() as folder:
            check_built(folder)
    else:
        print(f"{os.path.relpath(__file__, TOP)}: the sample players are not built anew, since clang and wasm-ld are not both installed")
    print(f"{os.path.relpath(__file__, TOP)}:")
    print(f"{passed} passed, {failures} failed")
    sys.exit(1 if failures else 0)


main()
