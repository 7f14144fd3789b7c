"""Runs worlds with players in the built program, and says what differs from what oracle/scripts.py and oracle/worlds.py make of them: which
call answered what, and which field of which object is another."""

import struct

from checked_program import faults_of, file_faults
from game import ACTIONS, KINDS
from rules import broken
from scripts import Table
from worlds import bytes_of, contents_of, journal_of, output_of, played, read_tick, stream_of

ACTION_NAMES = {action.number: name for name, action in ACTIONS.items()}
OBJECT_FIELDS = ("id", "kind", "x", "y", "owner", "hits", "energy", "timer", "extra", "progress", "other", "other_ticks", "body")


# ---- tables of calls, which keep their answers


def tables_at(uploads, tick):
    """The tables of calls that run in the tick after this one, by player."""
    modules = {}
    for upload in uploads:
        if upload.tick <= tick and upload.module.refusal is None:
            modules[upload.player] = upload.module
    return {player: module for player, module in modules.items() if isinstance(module, Table)}


def answers_in(step, tables):
    """How many answers of tables stand in the memory texts after a tick."""
    return sum(len(tables[run.player].listed) for run in step.runs if run.player in tables and run.outcome == "finished")


def answer_faults(tick, player, table, got, wanted):
    faults = []
    for place, (name, *arguments) in enumerate(table.listed):
        one, other = got[8 * place : 8 * place + 8], wanted[8 * place : 8 * place + 8]
        if one != other:
            answers = [struct.unpack("<q", it)[0] if len(it) == 8 else None for it in (one, other)]
            faults.append(f"tick {tick} player {player}: {name}{tuple(arguments)} answered {answers[0]} and not {answers[1]}")
    return faults


# ---- what differs


def brief(value):
    shown = repr(value)
    return shown if len(shown) < 240 else shown[:240] + f".. ({len(shown)})"


def named_entry(entry):
    action, actor, target, amount, body = entry
    return f"{ACTION_NAMES.get(action, action)} of {actor}, target {target}, amount {amount}{f', body {body.hex()}' if body else ''}"


def named_object(one):
    return f"{KINDS[one[1] - 1]} {one[0]} at {one[2]}, {one[3]} with energy {one[6]}"


def run_faults(where, got, wanted):
    """What differs in two runs of a player, entry by entry."""
    if got[:4] != wanted[:4]:
        return [f"{where}, run: {brief(got[:4])} and not {brief(wanted[:4])} (player, outcome, trap, used)"]
    ours, theirs = ({entry[:2]: entry for entry in run[4]} for run in (wanted, got))
    faults = [f"{where} player {got[0]}: no entry {named_entry(ours[key])}" for key in ours if key not in theirs]
    faults += [f"{where} player {got[0]}: an entry more, {named_entry(theirs[key])}" for key in theirs if key not in ours]
    both = [key for key in ours if key in theirs and ours[key] != theirs[key]]
    faults += [f"{where} player {got[0]}: the entry {named_entry(theirs[key])} and not {named_entry(ours[key])}" for key in both]
    return faults or [f"{where} player {got[0]}: the entries stand in another order"]


def room_faults(where, got, wanted):
    """What differs in two forms of a room, field by field."""
    where, faults = f"{where} room {wanted[0]}", []
    if got[0] != wanted[0]:
        return [f"{where}: it is room {got[0]}"]
    if got[1] != wanted[1]:
        faults.append(f"{where}: next is {got[1]} and not {wanted[1]}")
    ours, theirs = ({one[0]: one for one in room[2]} for room in (wanted, got))
    faults += [f"{where}: {named_object(one)} is not there" for id, one in ours.items() if id not in theirs]
    faults += [f"{where}: {named_object(one)} is there" for id, one in theirs.items() if id not in ours]
    for id in sorted(ours.keys() & theirs.keys()):
        for field, one, other in zip(OBJECT_FIELDS, theirs[id], ours[id]):
            if one != other:
                faults.append(f"{where}: {field} of {KINDS[ours[id][1] - 1]} {id} is {brief(one)} and not {brief(other)}")
    return faults or [f"{where}: the objects stand in another order"]


def tick_faults(got, wanted, tables):
    """What differs in two contents of a tick."""
    try:
        got = read_tick(got)
    except (struct.error, IndexError) as it:
        return [f"a tick of the journal can't be read: {it}"]
    wanted, faults = read_tick(wanted), []
    tick = wanted["tick"]
    for one, other in zip(got["accounts"], wanted["accounts"]):
        if one[:4] == other[:4] and other[0] in tables:
            faults += answer_faults(tick, other[0], tables[other[0]], one[4], other[4])
            wanted["accounts"][wanted["accounts"].index(other)] = one
    for part, other in wanted.items():
        one = got[part]
        if one == other:
            continue
        if part not in ("uploads", "runs", "accounts", "rooms") or len(one) != len(other):
            faults.append(f"tick {tick}, {part}: {brief(one)} and not {brief(other)}")
            continue
        for found, want in zip(one, other):
            if found != want and part in ("runs", "rooms"):
                faults += {"runs": run_faults, "rooms": room_faults}[part](f"tick {tick}", found, want)
            elif found != want:
                faults.append(f"tick {tick}, {part}: {brief(found)} and not {brief(want)}")
    return faults


def journal_faults(first, uploads):
    """Compares journals content by content."""

    def compare(path, got, wanted):
        if path != "journal.bin" or got == wanted:
            return file_faults(path, got, wanted)
        faults, tick = [], first["tick"]
        ours, theirs = contents_of(wanted), contents_of(got)
        if len(ours) != len(theirs):
            faults.append(f"{len(theirs)} frames and not {len(ours)}")
        for place, (one, other) in enumerate(zip(theirs, ours)):
            if one != other and place == 0:
                faults.append(f"the base differs from byte {next((at for at, (a, b) in enumerate(zip(one, other)) if a != b), min(len(one), len(other)))} on")
            elif one != other:
                faults += tick_faults(one, other, tables_at(uploads, tick + place - 1))
        return faults or file_faults(path, got, wanted)

    return compare


# ---- a run


def world_faults(first, steps):
    """The rules that a world breaks, before the run or after some tick."""
    faults = [f"before the run: {it}" for it in broken(first)]
    return faults + [f"after tick {step.world['tick']}: {it}" for step in steps for it in broken(step.world)]


def play(checks, name, first, ticks, uploads, said=None, asked=None, status=0, err=b"", stream=None, steps=None):
    """A run of a world with these uploads: `said` are its lines as they have to be, `asked` how many ticks it is told to make. The steps may
    be known. Where the checks have no program, it is only seen that the worlds keep the rules."""
    steps = steps or played(first, ticks, uploads)
    out = output_of(first, steps)
    words = ["run", "world.json", "uploads.bin", "journal.bin", "--ticks", str(ticks if asked is None else asked)]
    files = {"world.json": bytes_of(first), "uploads.bin": stream_of(uploads) if stream is None else stream}
    after = {"journal.bin": journal_of(first, steps)}
    if checks.has_program:
        faults = faults_of(words, files, status, out, err, after, compare=journal_faults(first, uploads))
    else:
        faults = world_faults(first, steps)
    if said is not None and out.decode().splitlines() != said:
        faults.append(f"the lines of the check are {out.decode().splitlines()} and not {said}")
    checks.note(name, faults, 1 + sum(answers_in(step, tables_at(uploads, step.world["tick"] - 1)) for step in steps))
    return steps


def replay(checks, name, first, steps):
    """A replay of the journal of a run, as oracle/worlds.py writes it: the program rules each tick of it again, the whole world at once."""
    if checks.has_program:
        files = {"journal.bin": journal_of(first, steps)}
        checks.note(f"the replay of {name}", faults_of(["replay", "journal.bin"], files, 0, f"replayed {len(steps)}\n".encode()))
