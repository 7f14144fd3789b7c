"""Rooms whose tick is worked out by hand, for the checks: many of them in one world, which both the program and oracle/game.py have to meet."""

import struct

import compared_runs
from game import ACTIONS, SECOND, thing
from scripts import Table
from worlds import Upload, account_of, full, objects_of, room, world

FIRST_NEW = 20
MIDDLE, EAST, WEST, NORTH, SOUTH = (10, 10), (11, 10), (9, 10), (10, 9), (10, 11)


# ---- objects, by their serials


def parts(text):
    """The parts of a body, as `work*3 carry`."""
    found = []
    for word in text.split():
        part, _, count = word.partition("*")
        found += [part] * int(count or 1)
    return found


def creep(serial, x, y, body, owner=1, **fields):
    """A creep that was just made."""
    body = parts(body)
    return thing("creep", serial, x, y, **{"owner": owner, "body": body, "timer": 600 if "claim" in body else 1500, "energy": 0, **fields})


def container(serial, x, y, **fields):
    return thing("container", serial, x, y, **{"timer": 9, "energy": 0, **fields})


def controller(owner=0, level=0, timer=0, serial=1, **fields):
    return thing("controller", serial, *MIDDLE, owner=owner, extra=level, timer=timer, **fields)


def reserved(player, ticks, serial=1):
    return controller(serial=serial, other=player, other_ticks=ticks)


def source(serial, x, y, **fields):
    return thing("source", serial, x, y, **{"energy": 1500, **fields})


# ---- a room and its tick


class Case:
    """A room whose tick is worked out by hand. Ids are the serials of the room.

    A call is a player, its name, its arguments (of create_site without the room), and its answer. After the tick the named fields have these values, some objects are gone,
    and new ones stand there, from serial 20 on. All else is as it was, but the timers of creeps, containers, roads and owned controllers are less
    by 1, and so are the ticks of reservations. Where some new ones are gone again, `made` is how many there were. `gains` has the points that
    players get in it, and `terrain` is plain where it isn't told."""

    def __init__(self, name, objects, calls, after=(), gone=(), new=(), made=None, gains=(), terrain=None):
        self.name, self.objects, self.calls, self.gains, self.terrain = name, objects, calls, dict(gains), terrain
        self.after, self.gone, self.new = dict(after), gone, list(new)
        self.made = len(self.new) if made is None else made


def with_ids(index, one):
    return {**one, "id": index * SECOND + one["id"]}


def called(index, call):
    """A call with ids in place of serials. One for a site is for a tile of the case's room."""
    name, *arguments = call
    if ACTIONS[name].actor == "tile":
        return (name, index, *arguments)
    ids = 2 if ACTIONS[name].targets else 1
    return (name, *[index * SECOND + it for it in arguments[:ids]], *arguments[ids:])


def expected(index, case):
    """The objects after the tick, by their ids."""
    before = full(world(room("E0S0", FIRST_NEW, *case.objects)))["rooms"][0]["objects"]
    for one in before:
        is_owned = one["kind"] == "controller" and one["owner"] > 0
        one["timer"] -= is_owned or one["kind"] in ("creep", "container", "road")
        one["other_ticks"] -= one["other"] > 0
    new = full(world(room("E0S0", FIRST_NEW, *case.new)))["rooms"][0]["objects"]
    objects = [{**one, **case.after.get(one["id"], {})} for one in before if one["id"] not in case.gone]
    return [with_ids(index, one) for one in objects + new]


def case_faults(index, case, place):
    """What differs in a room from what was worked out."""
    found, faults = {one["id"]: one for one in place["objects"]}, []
    for one in expected(index, case):
        got = found.pop(one["id"], None)
        if got is None:
            faults.append(f"{one['kind']} {one['id'] % SECOND} is not there")
        elif got != one:
            faults += [f"{field} of {one['kind']} {one['id'] % SECOND} is {got[field]} and not {one[field]}" for field in one if got[field] != one[field]]
    faults += [f"{one['kind']} {one['id'] % SECOND} is there" for one in found.values()]
    if place["next"] != FIRST_NEW + case.made:
        faults.append(f"next is {place['next']} and not {FIRST_NEW + case.made}")
    return faults


def answers_of(step, number, count):
    """The answers that the table of a player left in a tick."""
    return struct.unpack(f"<{count}q", bytes.fromhex(account_of(step.world, number)["memory"]))


def points_after(first, cases, number):
    """The points of a player after the tick."""
    return account_of(full(first), number)["points"] + sum(case.gains.get(number, 0) for case in cases)


def room_of(index, *objects, next=FIRST_NEW, terrain=None):
    """A room in rows of 100 that don't touch each other. The ids of its objects are serials."""
    return room(f"E{index % 100}S{2 * (index // 100)}", next, *[with_ids(index, one) for one in objects], terrain=terrain)


def check_cases(checks, name, cases, players):
    """All rooms in one run."""
    rooms = [room_of(index, *case.objects, terrain=case.terrain) for index, case in enumerate(cases)]
    first = world(*rooms, players=players)
    calls = {one["player"]: [] for one in players}
    for index, case in enumerate(cases):
        for by, *call, answer in case.calls:
            calls[by].append((called(index, call), answer, case))
    uploads = [Upload(0, number, Table([call for call, _, _ in listed])) for number, listed in calls.items()]
    failed = checks.failed
    steps = compared_runs.play(checks, name, first, 2, uploads)
    if checks.failed > failed:
        print("    where " + "; ".join(f"room {index} is: {case.name}" for index, case in enumerate(cases)))
    after = steps[0].world
    for number, listed in calls.items():
        answers = answers_of(steps[0], number, len(listed))
        for (call, wanted, case), got in zip(listed, answers):
            checks.note(f"{case.name}: a call of player {number}", [] if got == wanted else [f"{call} answered {got} and not {wanted}"])
    for index, case in enumerate(cases):
        checks.note(case.name, case_faults(index, case, after["rooms"][index]))
    for number in calls:
        got, wanted = account_of(after, number)["points"], points_after(first, cases, number)
        checks.note(f"{name}: the points of player {number}", [] if got == wanted else [f"{got} and not {wanted}"])


# ---- calls of several ticks


class Turn:
    """The calls of a player in a tick, each with its answer, and what the module has besides."""

    def __init__(self, player, *calls, **others):
        self.player, self.calls, self.table = player, calls, Table([call for *call, _ in calls], **others)


def check_turns(checks, name, first, *turns, fields=None, said=None):
    """A world in which players call in the ticks from 0 on. After the last tick the fields of objects have these values."""
    placed = [(tick, turn) for tick, row in enumerate(turns) for turn in row]
    steps = compared_runs.play(checks, name, first, len(turns), [Upload(tick, turn.player, turn.table) for tick, turn in placed], said)
    faults = []
    for tick, turn in placed:
        answers = answers_of(steps[tick], turn.player, len(turn.calls))
        faults += [f"tick {tick}: {call} answered {got} and not {wanted}" for (*call, wanted), got in zip(turn.calls, answers) if got != wanted]
    after = {one["id"]: one for one in objects_of(steps[-1].world)}
    for id, wanted in (fields or {}).items():
        faults += [f"{field} of {id} is {after[id][field]} and not {value}" for field, value in wanted.items() if after[id][field] != value]
    checks.note(f"{name}: answers and fields", faults)
    return steps
