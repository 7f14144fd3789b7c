#!/usr/bin/env python3
"""Checks the scripts that show journals and world files: players/show_room.py, players/show_run.py and worlds/check_world.py.

It runs behind `rt ci`, which builds crates/world_server/out/world_server; the environment variable WORLD_SERVER names another build. What the first
two print is compared with lines that were worked out by hand for worlds of few objects, whose ticks come from oracle/worlds.py, and, for a journal
that the program wrote, with what oracle/worlds.py reads in it. worlds/check_world.py has to name the fault of each world file of
checks/world_files.py, which that script holds against the program, and of others that are drawn here, which the program is asked about.
"""

import ast
import copy
import json
import os
import random
import re
import subprocess
import sys
import tempfile

TOP = os.path.dirname(os.path.dirname(os.path.abspath(__file__)))
sys.path[:0] = [os.path.join(TOP, it) for it in ("oracle", "checks/harness", "players", "worlds")]
import check_world  # noqa: E402
import show_room  # noqa: E402
import show_run  # noqa: E402
from checked_program import Checks, content_of, run, shown, write_files  # noqa: E402
from game import KINDS, SECOND, thing  # noqa: E402
from worked_rooms import container, creep, source  # noqa: E402
from worlds import Run, Step, base_content, full, gated, grounds, journal_of, room, ticked, ticks_in, world  # noqa: E402

checks = Checks(__file__)
note = checks.note
PLAYERS = [{"player": number, "limit": 20} for number in (1, 2, 3)]
DRAWN = 40


def journal(first, *ticks):
    """The journal of ticks with these runs, as oracle/worlds.py makes it."""
    steps, it = [], first
    for runs in ticks:
        it = ticked(it, runs)
        steps.append(Step([], runs, it))
    return journal_of(first, steps)


def printed(script, content, *words):
    """What a script shows of a journal of these bytes: its lines, or in one what is wrong."""
    with tempfile.TemporaryDirectory() as folder:
        path = os.path.join(folder, "it.journal")
        write_files(folder, {"it.journal": content})
        try:
            return "\n".join(script.run([path, *map(str, words)])).split("\n")
        except show_room.Refused as refused:
            return [str(refused).replace(path, "it.journal")]


def differ(found, wanted):
    faults = [f"{found[at]!r} and not {wanted[at]!r}" for at in range(min(len(found), len(wanted))) if found[at] != wanted[at]]
    return faults if len(found) == len(wanted) else [*faults, f"{len(found)} lines and not {len(wanted)}: {shown(found)}"]


# ---- runs

# Of each tick that is worked out the objects before it, what players 1 and 2 want, and the line of each of these intents. New ids are from 20 on.
TIRED = creep(2, 9, 10, "work carry move", extra=9)
WORKER = creep(2, 9, 10, "work carry move")
LADEN = {**WORKER, "energy": 50}
SPAWN = thing("spawn", 3, 10, 11, owner=1, energy=100)
OWN = thing("controller", 1, 10, 10, owner=1, extra=2, timer=300)
OTHERS = thing("controller", 1, 10, 10, owner=2, extra=1, timer=700)
FREE = thing("controller", 1, 10, 10)
CLAIMER = creep(2, 9, 10, "claim move")


def wants(*entries):
    """Intents of a player: each action, actor, target, amount and body."""
    return {(action, actor): (target, amount, *body) for action, actor, target, amount, *body in entries}


RUNS = [
    ("a harvest", [source(1, 10, 10), WORKER], wants(("harvest", 2, 1, 0)), ["creep 2 harvest source 1: energy 0 to 2; source 1 energy 1500 to 1498"]),
    (
        "a harvest that falls",
        [source(1, 10, 10), LADEN],
        wants(("harvest", 2, 1, 0)),
        ["creep 2 harvest source 1: energy still 50; source 1 energy 1500 to 1498; new pile 20 energy 1"],
    ),
    (
        "a harvest on a pile",
        [source(1, 10, 10), LADEN, thing("pile", 4, 9, 10, energy=7)],
        wants(("harvest", 2, 1, 0)),
        ["creep 2 harvest source 1: energy still 50; source 1 energy 1500 to 1498; pile 4 energy 7 to 8"],
    ),
    ("a harvest of nothing", [source(1, 10, 10, energy=0, timer=5), WORKER], wants(("harvest", 2, 1, 0)), ["creep 2 harvest source 1: nothing changed"]),
    ("a harvest of nothing, and a source that is renewed", [source(1, 10, 10, energy=0, timer=1), WORKER], wants(("harvest", 2, 1, 0)), ["creep 2 harvest source 1: nothing changed"]),
    ("a transfer", [SPAWN, {**LADEN, "energy": 40}], wants(("transfer", 2, 3, 30)), ["creep 2 transfer 30 to spawn 3: energy 40 to 10; spawn 3 energy 100 to 131"]),
    ("a transfer of all", [SPAWN, {**LADEN, "energy": 40}], wants(("transfer", 2, 3, 0)), ["creep 2 transfer all to spawn 3: energy 40 to 0; spawn 3 energy 100 to 141"]),
    (
        "transfers to a spawn that is filled by one of them",
        [{**SPAWN, "energy": 290}, {**LADEN, "energy": 10}, creep(4, 11, 10, "carry move", energy=20)],
        wants(("transfer", 2, 3, 0), ("transfer", 4, 3, 0)),
        ["creep 2 transfer all to spawn 3: energy 10 to 0; spawn 3 energy 290 to 300", "creep 4 transfer all to spawn 3: energy still 20; spawn 3 energy 290 to 300"],
    ),
    ("a transfer from afar", [SPAWN, {**LADEN, "x": 20}], wants(("transfer", 2, 3, 0)), ["creep 2 transfer all to spawn 3: nothing changed"]),
    ("a transfer by nobody", [SPAWN], wants(("transfer", 9, 3, 0), ("drop", 9, 0, 5)), ["creep 9 drop 5: not there", "creep 9 transfer all to spawn 3: not there"]),
    ("a transfer to nothing", [LADEN], wants(("transfer", 2, 9, 0)), ["creep 2 transfer all to object 9: energy still 50; object 9 not there"]),
    ("a withdrawal", [container(3, 10, 11, energy=70), WORKER], wants(("withdraw", 2, 3, 20)), ["creep 2 withdraw 20 from container 3: energy 0 to 20; container 3 energy 70 to 50"]),
    ("a pile that is taken", [thing("pile", 3, 10, 10, energy=9), WORKER], wants(("pickup", 2, 3, 0)), ["creep 2 pickup pile 3: energy 0 to 9; pile 3 gone"]),
    ("a pile that is not taken", [thing("pile", 3, 10, 10, energy=9), LADEN], wants(("pickup", 2, 3, 0)), ["creep 2 pickup pile 3: nothing changed"]),
    ("a pile that dwindles to nothing", [thing("pile", 3, 10, 10, energy=1), LADEN], wants(("pickup", 2, 3, 0)), ["creep 2 pickup pile 3: nothing changed"]),
    ("a drop", [LADEN], wants(("drop", 2, 0, 5)), ["creep 2 drop 5: energy 50 to 45; new pile 20 energy 4"]),
    ("a drop on a pile", [LADEN, thing("pile", 3, 9, 10, energy=2000)], wants(("drop", 2, 0, 0)), ["creep 2 drop all: energy 50 to 0; pile 3 energy 2000 to 2047"]),
    (
        "a drop of what the pile loses",
        [{**LADEN, "energy": 2}, thing("pile", 3, 9, 10, energy=1500)],
        wants(("drop", 2, 0, 0)),
        ["creep 2 drop all: energy 2 to 0; pile 3 energy still 1500"],
    ),
    ("a drop of nothing", [WORKER], wants(("drop", 2, 0, 0)), ["creep 2 drop all: nothing changed"]),
    ("a heal", [creep(2, 9, 10, "heal move"), creep(3, 10, 10, "move*2", hits=150)], wants(("heal", 2, 3, 0)), ["creep 2 heal creep 3: creep 3 hits 150 to 162"]),
    ("a heal of oneself", [creep(2, 9, 10, "heal move", hits=120)], wants(("heal", 2, 2, 0)), ["creep 2 heal creep 2: hits 120 to 132"]),
    ("a heal of who has all", [creep(2, 9, 10, "heal move"), creep(3, 12, 10, "move")], wants(("ranged_heal", 2, 3, 0)), ["creep 2 ranged_heal creep 3: nothing changed"]),
    (
        "a heal that overrules",
        [creep(2, 9, 10, "heal work carry"), creep(3, 10, 10, "move*2", hits=150), source(1, 10, 11)],
        wants(("heal", 2, 3, 0), ("harvest", 2, 1, 0)),
        ["creep 2 heal creep 3: creep 3 hits 150 to 162", "creep 2 harvest source 1: nothing changed"],
    ),
    (
        "a building that is torn down",
        [creep(2, 9, 10, "work*8 carry"), thing("extension", 3, 10, 10, owner=1, hits=400, energy=9)],
        wants(("dismantle", 2, 3, 0)),
        ["creep 2 dismantle extension 3: energy 0 to 2; extension 3 gone"],
    ),
    (
        "blows",
        [creep(2, 9, 10, "attack move"), creep(3, 10, 10, "attack*2 move", 2)],
        [wants(("attack", 2, 3, 0)), wants(("attack", 3, 2, 0))],
        ["creep 2 attack creep 3: hits 200 to 80; creep 3 hits 300 to 240", "creep 3 attack creep 2: hits 300 to 240; creep 2 hits 200 to 80"],
    ),
    (
        "a blow that kills",
        [creep(2, 9, 10, "attack move"), creep(3, 10, 10, "move", 2, hits=30)],
        wants(("attack", 2, 3, 0)),
        ["creep 2 attack creep 3: hits still 200; creep 3 gone"],
    ),
    (
        "a blow at a building",
        [creep(2, 9, 10, "attack move"), thing("extension", 3, 10, 10, owner=2)],
        wants(("attack", 2, 3, 0)),
        ["creep 2 attack extension 3: extension 3 hits 1000 to 970"],
    ),
    (
        "a repair",
        [creep(2, 9, 10, "work*2 carry", energy=50), thing("road", 3, 10, 10, hits=1000, timer=9)],
        wants(("repair", 2, 3, 0)),
        ["creep 2 repair road 3: energy 50 to 48; road 3 hits 1000 to 1200"],
    ),
    ("a repair that isn't needed", [LADEN, thing("road", 3, 10, 10, timer=9)], wants(("repair", 2, 3, 0)), ["creep 2 repair road 3: nothing changed"]),
    ("a repair of what decays", [WORKER, thing("road", 3, 10, 10, timer=1)], wants(("repair", 2, 3, 0)), ["creep 2 repair road 3: nothing changed"]),
    ("work at a site", [LADEN, thing("site", 3, 10, 10, owner=1, extra=8)], wants(("build", 2, 3, 0)), ["creep 2 build site 3: energy 50 to 45; site 3 progress 0 to 5"]),
    (
        "a site that is done",
        [LADEN, thing("site", 3, 10, 10, owner=1, extra=8, progress=298)],
        wants(("build", 2, 3, 0)),
        ["creep 2 build site 3: energy 50 to 48; site 3 gone; new road 20"],
    ),
    (
        "shots around",
        [creep(2, 9, 10, "ranged_attack move"), creep(3, 10, 10, "move*3", 2), creep(4, 12, 10, "move*3", 3), creep(5, 13, 10, "move*3", 2), creep(6, 9, 9, "move")],
        wants(("ranged_mass_attack", 2, 0, 0)),
        ["creep 2 ranged_mass_attack: creep 3 hits 300 to 290; creep 4 hits 300 to 299"],
    ),
    ("shots at nothing", [creep(2, 9, 10, "ranged_attack move"), creep(6, 9, 9, "move")], wants(("ranged_mass_attack", 2, 0, 0)), ["creep 2 ranged_mass_attack: nothing changed"]),
    (
        "a shot",
        [creep(2, 9, 10, "ranged_attack move"), creep(3, 12, 10, "move*3", 2)],
        wants(("ranged_attack", 2, 3, 0)),
        ["creep 2 ranged_attack creep 3: creep 3 hits 300 to 290"],
    ),
    ("an end", [LADEN], wants(("suicide", 2, 0, 0)), ["creep 2 suicide: gone; new pile 20 energy 49"]),
    (
        "a claim",
        [FREE, CLAIMER],
        wants(("claim_controller", 2, 1, 0)),
        ["creep 2 claim_controller controller 1: controller 1 owner 0 to 1, extra 0 to 1"],
    ),
    ("a claim of another's", [OTHERS, CLAIMER], wants(("claim_controller", 2, 1, 0)), ["creep 2 claim_controller controller 1: nothing changed"]),
    ("an upgrade", [OWN, LADEN], wants(("upgrade", 2, 1, 0)), ["creep 2 upgrade controller 1: energy 50 to 49; controller 1 progress 0 to 1, timer 300 to 399"]),
    (
        "a level",
        [{**OWN, "extra": 1, "progress": 199}, LADEN],
        wants(("upgrade", 2, 1, 0)),
        ["creep 2 upgrade controller 1: energy 50 to 49; controller 1 progress 199 to 0, extra 1 to 2, timer 300 to 4999"],
    ),
    (
        "an upgrade of the last level",
        [{**OWN, "extra": 8}, LADEN],
        wants(("upgrade", 2, 1, 0)),
        ["creep 2 upgrade controller 1: energy 50 to 49; controller 1 timer 300 to 399"],
    ),
    ("an upgrade with nothing", [OWN, WORKER], wants(("upgrade", 2, 1, 0)), ["creep 2 upgrade controller 1: nothing changed"]),
    ("a reservation", [FREE, CLAIMER], wants(("reserve", 2, 1, 0)), ["creep 2 reserve controller 1: controller 1 other 0 to 1, other_ticks 0 to 1"]),
    (
        "a reservation that is held",
        [{**FREE, "other": 1, "other_ticks": 10}, CLAIMER],
        wants(("reserve", 2, 1, 0)),
        ["creep 2 reserve controller 1: controller 1 other_ticks still 10"],
    ),
    (
        "a reservation of another",
        [{**FREE, "other": 2, "other_ticks": 10}, CLAIMER],
        wants(("reserve", 2, 1, 0)),
        ["creep 2 reserve controller 1: nothing changed"],
    ),
    ("time that is taken", [OTHERS, CLAIMER], wants(("attack_controller", 2, 1, 0)), ["creep 2 attack_controller controller 1: controller 1 timer 700 to 399"]),
    (
        "the last time that is taken",
        [{**OTHERS, "timer": 300}, CLAIMER],
        wants(("attack_controller", 2, 1, 0)),
        ["creep 2 attack_controller controller 1: controller 1 timer 300 to 0, extra 1 to 0, owner 2 to 0"],
    ),
    (
        "a site",
        [OWN],
        wants(("create_site", 50 * 13 + 12, 0, 5), ("create_site", 50 * 10 + 10, 0, 8)),
        ["tile 10, 10 of room 0 E0S0 create_site road: nothing changed", "tile 12, 13 of room 0 E0S0 create_site extension: new site 20"],
    ),
    (
        "a site where another's comes",
        [{**FREE}, WORKER, creep(3, 12, 12, "move", 2)],
        [wants(("create_site", 50 * 13 + 12, 0, 8)), wants(("create_site", 50 * 13 + 12, 0, 7))],
        ["tile 12, 13 of room 0 E0S0 create_site road: new site 20", "tile 12, 13 of room 0 E0S0 create_site container: new site 20 of player 1"],
    ),
    ("a site that goes", [OWN, thing("site", 3, 12, 12, owner=1, extra=8, progress=7)], wants(("remove_site", 3, 0, 0)), ["site 3 remove_site: gone"]),
    ("a site that stays", [OWN, thing("site", 3, 12, 12, owner=2, extra=8)], wants(("remove_site", 3, 0, 0)), ["site 3 remove_site: nothing changed"]),
    ("a creep that is made", [SPAWN], wants(("spawn_creep", 3, 0, 0, ["carry", "move"])), ["spawn 3 spawn_creep carry move: timer 0 to 5"]),
    ("a creep that is too dear", [SPAWN], wants(("spawn_creep", 3, 0, 0, ["work", "carry"])), ["spawn 3 spawn_creep work carry: nothing changed"]),
    ("a step", [WORKER], wants(("move", 2, 0, 3)), ["creep 2 move right: moved to 10, 10"]),
    ("a step upwards", [WORKER], wants(("move", 2, 0, 1)), ["creep 2 move top: moved to 9, 9"]),
    ("a step aslant", [WORKER], wants(("move", 2, 0, 6)), ["creep 2 move bottom left: moved to 8, 11"]),
    ("steps onto one tile", [WORKER, creep(4, 9, 12, "move")], wants(("move", 2, 0, 5), ("move", 4, 0, 1)), ["creep 2 move bottom: moved to 9, 11", "creep 4 move top: stayed at 9, 12"]),
    ("a step of who is tired", [TIRED], wants(("move", 2, 0, 8)), ["creep 2 move top left: stayed at 9, 10"]),
    ("a step in no direction", [WORKER], wants(("move", 2, 0, 9)), ["creep 2 move 9: stayed at 9, 10"]),
    ("a step over the border", [{**WORKER, "x": 48}], wants(("move", 2, 0, 3)), ["creep 2 move right: moved to 0, 10 of room 1 E1S0"]),
    ("a step of who dies", [{**WORKER, "timer": 1}], wants(("move", 2, 0, 3)), ["creep 2 move right: gone"]),
]


def check_run(name, objects, entries, wanted):
    """The lines of the intents of players, in rising number, of one tick."""
    entries = entries if isinstance(entries, list) else [entries]
    first = world(room("E0S0", 20, *copy.deepcopy(objects)), room("E1S0", 20), players=PLAYERS)
    runs = [Run(number, "finished", 9, b"", it) for number, it in enumerate(entries, 1)]
    content, found = journal(first, runs), []
    for player, it in enumerate(entries, 1):
        head, *lines, last = printed(show_run, content, player, 1)
        found += lines
        note(f"{name}: the lines around", differ([head, last], [f"player {player} finished, {len(it)} intents", "the memory text is empty"]))
    note(f"{name}: the lines", differ(found, wanted))


def check_runs():
    for case in RUNS:
        check_run(*case)
    named = {action for _, _, entries, _ in RUNS for one in (entries if isinstance(entries, list) else [entries]) for action, _ in one}
    first, strange = world(room("E0S0", 20, WORKER), players=PLAYERS), Run(1, "finished", 9, b"", wants(("create_site", 2500 * 7 + 51, 0, 99)))
    found = printed(show_run, journal_of(first, [Step([], [strange], ticked(first, []))]), 1, 1)
    note("a site in no room", differ(found[1:2], ["tile 1, 1 of room 7 create_site 99: nothing changed"]))
    note("each action is worked out", differ(sorted(named), sorted(show_run.LOOKED_AT)))
    first = world(room("E0S0", 20, WORKER), players=PLAYERS)
    content = journal(first, [Run(1, "trapped", 9, b"one\nt\xffwo\n", trap=4), Run(2, "spent", 9, b"")], [])
    trapped = ["player 1 trapped at a load or a store past the end of the memory, 0 intents", "the memory text, 9 bytes:", "one", "t\\xffwo"]
    for words, wanted in [
        ((1, 1), trapped),
        ((1, 2), ["player 1 has no run in tick 2", *trapped[1:]]),
        ((2, 1), ["player 2 spent, 0 intents", "the memory text is empty"]),
        ((9, 1), ["player 9 has no run in tick 1", "the world has no such player"]),
        ((1, 0), ["player 1 has no run in tick 0", "the memory text is empty"]),
        ((1, 3), ["it.journal has no tick 3: its worlds are those of the ticks 0 to 2"]),
        ((1, "x"), ["the words are JOURNAL PLAYER TICK: --help says more"]),
        ((1,), ["the words are JOURNAL PLAYER TICK: --help says more"]),
        (("\u00b2", 1), ["the words are JOURNAL PLAYER TICK: --help says more"]),
        ((1, "9" * 5000), ["the words are JOURNAL PLAYER TICK: --help says more"]),
    ]:
        note(f"show_run.py {words!r:.60}", differ(printed(show_run, content, *words), wanted))


# ---- rooms

CROWD = world(
    room(
        "W0N0",
        30,
        thing("controller", 1, 20, 5, other=2, other_ticks=9),
        creep(2, 9, 10, "work carry move", 3, energy=7),
        creep(3, 10, 10, "move", 1),
        thing("road", 4, 10, 10, timer=9),
        creep(5, 11, 10, "move", 2, extra=3),
        thing("pile", 6, 11, 10, energy=8),
        thing("container", 7, 12, 11, timer=9),
        terrain=grounds({50 * 9 + 9: "1", 50 * 11 + 9: "2"}),
    ),
    room("E0N0", 5),
    players=PLAYERS,
)
AXES = ["   " + "".join(str(x // 10) for x in range(8, 22)), "   " + "".join(str(x % 10) for x in range(8, 22))]
ROWS = [
    " 4 ..............",
    " 5 ............C.",
    " 6 ..............",
    " 7 ..............",
    " 8 ..............",
    " 9 .#............",
    "10 .b@a..........",
    "11 .~..B.........",
    "12 ..............",
]
LISTED = [
    "creeps: @ player 1, a player 2, b player 3",
    "C controller 1 at 20, 5: other 2, other_ticks 9",
    "b creep 2 at 9, 10: player 3, hits 300, energy 7, timer 1500, body work carry move",
    "@ creep 3 at 10, 10: player 1, hits 100, timer 1500, body move",
    "= road 4 at 10, 10: hits 5000, timer 9",
    "a creep 5 at 11, 10: player 2, hits 100, timer 1500, extra 3, body move",
    "* pile 6 at 11, 10: energy 8",
    "B container 7 at 12, 11: hits 250000, timer 9",
]


def check_rooms():
    content = journal(CROWD, [])
    wanted = ["room 0 W0N0, tick 0", *AXES, *ROWS, *LISTED]
    for words in ((0, 0), ("W0N0", 0), ("00", "000")):
        note(f"show_room.py {words}", differ(printed(show_room, content, *words), wanted))
    note("a room after a tick", differ(printed(show_room, content, 0, 1)[:2], ["room 0 W0N0, tick 1", AXES[0]]))
    note("a room in which nothing stands", differ(printed(show_room, content, "E0N0", 1), ["room 1 E0N0, tick 1", "nothing stands there"]))
    found = printed(show_room, content, 0, 0, "--all")
    whole = ["   " + "".join(str(x // 10) for x in range(50)), "   " + "".join(str(x % 10) for x in range(50))]
    whole += [f"{y:2} " + "".join("#" if {x, y} <= {0, 49} else "." for x in range(50)) for y in range(50)]
    for row, text in zip(ROWS, range(4, 13)):
        whole[2 + text] = whole[2 + text][:11] + row[3:] + whole[2 + text][25:]
    note("the whole room", differ(found, [wanted[0], *whole, *LISTED]))
    crowd = world(room("E0S0", 99, *[creep(n, n, 9, "move", n) for n in range(1, 31)]), players=[{"player": n, "limit": 1} for n in range(1, 31)])
    row = next(line for line in printed(show_room, journal(crowd), 0, 0) if line.startswith(" 9 "))
    note("creeps of thirty players", differ([row], [" 9 .@abcdefghijklmnpqrstuvwxyz?????"[:4] + "@abcdefghijklmnpqrstuvwxyz????."]))
    alone = printed(show_room, journal(world(room("E0S0", 9, creep(2, 9, 10, "move", 2)), players=PLAYERS)), 0, 0)
    note("creeps of one player", differ(alone[-2:], ["11 ...", "@ creep 2 at 9, 10: player 2, hits 100, timer 1500, body move"]))
    for words, wanted in [
        ((2, 0), "it.journal has no room 2: its rooms are those of the indices 0 to 1"),
        (("E5S5", 0), "it.journal has no room E5S5: its rooms are those of the indices 0 to 1"),
        ((0, 2), "it.journal has no tick 2: its worlds are those of the ticks 0 to 1"),
        ((0,), "the words are JOURNAL ROOM TICK [--all]: --help says more"),
        ((0, "x"), "the words are JOURNAL ROOM TICK [--all]: --help says more"),
        ((0, "1", "2"), "the words are JOURNAL ROOM TICK [--all]: --help says more"),
    ]:
        note(f"show_room.py {words}", differ(printed(show_room, content, *words), [wanted]))


def check_journals():
    """Journals that are empty, cut or none."""
    content = journal(CROWD, [], [])
    for name, it, wanted in [
        ("an empty file", b"", "it.journal has no tick 2: nothing is recorded in it"),
        ("a file of one byte", b"h", "it.journal has no tick 2: nothing is recorded in it"),
        ("a closed gate", b"\0what is left", "it.journal has no tick 2: nothing is recorded in it"),
        ("a text", b"hello", "it.journal is no journal: a frame is cut off at byte 0"),
        ("a journal that is cut", content[:-9], None),
        ("a base that is none", gated([b"what"]), None),
        ("a base that is cut", gated([base_content(full(CROWD))[:-1]]), None),
        ("a world file", json.dumps(CROWD).encode(), "it.journal is no journal: a frame is cut off at byte 0"),
    ]:
        for script, words in ((show_room, (0, 2)), (show_run, (1, 2))):
            found = printed(script, it, *words)
            good = found == [wanted] if wanted else len(found) == 1 and found[0].startswith("it.journal is no journal: ")
            note(f"{name}, by {script.__name__}.py", [] if good else [f"{found}"])


# ---- what the program writes


def moments_of(content):
    """Each tick of a journal with its runs, and all objects before and after it by their ids, as oracle/worlds.py reads them."""
    before = None
    for parts in ticks_in(content):
        after = {one[0]: (index, *one) for index, _, objects in parts["rooms"] for one in objects}
        if before is not None:
            yield parts["tick"], parts["runs"], before, after
        before = after


FIELD = re.compile(r"(?:(\w+) (\d+) )?(?:(gone)|(energy|hits|progress|timer) (?:(\d+) to (\d+)|still (\d+)))$")
AT = {"hits": 6, "energy": 7, "timer": 8, "progress": 10}


def line_faults(line, actor, before, after):
    """What of a line of an intent is not so in the worlds before and after it."""
    _, _, became = line.partition(": ")
    moved = re.match(r"(?:moved to|stayed at) (\d+), (\d+)(?: of room (\d+) .*)?$", became)
    if moved:
        x, y, room_ = moved.groups()
        place = after[actor][0], *after[actor][3:5]
        is_so = place == (int(room_) if room_ else before[actor][0], int(x), int(y)) and became.startswith("moved") == (place != (before[actor][0], *before[actor][3:5]))
        return [] if is_so else [f"{line}: it is at {place}"]
    faults = []
    for part in [] if became == "nothing changed" or became.startswith("moved") else re.split("; |, ", became):
        if re.match(r"new \w+ \d+", part):
            id = int(part.split()[2])
            faults += [] if id in after and id not in before and KINDS[after[id][2] - 1] == part.split()[1] else [f"{line}: {part}"]
            continue
        found = FIELD.match(part)
        if not found:
            faults.append(f"{line}: {part}")
            continue
        _, id, gone, field, was, now, still = found.groups()
        id = int(id) if id else actor
        if gone:
            faults += [] if id in before and id not in after else [f"{line}: {part}"]
        elif (before[id][AT[field]], after[id][AT[field]]) != (int(was or still), int(now or still)):
            faults.append(f"{line}: {part}")
    return faults


def pictured_faults(content, index, tick, after):
    """What stands otherwise in a picture, by its axes, than in the world."""
    lines = printed(show_room, content, index, tick)
    columns = [int(ten + one) for ten, one in zip(lines[1][3:], lines[2][3:])]
    tiles = {(x, int(line[:2])): letter for line in lines[3:] if re.match(r"[ \d]\d ", line) for x, letter in zip(columns, line[3:])}
    standing = {(it[3], it[4]) for it in after.values() if it[0] == index}
    shown_ = {tile for tile, letter in tiles.items() if letter not in ".#~"}
    listed = {int(line.split()[2]) for line in lines if re.match(r"\S [a-z]+ \d+ at ", line)}
    faults = [] if shown_ == standing else [f"tick {tick}: {sorted(shown_ ^ standing)}"]
    return faults if listed == {id for id, it in after.items() if it[0] == index} else [*faults, f"tick {tick}: {sorted(listed)} are listed"]


def check_program():
    """A fight that the program runs: each line and each picture is so."""
    with tempfile.TemporaryDirectory() as folder:
        words = ["run", os.path.join(TOP, "worlds/fight.json"), os.path.join(TOP, "worlds/fight.uploads"), "it.journal", "--ticks", "24"]
        status, _, _ = run(words, folder)
        content = content_of(os.path.join(folder, "it.journal"))
    faults, count = [] if status == 0 else [f"exit status {status}"], 0
    for tick, runs, before, after in moments_of(content):
        for player, _, _, _, entries in runs:
            lines = printed(show_run, content, player, tick)[1 : 1 + len(entries)]
            count += len(lines)
            for line, entry in zip(lines, entries, strict=True):
                faults += line_faults(line, entry[1], before, after)
        faults += pictured_faults(content, 0, tick, after)
    note("a fight that the program ran", faults if count > 40 else [*faults, f"{count} intents"])


# ---- world files


def faulty_worlds():
    """The files of checks/world_files.py, each with its name and with what the program says of it. That script runs where it is imported, so its
    definitions alone are taken."""
    path = os.path.join(TOP, "checks/world_files.py")
    with open(path, encoding="utf-8") as it:
        body = [node for node in ast.parse(it.read()).body if isinstance(node, (ast.Import, ast.FunctionDef, ast.Assign))]
    found, names = [], {"__file__": path}
    exec(compile(ast.Module(body, []), path, "exec"), names)
    names["check"] = lambda name, text, fault: found.append((name, text if isinstance(text, bytes) else json.dumps(text).encode(), fault))
    for part in ("forms", "ranges", "rules", "two_faults", "texts"):
        names[part]()
        yield from found
        found.clear()


def said_of(fault):
    """The first line of worlds/check_world.py, by what the program prints."""
    found = re.match(r"start tick \d+ (rooms .*)", fault)
    return f"good: {found[1]}" if found else fault


def check_faulty_worlds():
    faults, count = [], 0
    for name, content, fault in faulty_worlds():
        count += 1
        good, lines = check_world.lines_of(content)
        wanted = said_of(fault if fault.startswith("start ") else f"fault 3 World {fault}")
        if lines[0] != wanted or good != wanted.startswith("good") or len(lines) < (1 if good else 4):
            faults.append(f"{name}: {lines} and not {wanted}")
    note("the world files of checks/world_files.py", faults if count > 500 else [*faults, f"{count} files"], count)


VALUES = [None, True, "", "pile", [], {}, -1, 0, 1, 2, 7, 49, 50, 300, 1501, 3001, 2**32 - 1, 2**32, 2**53, 1.5, ["move"], "E0S0", "tower", "0" * 2500]


def parts_of(value):
    """The objects of a JSON value: the top, rooms, objects and players of a world."""
    if isinstance(value, dict):
        yield value
    for one in value.values() if isinstance(value, dict) else value if isinstance(value, list) else ():
        yield from parts_of(one)


def drawn_world(draw, base):
    """A world file with some values changed, keys taken away or more of them, and now and then a text that is cut or has a character changed."""
    it = copy.deepcopy(base)
    for _ in range(draw.choice((1, 1, 2, 3))):
        part = draw.choice([one for one in parts_of(it) if one])
        key = draw.choice(list(part))
        kind = draw.randrange(4)
        if kind == 0:
            del part[key]
        elif kind == 1:
            part[draw.choice(["colour", "Energy", key + " "])] = draw.choice(VALUES)
        elif kind == 2 and isinstance(part[key], int):
            part[key] = max(0, part[key] + draw.choice((-1, 1, 1 << 32)))
        else:
            part[key] = draw.choice(VALUES)
    text = json.dumps(it, indent=1)
    if draw.randrange(5) == 0:
        at = draw.randrange(len(text))
        text = text[:at] + draw.choice(["", ",", "}", '"', "0", "\\", "\x01"]) + text[at + draw.randrange(2) :]
    return text.encode()


def check_drawn_worlds():
    draw = random.Random(5)
    bases = [json.loads(content_of(os.path.join(TOP, "worlds", name))) for name in ("two_rooms.json", "fight.json", "one_player.json")]
    faults, names = [], set()
    for _ in range(DRAWN):
        content = drawn_world(draw, draw.choice(bases))
        with tempfile.TemporaryDirectory() as folder:
            write_files(folder, {"it.json": content, "none": b""})
            _, out, err = run(["run", "it.json", "none", "it.journal", "--ticks", "0"], folder)
        _, lines = check_world.lines_of(content)
        said = (out + err).decode().strip()
        names.add(" ".join(said.split()[:5]))
        if lines[0] != said_of(said):
            faults.append(f"{lines} and not {said}: {shown(content)}")
    note("world files that are drawn", faults if len(names) > 10 else [*faults, f"{sorted(names)}"], DRAWN)


GOOD = """{
 "version": 1, "tick": 0,
 "rooms": [
  {"name": "E0S0", "next": 9,
   "terrain": "TERRAIN",
   "objects": [
    {"id": 1, "kind": "source", "x": 10, "y": 10, "energy": 5},
    {"id": 2, "kind": "pile", "x": 20, "y": 20, "energy": 7}
   ]
  }
 ],
 "players": [{"player": 1, "limit": 20}]
}
"""
# What is changed in the good file, and what is printed then.
FILES = [
    ("", "", "good: rooms 1 objects 2 players 1"),
    (
        '"energy": 7',
        '"energy": -7',
        "fault 3 World BadValue Energy 1\nline 8, column 59: room 0 E0S0, object 1 of its list, id 2, kind pile: key energy\nstands there: -7\n"
        "allowed: a whole number from 0 to 9007199254740992",
    ),
    (
        '"energy": 7',
        '"energy": 0',
        "fault 3 World Rule Range 2\nline 8, column 59: room 0 E0S0, object 1 of its list, id 2, kind pile: key energy\nstands there: 0\nallowed: 1 to 1000000000, for this pile",
    ),
    (
        ', "energy": 7',
        "",
        "fault 3 World Rule Range 2\nline 8, column 5: room 0 E0S0, object 1 of its list, id 2, kind pile: key energy\nstands there: no such key, which stands for 0\n"
        "allowed: 1 to 1000000000, for this pile",
    ),
    (
        '"x": 20, "y": 20',
        '"x": 20, "y": 20, "owner": 1',
        "fault 3 World Rule Owner 2\nline 8, column 58: room 0 E0S0, object 1 of its list, id 2, kind pile: key owner\nstands there: 1\nallowed: 0, as this kind has none",
    ),
    (
        '"pile"',
        '"tower"',
        "fault 3 World NotBuilt Tower\nline 8, column 23: room 0 E0S0, object 1 of its list, id 2: key kind\nstands there: \"tower\"\n"
        "allowed: one of source, controller, creep, spawn, extension, storage, container, road, pile, site; this one is known and not built yet",
    ),
    (
        '"id": 1, "kind": "source"',
        '"id": 1, "kind": "nuke"',
        "fault 3 World BadValue Kind 0\nline 7, column 23: room 0 E0S0, object 0 of its list, id 1: key kind\nstands there: \"nuke\"\n"
        "allowed: one of source, controller, creep, spawn, extension, storage, container, road, pile, site",
    ),
    (
        '"limit": 20',
        '"limits": 20',
        "fault 3 World Missing Limit\nline 12, column 14: player 0 of the list: key limit\nstands there: no such key\nallowed: a whole number from 0 to 500; the key may not be left out\n"
        "warning: line 12, column 28: player 0 of the list: nothing reads the key limits",
    ),
    (
        '"energy": 5',
        '"colour": 5, "energy": 9999, "energy": 5',
        "good: rooms 1 objects 2 players 1\nwarning: line 7, column 51: room 0 E0S0, object 0 of its list, id 1: nothing reads the key colour\n"
        "warning: line 7, column 80: room 0 E0S0, object 0 of its list, id 1: the key energy stands twice, and the last one counts",
    ),
    (
        '"kind": "source", "x": 10, "y": 10, "energy": 5',
        '"kind": "wall", "x": -1',
        "fault 3 World NotBuilt Wall\nline 7, column 23: room 0 E0S0, object 0 of its list, id 1: key kind\nstands there: \"wall\"\n"
        "allowed: one of source, controller, creep, spawn, extension, storage, container, road, pile, site; this one is known and not built yet",
    ),
    (
        '"next": 9,',
        '"next": 9',
        "fault 3 World NotJson\nline 5, column 4: the JSON text\nstands there: \"terrain\": \"" + ("1" + "0" * 47)[:48] + "..\nallowed: a comma and the next key, or }",
    ),
    (
        '{"player": 1, "limit": 20}',
        "[7]",
        "fault 3 World Missing Player\nline 12, column 14: player 0 of the list: key player\nstands there: a list of 1, which has no keys\n"
        "allowed: a whole number from 1 to 4294967295; the key may not be left out",
    ),
    (
        '"version": 1',
        '"a\udce4b": 1',
        "fault 3 World NotJson\nline 2, column 4: the JSON text\nstands there: \\xe4b\": 1, \"tick\": 0,\nallowed: UTF-8, and control characters as \\n or \\u000a",
    ),
    (
        '"version": 1',
        '"version": "1\n"',
        "fault 3 World NotJson\nline 2, column 15: the JSON text\nstands there: \\n\", \"tick\": 0,\nallowed: UTF-8, and control characters as \\n or \\u000a",
    ),
    (
        '"limit": 20}]\n}\n',
        '"limit": 20}]\n',
        "fault 3 World NotJson\nline 13, column 1: the JSON text\nstands there: nothing: the file ends\nallowed: a comma and the next key, or }",
    ),
    (
        '"id": 2, "kind": "pile", "x": 20, "y": 20',
        '"id": 2, "kind": "site", "x": 10, "y": 10, "owner": 1, "extra": 8, "progress": 300',
        "fault 3 World Rule Shared 2\nline 8, column 36: room 0 E0S0, object 1 of its list, id 2, kind site: keys x and y\nstands there: site at 10, 10, where source 1 stands\n"
        "allowed: a tile that it doesn't share with that: docs/formats.md, rule Shared",
    ),
]


def check_files():
    for old, new, wanted in FILES:
        content = GOOD.replace("TERRAIN", grounds())
        note(f"{old} in the good file", [] if old in content else ["it is not there"])
        _, lines = check_world.lines_of((content.replace(old, new) if old else content).encode(errors="surrogateescape"))
        note(f"the good file with {new!r}", differ(lines, wanted.split("\n")))
    documented = "".join(f"    {line}\n" for line in FILES[1][2].split("\n"))
    note("the fault that docs/hosting.md shows", [] if documented in content_of(os.path.join(TOP, "docs/hosting.md")).decode() else ["it is another there"])
    good, lines = check_world.lines_of(b" " * ((64 << 20) + 1))
    note("a file that is too long", differ([str(good), lines[0]], ["False", "fault 3 World TooLong"]))


# ---- words


def ran(script, words, folder, stdout=subprocess.PIPE):
    done = subprocess.run([sys.executable, os.path.join(TOP, script), *words], cwd=folder, stdin=subprocess.DEVNULL, stdout=stdout, stderr=subprocess.PIPE, timeout=60)
    return done.returncode, (done.stdout or b"").decode(), done.stderr.decode()


def check_words():
    """The scripts as programs: what they print, to where, and how they end."""
    with tempfile.TemporaryDirectory() as folder:
        good = GOOD.replace("TERRAIN", grounds()).encode()
        write_files(folder, {"it.journal": journal(CROWD, []), "good.json": good, "bad.json": good[:-3], "folder": None})
        for script, words, wanted in [
            ("players/show_room.py", ["it.journal", "1", "1"], (0, "room 1 E0N0, tick 1\nnothing stands there\n", "")),
            ("players/show_run.py", ["it.journal", "1", "1"], (0, "player 1 has no run in tick 1\nthe memory text is empty\n", "")),
            ("players/show_room.py", ["none", "1", "1"], (1, "", "show_room.py: No such file or directory: none\n")),
            ("players/show_run.py", ["folder", "1", "1"], (1, "", "show_run.py: Is a directory: folder\n")),
            ("players/show_run.py", [], (1, "", "show_run.py: the words are JOURNAL PLAYER TICK: --help says more\n")),
            ("worlds/check_world.py", ["good.json"], (0, "good: rooms 1 objects 2 players 1\n", "")),
            ("worlds/check_world.py", ["bad.json"], (1, "fault 3 World NotJson\nline 12, column 41: the JSON text\nstands there: nothing: the file ends\nallowed: a comma and the next key, or }\n", "")),
            ("worlds/check_world.py", ["none"], (1, "", "check_world.py: No such file or directory: none\n")),
            ("worlds/check_world.py", [], (1, "", "check_world.py: the word is FILE: --help says more\n")),
        ]:
            note(f"{script} {' '.join(words)}", differ(list(map(str, ran(script, words, folder))), list(map(str, wanted))))
        for script, words in (("players/show_room.py", "it.journal 0 1"), ("players/show_run.py", "it.journal 1 1"), ("worlds/check_world.py", "good.json")):
            status, out, err = ran(script, ["--help"], folder)
            note(f"{script} --help", [] if (status, err) == (0, "") and f"    {script} " in out else [f"{status}, {out}, {err}"])
            with open("/dev/full", "wb") as sink:
                status, _, err = ran(script, words.split(), folder, sink)
            note(f"{script} to a full standard output", differ([str(status), err], ["1", f"{os.path.basename(script)}: No space left on device: standard output\n"]))


def main():
    check_runs()
    check_rooms()
    check_journals()
    check_program()
    check_faulty_worlds()
    check_drawn_worlds()
    check_files()
    check_words()
    checks.finish()


if __name__ == "__main__":
    main()
