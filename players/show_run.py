#!/usr/bin/env python3
"""Shows by a journal how a player's run of a tick ended, what he wanted in it and what became of that, and the memory text that he then has.

    players/show_run.py JOURNAL PLAYER TICK

PLAYER is his number, and TICK the tick of the world that the run helped to make: the run of tick 3 saw the world of tick 2. --help prints this.

A run that trapped says at what. Behind it each intent has a line, in the order in which the rules come to them: the actor, the action, and behind
a colon what is another in the world after the tick than it was before:

    creep 5 harvest source 2: energy 0 to 4; source 2 energy 3000 to 2996
    creep 6 transfer 80 to spawn 3: energy still 80; spawn 3 energy 299 to 300
    creep 7 move right: stayed at 11, 13

The actor's fields stand first and without its name, then those of the target, each with what it was and what it is, or with `still` where it is
what it was; `gone` is what isn't in the world any more, and `new` what wasn't. `nothing changed` says that all of these are what time alone makes
of them. What else changed them, as another creep, is not told.

In the memory text bytes that are no characters of ASCII stand as `\\x` and two digits.
"""

from journal_file import KINDS, SIDE, TILES
from show_room import Refused, answer, number, world_of

TRAPS = {
    1: "an unreachable instruction",
    2: "a division or a remainder by 0",
    3: "a quotient that is too large",
    4: "a load or a store past the end of the memory",
    5: "an indirect call past the end of the table",
    6: "an indirect call of an empty entry",
    7: "an indirect call of a function of another type",
    8: "more than 1,000 calls within one another",
    9: "more than 65,536 locals and operands",
}
DIRECTIONS = ["top", "top right", "right", "bottom right", "bottom", "bottom left", "left", "top left"]
BUILDINGS = ("spawn", "extension", "storage", "container", "road")
# The fields of the actor and of the target at which a line looks: those that the action writes. Where none of a thing's is another, the first is told.
LOOKED_AT = {
    "drop": (["energy"], []),
    "transfer": (["energy"], ["energy"]),
    "withdraw": (["energy"], ["energy"]),
    "pickup": (["energy"], ["energy"]),
    "heal": ([], ["hits"]),
    "ranged_heal": ([], ["hits"]),
    "dismantle": (["energy"], ["hits"]),
    "attack": (["hits"], ["hits"]),
    "harvest": (["energy"], ["energy"]),
    "repair": (["energy"], ["hits"]),
    "build": (["energy"], ["progress"]),
    "ranged_mass_attack": ([], []),
    "ranged_attack": ([], ["hits"]),
    "suicide": ([], []),
    "claim_controller": ([], ["owner", "extra"]),
    "upgrade": (["energy"], ["progress", "extra", "timer"]),
    "reserve": ([], ["other", "other_ticks"]),
    "attack_controller": ([], ["timer", "extra", "owner", "other", "other_ticks"]),
    "create_site": ([], []),
    "remove_site": ([], []),
    "spawn_creep": (["timer"], []),
    "move": ([], []),
}
# What falls lies on the tile of the creep that does these, and a building comes onto the tile of the site.
FALLS = ("drop", "dismantle", "harvest", "suicide")
RISES = ("build", "remove_site")
SHOT_AT = 3
# What a building loses when its time is over.
DECAYS = {"container": 5000, "road": 100}


class Moment:
    """What stands in a world: each object by its id, and the index of its room."""

    def __init__(self, world):
        self.rooms = {index: room.objects for index, room in world.rooms.items()}
        self.names = {index: f"{index} {room.name}" for index, room in world.rooms.items()}
        self.objects = {it["id"]: it for objects in self.rooms.values() for it in objects}
        self.homes = {it["id"]: index for index, objects in self.rooms.items() for it in objects}

    def standing(self, index, x, y, kinds):
        """What of these kinds stands on a tile, or None."""
        return next((it for it in self.rooms.get(index, ()) if (it["x"], it["y"]) == (x, y) and it["kind"] in kinds), None)


# ---- what an intent is


def name_of(id, moment, kind="object"):
    return f"{moment.objects[id]['kind'] if id in moment.objects else kind} {id}"


def place_of(actor):
    """The room, x and y of a tile by its number."""
    index, tile = divmod(actor, TILES)
    return index, tile % SIDE, tile // SIDE


def actor_of(intent, before):
    if intent.action == "create_site":
        index, x, y = place_of(intent.actor)
        return f"tile {x}, {y} of room {before.names.get(index, index)}"
    return name_of(intent.actor, before, {"remove_site": "site", "spawn_creep": "spawn"}.get(intent.action, "creep"))


def words_of(intent, before):
    """The words behind an action."""
    target, amount = name_of(intent.target, before), intent.amount or "all"
    if intent.action == "drop":
        return f" {amount}"
    if intent.action in ("transfer", "withdraw"):
        return f" {amount} {'to' if intent.action == 'transfer' else 'from'} {target}"
    if intent.action == "move":
        return f" {DIRECTIONS[intent.amount - 1] if 1 <= intent.amount <= 8 else intent.amount}"
    if intent.action == "create_site":
        return f" {KINDS[intent.amount - 1] if 1 <= intent.amount <= len(KINDS) else intent.amount}"
    if intent.action == "spawn_creep":
        return "".join(f" {part}" for part in intent.body)
    return f" {target}" if intent.target else ""


# ---- what became of it


def by_time(it, now, field):
    """What time alone makes of a field of an object, which is `now` behind the tick."""
    value = it[field]
    if field in ("timer", "other_ticks"):
        return max(0, value - 1)
    if it["kind"] == "pile":
        return value - -(-value // 1000)
    if field == "hits" and it["kind"] in DECAYS and now["timer"] > it["timer"]:
        return value - DECAYS[it["kind"]]
    # (a spawn gains 1, and a source is renewed)
    gains = it["kind"] == "spawn" and now[field] == value + 1 or it["kind"] == "source" and it["timer"] == 1 and now[field] > value
    return now[field] if field == "energy" and gains else value


def told(it, now, fields, name=""):
    """Of an object that stood there the fields at which a line looks, and whether more than time changed them."""
    if now is None:
        return f"{name}gone", it["kind"] != "pile" or by_time(it, None, "energy") > 0
    others = [field for field in fields if now[field] != by_time(it, now, field)]
    texts = [f"{field} still {it[field]}" if now[field] == it[field] else f"{field} {it[field]} to {now[field]}" for field in others or fields[:1]]
    return name + ", ".join(texts) if texts else "", bool(others)


def new(it, player):
    """What wasn't there before."""
    owner = f" of player {it['owner']}" if it["owner"] not in (0, player) else ""
    return f"new {it['kind']} {it['id']}{owner}" + (f" energy {it['energy']}" if it["kind"] == "pile" else "")


def on_tile(index, x, y, kinds, player, before, after):
    """What of these kinds comes onto a tile, or changes there by more than time."""
    it, now = before.standing(index, x, y, kinds), after.standing(index, x, y, kinds)
    found = []
    if it and (not now or now["id"] == it["id"]):
        found.append(told(it, now, ["energy"], f"{name_of(it['id'], before)} "))
    if now and (not it or now["id"] != it["id"]):
        found.append((new(now, player), True))
    return [(text, changed) for text, changed in found if changed]


def shot_at(actor, player, before):
    """The creeps and the buildings of other players around a creep."""
    for it in before.rooms[before.homes[actor["id"]]]:
        near = max(abs(it["x"] - actor["x"]), abs(it["y"] - actor["y"])) <= SHOT_AT
        if near and it["owner"] not in (0, player) and it["kind"] in ("creep", *BUILDINGS):
            yield it


def stood(it, before, after):
    """Where a creep is that would step."""
    now, home = after.objects.get(it["id"]), after.homes.get(it["id"])
    if now is None:
        return "gone"
    if home == before.homes[it["id"]]:
        return f"{'stayed at' if (now['x'], now['y']) == (it['x'], it['y']) else 'moved to'} {now['x']}, {now['y']}"
    return f"moved to {now['x']}, {now['y']} of room {after.names[home]}"


def changes(intent, player, before, after):
    """What is told of the actor, of the target and of their tiles, each with whether more than time changed it."""
    if intent.action == "create_site":
        return on_tile(*place_of(intent.actor), ("site",), player, before, after)
    actor, target = before.objects.get(intent.actor), before.objects.get(intent.target)
    if actor is None:
        return [("not there", True)]
    place = before.homes[actor["id"]], actor["x"], actor["y"]
    of_actor, of_target = LOOKED_AT[intent.action]
    # (a building doesn't strike back)
    of_actor = [] if intent.action == "attack" and target and target["kind"] != "creep" else of_actor
    found = [told(actor, after.objects.get(actor["id"]), of_actor)]
    if of_target and target is None:
        found.append((f"{name_of(intent.target, before)} not there", True))
    elif of_target and target is not actor:
        found.append(told(target, after.objects.get(target["id"]), of_target, f"{name_of(target['id'], before)} "))
    elif of_target:
        found = [told(actor, after.objects.get(actor["id"]), of_target)]
    if intent.action == "ranged_mass_attack":
        others = [told(it, after.objects.get(it["id"]), ["hits"], f"{name_of(it['id'], before)} ") for it in shot_at(actor, player, before)]
        found += [(text, changed) for text, changed in others if changed]
    if intent.action in FALLS:
        found += on_tile(*place, ("pile",), player, before, after)
    if intent.action in RISES and (site := target if intent.action == "build" else actor):
        found += on_tile(before.homes[site["id"]], site["x"], site["y"], BUILDINGS, player, before, after)
    return found


def became(intent, player, before, after):
    actor = before.objects.get(intent.actor)
    if intent.action == "move" and actor:
        return stood(actor, before, after)
    found = changes(intent, player, before, after)
    return "; ".join(text for text, _ in found if text) if any(changed for _, changed in found) else "nothing changed"


def lines_of_intents(run, before, after):
    for intent in run.intents:
        yield f"{actor_of(intent, before)} {intent.action}{words_of(intent, before)}: {became(intent, run.player, before, after)}"


# ---- the run


def shown(text):
    """Bytes as text, line by line."""
    return "".join(chr(byte) if 32 <= byte < 127 or byte == 10 else f"\\x{byte:02x}" for byte in text)


def lines_of_text(account):
    if account is None:
        return ["the world has no such player"]
    if not account.memory:
        return ["the memory text is empty"]
    return [f"the memory text, {len(account.memory)} bytes:", shown(account.memory).removesuffix("\n")]


def lines_of(player, tick, record, before, world):
    """What is printed of a player's run."""
    run = next((run for run in record.runs if run.player == player), None) if record else None
    if run is None:
        yield f"player {player} has no run in tick {tick}"
    else:
        at = f" at {TRAPS.get(run.trap, run.trap)}" if run.trap else ""
        yield f"player {player} {run.outcome}{at}, {len(run.intents)} intents"
        yield from lines_of_intents(run, before, Moment(world))
    yield from lines_of_text(world.accounts.get(player))


def run(words):
    numbers = [number(word) for word in words[1:]]
    if len(words) != 3 or None in numbers:
        raise Refused("the words are JOURNAL PLAYER TICK: --help says more")
    player, tick = numbers
    moments = []
    # (a world goes on in place, but the lists of its objects don't)
    record, world = world_of(words[0], tick, lambda _, world: moments.append(Moment(world)) if world.tick + 1 == tick else None)
    return lines_of(player, tick, record, moments[-1] if moments else None, world)


if __name__ == "__main__":
    answer("show_run.py", run, __doc__)
