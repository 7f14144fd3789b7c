"""The game's numbers, what objects hold, and what players do, for the checks and the measures.

It is a second, slow writing of the tables in docs/players.md and of the rules in docs/formats.md, which shares nothing with the program.
An object is what a world file has of it, with every key. How creeps step stands in oracle/movement.py.
"""

import math

SECOND = 1 << 32
FIELDS = ("owner", "energy", "timer", "extra", "progress", "other", "other_ticks")
KINDS = ["source", "controller", "creep", "spawn", "extension", "storage", "container", "road", "pile", "site"]
BUILDINGS = ("spawn", "extension", "storage", "container", "road")
STORES = ("spawn", "extension", "storage", "container")
OBSTRUCTING = ("source", "controller", "spawn", "extension", "storage")
OF_OWNERS = ("spawn", "extension", "storage")
FIXED = ("source", "controller", *BUILDINGS, "site")
PARTS = ["move", "work", "carry", "attack", "ranged_attack", "tough", "heal", "claim"]
HITS = {"spawn": 5000, "extension": 1000, "storage": 10_000, "container": 250_000, "road": 5000}
TOTALS = {"spawn": 15_000, "extension": 3000, "storage": 30_000, "container": 5000, "road": 300}
MOST_PILE = 10**9
MOST_SUM = 2**32 - 1
MOST_POINTS = 2**53

# Of each level of a controller the progress at which the next one is reached, and the ticks for which it is kept.
LEVELS = [0, 200, 45_000, 135_000, 405_000, 1_215_000, 3_645_000, 10_935_000, 0]
DOWNGRADES = [0, 20_000, 10_000, 20_000, 40_000, 80_000, 120_000, 150_000, 200_000]
LAST_LEVEL = 8
MOST_AT_LAST = 15
MOST_RESERVED = 5000

# Of each level how many buildings of a kind a room may have, with those that sites are for.
COUNTS = {
    "spawn": [0, 1, 1, 1, 1, 1, 1, 2, 3],
    "extension": [0, 0, 5, 10, 20, 30, 40, 50, 60],
    "storage": [0, 0, 0, 0, 1, 1, 1, 1, 1],
    "container": [5] * 9,
    "road": [2500] * 9,
}
MOST_SITES = 100

# What the parts of a creep cost that a spawn makes, and the ticks that each of them takes.
COSTS = {"move": 50, "work": 100, "carry": 50, "attack": 80, "ranged_attack": 150, "tough": 10, "heal": 250, "claim": 600}
MOST_PARTS = 50
PART_TICKS = 3

NOT_OWNER, BUSY, NOT_FOUND, NOT_ENOUGH, INVALID_TARGET, FULL = -1, -4, -5, -6, -7, -8
NOT_IN_RANGE, INVALID, TIRED, NO_BODYPART, LEVEL_NOT_ENOUGH, GLOBAL_LEVEL_NOT_ENOUGH = -9, -10, -11, -12, -14, -15


def thing(kind, id, x, y, **fields):
    return {"id": id, "kind": kind, "x": x, "y": y, **fields}


# ---- objects


def part_hits(one, place):
    if one["kind"] != "creep":
        return 100
    return min(100, max(0, one["hits"] - 100 * (len(one["body"]) - 1 - place)))


def live(creep, part):
    """How many parts of a kind have hits."""
    return sum(it == part and part_hits(creep, place) > 0 for place, it in enumerate(creep["body"]))


def controller_of(objects):
    return next((one for one in objects if one["kind"] == "controller"), None)


def source_room(objects):
    controller = controller_of(objects)
    return 3000 if controller and (controller["owner"] or controller["other"]) else 1500


def capacity(one, objects):
    """The energy that an object of a room with these objects holds."""
    if one["kind"] == "source":
        return source_room(objects)
    if one["kind"] == "creep":
        return 50 * live(one, "carry")
    if one["kind"] == "extension":
        controller = controller_of(objects)
        return {7: 100, 8: 200}.get(controller["extra"] if controller else 0, 50)
    return {"spawn": 300, "storage": 1_000_000, "container": 2000}.get(one["kind"], 0)


def count_of(kind, objects):
    """How many of a kind there are, with those that sites are for."""
    return sum(one["kind"] == kind or one["kind"] == "site" and KINDS[one["extra"] - 1] == kind for one in objects)


def payers(player, objects):
    """What of these pays for a player's creeps, in its order: spawns first, then extensions, each in rising id."""
    mine = [one for one in objects if one["kind"] in ("spawn", "extension") and one["owner"] == player]
    return sorted(mine, key=lambda one: (one["kind"] == "extension", one["id"]))


def cost_of(body):
    return sum(COSTS[part] for part in body)


def lifetime(body):
    return 600 if "claim" in body else 1500


def global_level(points):
    return 1 + math.isqrt(points // 1_000_000)


def full_timer(kind, objects):
    """How long a building of a room with these objects keeps its hits."""
    controller = controller_of(objects)
    return {"road": 1000, "container": 500 if controller and controller["owner"] else 100}.get(kind, 0)


def free_room(one, objects):
    return max(0, capacity(one, objects) - one["energy"])


def hits_max(one):
    return 100 * len(one["body"]) if one["kind"] == "creep" else HITS.get(one["kind"], 0)


def place_of(name):
    """The column and the row of a room's name."""
    row = max(name.rfind("N"), name.rfind("S"))
    column, line = int(name[1:row]), int(name[row + 1 :])
    return (-1 - column if name[0] == "W" else column), (-1 - line if name[row] == "N" else line)


def distance(one, other):
    return max(abs(one["x"] - other["x"]), abs(one["y"] - other["y"]))


# ---- actions


class Action:
    """An action: its number, the part that it needs, the kinds of its targets, how far they may be, whether the creep itself may be one, and what
    its actor is."""

    def __init__(self, number, part=None, targets=(), reach=0, itself=False, actor="creep"):
        self.number, self.part, self.targets, self.reach, self.itself, self.actor = number, part, targets, reach, itself, actor


# Those that are in force, in the order in which a tick applies them. A tile is an actor by its number through all rooms, row by row.
ACTIONS = {
    "drop": Action(1),
    "transfer": Action(2, None, ("creep", *STORES), 1),
    "withdraw": Action(3, None, STORES, 1),
    "pickup": Action(4, None, ("pile",), 1),
    "heal": Action(5, "heal", ("creep",), 1, itself=True),
    "ranged_heal": Action(6, "heal", ("creep",), 3, itself=True),
    "dismantle": Action(7, "work", BUILDINGS, 1),
    "attack": Action(8, "attack", ("creep", *BUILDINGS), 1),
    "harvest": Action(9, "work", ("source",), 1),
    "repair": Action(10, "work", BUILDINGS, 3),
    "build": Action(11, "work", ("site",), 3),
    "ranged_mass_attack": Action(12, "ranged_attack"),
    "ranged_attack": Action(13, "ranged_attack", ("creep", *BUILDINGS), 3),
    "suicide": Action(14),
    "claim_controller": Action(15, "claim", ("controller",), 1),
    "upgrade": Action(16, "work", ("controller",), 3),
    "reserve": Action(17, "claim", ("controller",), 1),
    "attack_controller": Action(18, "claim", ("controller",), 1),
    "create_site": Action(19, actor="tile"),
    "remove_site": Action(20, actor="site"),
    "spawn_creep": Action(21, actor="spawn"),
    "move": Action(22, "move"),
}

# What a step in a direction adds to x and to y, by its number: clockwise from the top.
DIRECTIONS = {1: (0, -1), 2: (1, -1), 3: (1, 0), 4: (1, 1), 5: (0, 1), 6: (-1, 1), 7: (-1, 0), 8: (-1, -1)}

# An entry doesn't count where the same creep has one of these actions too, whether that one counts or not.
OVERRULED_BY = {
    "ranged_heal": ("heal",),
    "attack_controller": ("heal", "ranged_heal"),
    "dismantle": ("heal", "ranged_heal", "attack_controller"),
    "repair": ("heal", "ranged_heal", "attack_controller", "dismantle"),
    "build": ("heal", "ranged_heal", "attack_controller", "dismantle", "repair"),
    "attack": ("heal", "ranged_heal", "attack_controller", "dismantle", "repair", "build"),
    "harvest": ("heal", "ranged_heal", "attack_controller", "dismantle", "repair", "build", "attack"),
    "ranged_mass_attack": ("ranged_heal", "repair", "build"),
    "ranged_attack": ("ranged_heal", "repair", "build", "ranged_mass_attack"),
}


def counting(entries):
    """Those entries of a player that count, by action and creep."""
    return {(name, id): it for (name, id), it in entries.items() if not any((other, id) in entries for other in OVERRULED_BY.get(name, ()))}


def first_failing(rows):
    """Of checks in their order, each whether it holds and the code where it doesn't, the code of the first that fails, or 0."""
    return next((code for holds, code in rows if not holds), 0)


def refusal(name, player, actor, target, amount, least, objects):
    """The code of the first check of a creep's action that fails, or 0.

    Actor and target are what stands under their ids, each a room's index and an object, or None. The objects are those of the
    actor's room; the least is how much there has to be."""
    action = ACTIONS[name]
    if actor is None or actor[1]["kind"] != "creep":
        return NOT_FOUND
    if actor[1]["owner"] != player:
        return NOT_OWNER
    if amount < 0 or name == "move" and amount not in DIRECTIONS:
        return INVALID
    if action.part and live(actor[1], action.part) == 0:
        return NO_BODYPART
    if action.targets:
        if target is None or target[1]["kind"] not in action.targets or target[1] is actor[1] and not action.itself:
            return INVALID_TARGET
        if target[0] != actor[0] or distance(target[1], actor[1]) > action.reach:
            return NOT_IN_RANGE
    return first_failing(FURTHER[name](player, actor[1], target and target[1], least, objects) if name in FURTHER else ())


def others_of(controller, player):
    """The players but this one who own or reserve a controller."""
    return {controller["owner"], controller["other"]} - {0, player}


def of_harvest(player, _, source, __, objects):
    controller = controller_of(objects)
    others = others_of(controller, player) if controller else ()
    return (not others, NOT_OWNER), (source["energy"] > 0, NOT_ENOUGH)


def of_free(player, _, controller, *__):
    """Nobody owns the controller, and no other player reserves it."""
    return ((controller["owner"] == 0 and controller["other"] in (0, player), INVALID_TARGET),)


def of_upgrade(player, creep, controller, *_):
    return (controller["owner"] == player, NOT_OWNER), (creep["energy"] > 0, NOT_ENOUGH)


def of_build(player, creep, site, _, objects):
    obstructs = KINDS[site["extra"] - 1] in OBSTRUCTING
    taken = obstructs and any(one["kind"] == "creep" and distance(one, site) == 0 for one in objects)
    return (site["owner"] == player, NOT_OWNER), (creep["energy"] > 0, NOT_ENOUGH), (not taken, INVALID_TARGET)


# What some check last, in order: whether it holds, and the code where it doesn't.
FURTHER = {
    "drop": lambda _, creep, __, least, ___: ((creep["energy"] >= least, NOT_ENOUGH),),
    "transfer": lambda _, creep, taker, least, objects: ((creep["energy"] >= least, NOT_ENOUGH), (free_room(taker, objects) >= least, FULL)),
    "withdraw": lambda _, creep, store, least, objects: ((store["energy"] >= least, NOT_ENOUGH), (free_room(creep, objects) >= least, FULL)),
    "pickup": lambda _, creep, __, ___, objects: ((free_room(creep, objects) >= 1, FULL),),
    "harvest": of_harvest,
    "repair": lambda _, creep, *__: ((creep["energy"] > 0, NOT_ENOUGH),),
    "build": of_build,
    "claim_controller": of_free,
    "upgrade": of_upgrade,
    "reserve": of_free,
    "attack_controller": lambda player, _, controller, *__: ((others_of(controller, player), INVALID_TARGET),),
    "move": lambda _, creep, *__: ((creep["extra"] == 0, TIRED),),
}


# ---- the checks of what no creep does, each whether it holds and the code where it doesn't


def sees(player, objects):
    """Whether a player sees the room in which these objects stand: by a creep, a building or a controller of his."""
    return any(one["owner"] == player and one["kind"] in ("creep", "controller", *BUILDINGS) for one in objects)


def of_site(player, number, x, y, place, recorded=0, sites=0):
    """The checks of a new site for the kind of a number on a tile of a room. So many of that kind are recorded for other tiles of the room, and
    so many sites the player has in the world, with all that are recorded for other tiles."""
    yield 1 <= x <= 48 and 1 <= y <= 48 and 1 <= number <= len(KINDS) and KINDS[number - 1] in BUILDINGS, INVALID
    kind, objects = KINDS[number - 1], place["objects"]
    # (without a controller a room counts as one of level 0 that is nobody's)
    controller = controller_of(objects) or {"owner": 0, "other": 0, "extra": 0}
    yield not others_of(controller, player), NOT_OWNER
    yield kind not in OF_OWNERS or controller["owner"] == player, LEVEL_NOT_ENOUGH
    yield count_of(kind, objects) + recorded < COUNTS[kind][controller["extra"]], LEVEL_NOT_ENOUGH
    standing = {one["kind"] for one in objects if (one["x"], one["y"]) == (x, y)}
    yield place["terrain"][50 * y + x] != "1" and not standing & set(FIXED), INVALID_TARGET
    yield kind not in OBSTRUCTING or "creep" not in standing, INVALID_TARGET
    yield sites < MOST_SITES, FULL


def of_removal(player, site):
    yield site is not None and site["kind"] == "site", NOT_FOUND
    yield site["owner"] == player, NOT_OWNER


def of_spawn(player, spawn, body, objects):
    """The checks of a new creep of these parts, or of what is none, by a spawn among the objects of its room."""
    yield spawn is not None and spawn["kind"] == "spawn", NOT_FOUND
    yield spawn["owner"] == player, NOT_OWNER
    yield spawn["timer"] == 0, BUSY
    yield body is not None and 1 <= len(body) <= MOST_PARTS, INVALID
    yield cost_of(body) <= sum(one["energy"] for one in payers(player, objects)), NOT_ENOUGH


# ---- what they make of the world


class Harm:
    """The damage and the healing of a tick, summed by the ids of the objects that get it at its end."""

    def __init__(self):
        self.damage, self.healing = {}, {}

    def hurt(self, one, amount):
        self.damage[one["id"]] = min(MOST_SUM, self.damage.get(one["id"], 0) + amount)

    def heal(self, one, amount):
        self.healing[one["id"]] = min(MOST_SUM, self.healing.get(one["id"], 0) + amount)

    def hits_left(self, one):
        """The hits that a creep or a building has then."""
        left = one["hits"] - self.damage.get(one["id"], 0)
        if one["kind"] != "creep":
            return max(0, left)
        # (one that has ended itself isn't brought back)
        return min(hits_max(one), max(0, left + self.healing.get(one["id"], 0))) if one["hits"] else 0


class Course:
    """The rooms of a world in the course of a tick, in which objects are found by their ids, and piles by their tiles. New objects stand
    at the end of their room. The points that players gain are summed by their numbers."""

    def __init__(self, rooms, harm=None):
        self.rooms, self.harm, self.gains = rooms, harm or Harm(), {}
        self.found = {one["id"]: (index, one) for index, place in enumerate(rooms) for one in place["objects"]}
        self.piles = {(index, one["x"], one["y"]): one for index, one in self.found.values() if one["kind"] == "pile"}

    def make(self, index, kind, x, y, **fields):
        """A new object of a room, with its next id."""
        place = self.rooms[index]
        one = {**thing(kind, index * SECOND + place["next"], x, y, body=[], hits=0), **dict.fromkeys(FIELDS, 0), **fields}
        place["next"] += 1
        place["objects"].append(one)
        self.found[one["id"]] = (index, one)
        if kind == "pile":
            self.piles[index, x, y] = one

    def remove(self, index, one):
        self.rooms[index]["objects"] = [it for it in self.rooms[index]["objects"] if it is not one]
        del self.found[one["id"]]
        if one["kind"] == "pile":
            del self.piles[index, one["x"], one["y"]]

    def lose(self, index, one):
        """An object is gone, and its energy falls on its tile."""
        self.remove(index, one)
        self.fall(index, one, one["energy"])

    def fall(self, index, one, amount):
        """An amount falls on the tile of an object."""
        if amount == 0:
            return
        pile = self.piles.get((index, one["x"], one["y"]))
        if pile:
            pile["energy"] = min(MOST_PILE, pile["energy"] + amount)
        else:
            self.make(index, "pile", one["x"], one["y"], energy=min(MOST_PILE, amount))

    def parties(self, player, name, id, target, amount):
        """The creep and the target of an entry, each a room's index and an object, where its checks hold on the world as those before it left
        it, and else None."""
        actor, target = self.found.get(id), self.found.get(target)
        objects = self.rooms[actor[0]]["objects"] if actor else []
        # (an object that stands elsewhere is none here)
        target = target if target and actor and target[0] == actor[0] else None
        if refusal(name, player, actor, target, amount, 1, objects) or actor[1]["hits"] == 0:
            return None
        return actor, target

    def act(self, player, name, id, target, amount, body=()):
        """What an entry does: whether it did anything."""
        if ACTIONS[name].actor != "creep":
            return getattr(self, "do_" + name)(player, id, amount, body)
        found = self.parties(player, name, id, target, amount)
        if found:
            actor, target = found
            getattr(self, "do_" + name)(*actor, target and target[1], amount)
        return found is not None

    def room_for(self, index, one):
        return free_room(one, self.rooms[index]["objects"])

    def do_drop(self, index, creep, _, amount):
        amount = min(amount or creep["energy"], creep["energy"])
        creep["energy"] -= amount
        self.fall(index, creep, amount)

    def do_transfer(self, index, creep, taker, amount):
        amount = min(amount or creep["energy"], creep["energy"], self.room_for(index, taker))
        creep["energy"] -= amount
        taker["energy"] += amount

    def do_withdraw(self, index, creep, store, amount):
        amount = min(amount or store["energy"], store["energy"], self.room_for(index, creep))
        store["energy"] -= amount
        creep["energy"] += amount

    def do_pickup(self, index, creep, pile, _):
        amount = min(pile["energy"], self.room_for(index, creep))
        creep["energy"] += amount
        pile["energy"] -= amount
        if pile["energy"] == 0:
            self.remove(index, pile)

    def gain(self, index, creep, amount):
        """A creep gets an amount, and what it has no room for falls on its tile."""
        taken = min(amount, self.room_for(index, creep))
        creep["energy"] += taken
        self.fall(index, creep, amount - taken)

    def do_heal(self, _, creep, target, __):
        self.harm.heal(target, 12 * live(creep, "heal"))

    def do_ranged_heal(self, _, creep, target, __):
        self.harm.heal(target, 4 * live(creep, "heal"))

    def do_dismantle(self, index, creep, building, _):
        torn = 50 * live(creep, "work")
        self.harm.hurt(building, torn)
        self.gain(index, creep, min(torn, building["hits"]) // 200)

    def do_attack(self, _, creep, target, __):
        self.harm.hurt(target, 30 * live(creep, "attack"))
        if target["kind"] == "creep":
            self.harm.hurt(creep, 30 * live(target, "attack"))

    def do_harvest(self, index, creep, source, _):
        amount = min(2 * live(creep, "work"), source["energy"])
        source["energy"] -= amount
        self.gain(index, creep, amount)

    def do_repair(self, _, creep, building, __):
        gain = min(100 * live(creep, "work"), hits_max(building) - building["hits"], 100 * creep["energy"])
        building["hits"] += gain
        creep["energy"] -= -(-gain // 100)

    def do_build(self, index, creep, site, _):
        kind = KINDS[site["extra"] - 1]
        work = min(5 * live(creep, "work"), creep["energy"], TOTALS[kind] - site["progress"])
        creep["energy"] -= work
        site["progress"] += work
        if site["progress"] < TOTALS[kind]:
            return
        self.remove(index, site)
        timer = full_timer(kind, self.rooms[index]["objects"])
        owner = site["owner"] if kind in OF_OWNERS else 0
        self.make(index, kind, site["x"], site["y"], owner=owner, hits=HITS[kind], timer=timer)

    def do_ranged_mass_attack(self, index, creep, _, __):
        parts = live(creep, "ranged_attack")
        for one in self.rooms[index]["objects"]:
            is_foe = one["kind"] in ("creep", *BUILDINGS) and one["owner"] not in (0, creep["owner"])
            if is_foe and distance(one, creep) <= 3:
                self.harm.hurt(one, (10, 10, 4, 1)[distance(one, creep)] * parts)

    def do_ranged_attack(self, _, creep, target, __):
        self.harm.hurt(target, 10 * live(creep, "ranged_attack"))

    def do_suicide(self, _, creep, __, ___):
        creep["hits"] = 0

    def do_claim_controller(self, _, creep, controller, __):
        controller.update(owner=creep["owner"], extra=1, progress=0, timer=DOWNGRADES[1], other=0, other_ticks=0)

    def do_upgrade(self, _, creep, controller, __):
        put = min(live(creep, "work"), creep["energy"])
        if controller["extra"] == LAST_LEVEL:
            # (what was put into it in this tick stands where a reservation has its ticks)
            put = min(put, max(0, MOST_AT_LAST - controller["other_ticks"]))
        creep["energy"] -= put
        controller["other_ticks"] = min(MOST_SUM, controller["other_ticks"] + put)
        self.gains[creep["owner"]] = self.gains.get(creep["owner"], 0) + put
        if controller["extra"] != LAST_LEVEL:
            controller["progress"] += put
        if controller["extra"] != LAST_LEVEL and controller["progress"] >= LEVELS[controller["extra"]]:
            rise(controller)
        elif put > 0:
            controller["timer"] = min(DOWNGRADES[controller["extra"]], controller["timer"] + 100)

    def do_reserve(self, _, creep, controller, __):
        before = controller["other_ticks"] if controller["other"] else 1
        controller.update(other=creep["owner"], other_ticks=min(MOST_RESERVED, before + live(creep, "claim")))

    def do_attack_controller(self, _, creep, controller, __):
        parts = live(creep, "claim")
        if controller["owner"]:
            controller["timer"] = max(1, controller["timer"] - 300 * parts)
        else:
            controller["other_ticks"] = max(1, controller["other_ticks"] - parts)

    def do_create_site(self, player, tile, number, _):
        """A site is made, where its checks hold in the room alone: whether it was."""
        index, tile = divmod(tile, 2500)
        y, x = divmod(tile, 50)
        place = self.rooms[index]
        if not sees(player, place["objects"]) or first_failing(of_site(player, number, x, y, place)):
            return False
        self.make(index, "site", x, y, owner=player, extra=number)
        return True

    def do_remove_site(self, player, id, *_):
        index, site = self.found.get(id, (None, None))
        if first_failing(of_removal(player, site)) or not sees(player, self.rooms[index]["objects"]):
            return False
        self.remove(index, site)
        return True

    def do_spawn_creep(self, player, id, _, body):
        """A spawn begins to make a creep, for which its player's spawns and extensions of the room pay: whether it did."""
        index, spawn = self.found.get(id, (None, None))
        objects = self.rooms[index]["objects"] if spawn else []
        if first_failing(of_spawn(player, spawn, body, objects)):
            return False
        cost = cost_of(body)
        for payer in payers(player, objects):
            paid = min(payer["energy"], cost)
            payer["energy"] -= paid
            cost -= paid
        spawn.update(body=list(body), timer=PART_TICKS * len(body))
        return True


def rise(controller):
    """A controller comes to its next level, with what it has above the total, and half of that level's time."""
    controller["progress"] -= LEVELS[controller["extra"]]
    controller["extra"] += 1
    controller["timer"] = DOWNGRADES[controller["extra"]] // 2
    if controller["extra"] == LAST_LEVEL:
        controller["progress"] = 0
