"""How creeps step from tile to tile and from room to room, for the checks and the measures.

It is a second writing of the rules in docs/formats.md, as oracle/game.py is, which shares nothing with the program. Who steps is found from
those who can't: a creep that stays keeps back the one that would step to its tile, and so on. checks/moves.py tries all sets instead.
"""

from game import DIRECTIONS, OBSTRUCTING, place_of


def tile_of(one):
    return one["x"], one["y"]


def ground_at(place, tile):
    """0 plain, 1 wall, 2 swamp."""
    x, y = tile
    return place["terrain"][50 * y + x]


# ---- steps


def ahead(creep, direction):
    """The tile to which a creep steps in a direction, or None past the end of the room."""
    x, y = (at + by for at, by in zip(tile_of(creep), DIRECTIONS[direction]))
    return (x, y) if 0 <= x < 50 and 0 <= y < 50 else None


def obstructed(place):
    """The tiles of a room on which something stands that lets no creep by."""
    return {tile_of(one) for one in place["objects"] if one["kind"] in OBSTRUCTING}


def is_open(place, x, y):
    """The tile of a room is no wall, and nothing there is in the way but, maybe, a creep."""
    return ground_at(place, (x, y)) != "1" and (x, y) not in obstructed(place)


def pace(place, tile):
    """How much a step onto a tile tires for each weight."""
    if any(one["kind"] == "road" and tile_of(one) == tile for one in place["objects"]):
        return 1
    return 10 if ground_at(place, tile) == "2" else 2


def wishes(course, entries):
    """The creeps that would step, by room: of each the tile to which, by its id. Entries are players, creeps and directions."""
    found, closed = {}, {}
    for player, id, direction in entries:
        parties = course.parties(player, "move", id, 0, direction)
        if parties is None:
            continue
        index, creep = parties[0]
        place, tile = course.rooms[index], ahead(creep, direction)
        if index not in closed:
            closed[index] = obstructed(place)
        if tile and ground_at(place, tile) != "1" and tile not in closed[index]:
            found.setdefault(index, {})[id] = tile
    return found


def movers(creeps, wished):
    """Those that step, and to which tile: creeps are tiles by ids, as wishes are. Of several to one tile the one with the least id may."""
    first = {}
    for id in sorted(wished):
        first.setdefault(wished[id], id)
    going = {id: tile for tile, id in first.items()}
    # (a creep that stays keeps back the one that would come to its tile)
    staying = [tile for id, tile in creeps.items() if id not in going]
    while staying:
        behind = first.get(staying.pop())
        if behind in going:
            del going[behind]
            staying.append(creeps[behind])
    return going


def weight(creep):
    """What makes a creep tired: its parts that neither move nor carry, live or not, and each 50 of its load that were begun."""
    return sum(part not in ("move", "carry") for part in creep["body"]) + (creep["energy"] + 49) // 50


def stepped(place, going):
    """All of them step at once; each is tired by the tile to which it comes, and wears the road there."""
    roads = {tile_of(one): one for one in place["objects"] if one["kind"] == "road"}
    for creep in place["objects"]:
        tile = going.get(creep["id"])
        if tile is None:
            continue
        pace = 1 if tile in roads else 10 if ground_at(place, tile) == "2" else 2
        creep.update(x=tile[0], y=tile[1], other_ticks=1, extra=weight(creep) * pace)
        if tile in roads:
            roads[tile]["timer"] = max(1, roads[tile]["timer"] - len(creep["body"]))


def moved(course, entries):
    """What the moves of a tick make of the rooms: the ids of those that step."""
    done = set()
    for index, wished in wishes(course, entries).items():
        place = course.rooms[index]
        going = movers({one["id"]: tile_of(one) for one in place["objects"] if one["kind"] == "creep"}, wished)
        stepped(place, going)
        done |= set(going)
    return done


# ---- crossings


def beyond(name, tile):
    """The column and the row of the room across the border from a tile, and the tile there; None from a corner, or from a tile inside."""
    (column, row), (x, y) = place_of(name), tile
    if x in (0, 49) and y not in (0, 49):
        return ((column - 1, row), (49, y)) if x == 0 else ((column + 1, row), (0, y))
    if y in (0, 49) and x not in (0, 49):
        return ((column, row - 1), (x, 49)) if y == 0 else ((column, row + 1), (x, 0))
    return None


def crossed(rooms):
    """Creeps that came onto a border tile go to the room behind it, where there is one and the tile is free: in rising id over all rooms.
    Then no creep has moved. Answers the ids of those that went."""
    indices = {place_of(place["name"]): index for index, place in enumerate(rooms)}
    creeps = [(one["id"], index, one) for index, place in enumerate(rooms) for one in place["objects"] if one["kind"] == "creep"]
    taken = {(index, *tile_of(one)) for _, index, one in creeps}
    went = {}
    for id, index, one in sorted(creeps, key=lambda it: it[0]):
        found = beyond(rooms[index]["name"], tile_of(one)) if one["other_ticks"] == 1 else None
        one["other_ticks"] = 0
        if found is None or found[0] not in indices:
            continue
        other, tile = indices[found[0]], found[1]
        if ground_at(rooms[other], tile) == "1" or (other, *tile) in taken:
            continue
        taken.remove((index, *tile_of(one)))
        taken.add((other, *tile))
        one.update(x=tile[0], y=tile[1])
        went[id] = index, other, one
    resettled(rooms, went)
    return set(went)


def resettled(rooms, went):
    """Creeps leave the objects of a room for those of another."""
    for index in {index for index, _, _ in went.values()}:
        rooms[index]["objects"] = [one for one in rooms[index]["objects"] if went.get(one["id"], (None,))[0] != index]
    for _, other, one in went.values():
        rooms[other]["objects"].append(one)
