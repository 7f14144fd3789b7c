/* The cheapest way to a goal within a room, by the ground that a creep comes onto: a search that may be cut, and goes on in the
 * next tick.
 *
 * The search begins at its goals and spreads over the room, the cheapest tile always next, until it reaches the tile from which
 * somebody wants to go. Each tile that it reaches gets the direction of the first step of a cheapest way from there to a goal.
 * So one search serves all creeps of the room that want to the same goals, also in later ticks, as long as what stands in the
 * room doesn't change.
 *
 *     static struct path path;
 *
 *     path_begin(&path, room);                  reads the ground of the room, and what stands there
 *     path_round_creeps(&path, creep);          where creeps are to be passed round: without it they count as gone
 *     path_to_range(&path, x, y, 1);            the goals, as many as are wanted: the nearest is gone to
 *     path_search(&path, from_x, from_y, 500)   PATH_FOUND, PATH_CUT or PATH_NONE, with at most 500 tiles this time
 *     path_step(&path, from_x, from_y)          the direction of the first step, for screeps_move
 *
 * To step onto a tile costs 1 where a road lies, 10 on swamp and else 2: so tired it makes a creep, for each of its weight.
 * Closed are walls, and the tiles of sources, controllers, spawns, extensions and storages. Border tiles are goals or beginnings
 * only: no way leads over them, since who steps onto one goes to the next room.
 *
 * All that a search knows stands in its struct path, of 2,716 bytes without an address. To go on in the next tick, keep these
 * bytes in the memory text: with what else is kept there, or alone by path_save and path_load. Read them before the first call
 * with the struct in a tick. All memory is static: some 5,500 bytes, and what a player has of struct path.
 */
#ifndef PATH_H
#define PATH_H

#include "screeps.h"

/* Functions of this file, of which a player needs not call all. */
#define PATH_FUNCTION __attribute__((unused)) static

/* What a step onto a tile costs. */
enum { PATH_ROAD = 1, PATH_PLAIN = 2, PATH_SWAMP = 10 };

/* What a search answers. */
enum {
    PATH_FOUND = 0, /* the tile is reached: path_step knows its direction */
    PATH_CUT = 1,   /* so many tiles were not enough: call it again, now or in the next tick */
    PATH_NONE = 2   /* no way leads from the tile to a goal */
};

/* What path_step answers where there is no direction: at a goal, and at a tile that isn't reached. */
enum { PATH_AT_GOAL = 0, PATH_UNKNOWN = -1 };

/* More than these take, in instructions: path_begin, which reads a room, and for each object that the player sees; a search that
 * goes on in another tick; and each tile that it settles. */
enum { PATH_COST_OF_ROOM = 60000, PATH_COST_OF_OBJECT = 60, PATH_COST_OF_GOING_ON = 30000, PATH_COST_OF_TILE = 200 };

/* A room has 50 rows and columns of tiles; around them stands a frame of closed ones, so that each has eight beside it. */
enum { PATH_SIDE = 50, PATH_ROW = PATH_SIDE + 2, PATH_TILES = PATH_ROW * PATH_ROW };

/* A search. */
struct path {
    unsigned form; /* PATH_FORM, where it is a search */
    int room;      /* the index of its room */
    unsigned cost; /* the cost up to which tiles are settled */
    union {
        unsigned char tiles[PATH_TILES]; /* what is known of each tile, row by row, with the frame: see below */
        unsigned fours[PATH_TILES / 4];  /* the same, of four tiles at a time */
    };
};

/* The sign of a struct path that path_begin made. */
enum { PATH_FORM = 0x48544150 };

/* What a byte of a tile says:
 *
 *     1, 2 or 10                                      open and not reached yet; so much a step onto it costs
 *     PATH_BORDER more                                and it is a border tile
 *     PATH_SETTLED + direction                        settled, with the direction of its first step, or 0 at a goal
 *     PATH_CLOSED                                     no way leads over it
 *     PATH_WAITING + PATH_LISTS * direction + list    reached, and in one of the lists below, to be settled later
 *
 * So all from PATH_DONE on need not be reached any more, and the highest bit is set where a tile waits. */
enum { PATH_BORDER = 16, PATH_DONE = 64, PATH_SETTLED = 64, PATH_CLOSED = 127, PATH_WAITING = 128 };

/* ---- the tiles that wait
 *
 * A step costs 1 to 10, so those that wait cost at most 10 more than the one that is settled next. Those of one cost stand
 * in one list, and eleven lists that are used in turn are enough: nothing has to be sorted. The first time that a tile is
 * reached is the cheapest one, since what a step costs depends on the tile onto which it leads alone. */
enum { PATH_LISTS = PATH_SWAMP + 1 };

static const struct path *path_listed;         /* the search whose tiles stand in the lists, if any */
static unsigned short path_first[PATH_LISTS];  /* the first tile of each list, or 0 */
static unsigned short path_behind[PATH_TILES]; /* the tile behind each in its list, or 0 */

/* The place of a tile in a struct path; x and y are -1 to 50. */
static unsigned path_tile(int x, int y) { return (unsigned)((y + 1) * PATH_ROW + x + 1); }

/* The tile stands in the list from now on. */
static void path_enlist(unsigned tile, unsigned list) {
    path_behind[tile] = path_first[list];
    path_first[list] = (unsigned short)tile;
}

/* All lists are empty, and are this search's. */
static void path_empty_lists(const struct path *path) {
    for (unsigned list = 0; list < PATH_LISTS; list++) {
        path_first[list] = 0;
    }
    path_listed = path;
}

/* Enlists those of four tiles that wait. */
static void path_enlist_four(const struct path *path, unsigned first) {
    for (unsigned tile = first; tile < first + 4; tile++) {
        if (path->tiles[tile] >= PATH_WAITING) {
            path_enlist(tile, (path->tiles[tile] - PATH_WAITING) % PATH_LISTS);
        }
    }
}

/* Fills the lists with the tiles of a search that wait, where they are another's, as at first in a tick. */
static void path_fill_lists(const struct path *path) {
    if (path_listed == path) {
        return;
    }
    path_empty_lists(path);
    for (unsigned four = 0; four < PATH_TILES / 4; four++) {
        if (path->fours[four] & PATH_WAITING * 0x01010101u) {
            path_enlist_four(path, 4 * four);
        }
    }
}

/* The tile is reached, with the direction of its first step, and waits from now on. */
static void path_reach(struct path *path, unsigned tile, unsigned direction, unsigned step) {
    unsigned list = (path->cost + step) % PATH_LISTS;
    path->tiles[tile] = (unsigned char)(PATH_WAITING + PATH_LISTS * direction + list);
    path_enlist(tile, list);
}

/* Looks at a tile beside the one that is being settled, to which this direction leads from it. Where it is open it is reached
 * now. A border tile only gets its direction, as who stands there may leave it. */
static void path_look(struct path *path, unsigned tile, unsigned direction) {
    unsigned step = path->tiles[tile];
    if (step >= PATH_DONE) {
        return;
    }
    if (step < PATH_BORDER) {
        path_reach(path, tile, direction, step);
    } else {
        path->tiles[tile] = (unsigned char)(PATH_SETTLED + direction);
    }
}

/* Settles a tile: those beside it lead to it. */
static void path_settle(struct path *path, unsigned tile) {
    path->tiles[tile] = (unsigned char)(PATH_SETTLED + (path->tiles[tile] - PATH_WAITING) / PATH_LISTS);
    path_look(path, tile - PATH_ROW - 1, DIRECTION_BOTTOM_RIGHT);
    path_look(path, tile - PATH_ROW + 1, DIRECTION_BOTTOM_LEFT);
    path_look(path, tile + PATH_ROW - 1, DIRECTION_TOP_RIGHT);
    path_look(path, tile + PATH_ROW + 1, DIRECTION_TOP_LEFT);
    path_look(path, tile - PATH_ROW, DIRECTION_BOTTOM);
    path_look(path, tile + PATH_ROW, DIRECTION_TOP);
    path_look(path, tile - 1, DIRECTION_RIGHT);
    path_look(path, tile + 1, DIRECTION_LEFT);
}

/* The cheapest tile that waits, taken out of its list, or 0 where none does. */
static unsigned path_take(struct path *path) {
    for (unsigned empty = 0; empty < PATH_LISTS; empty++) {
        unsigned list = path->cost % PATH_LISTS, tile = path_first[list];
        if (tile != 0) {
            path_first[list] = path_behind[tile];
            return tile;
        }
        path->cost++;
    }
    return 0;
}

/* ---- the room of a search */

/* Reads the ground of all tiles of a room in sight. */
static void path_read_ground(struct path *path) {
    static const unsigned char steps[] = {PATH_PLAIN, PATH_CLOSED, PATH_SWAMP}; /* by the numbers of the grounds */
    int room = path->room;
    for (int y = 0; y < PATH_SIDE; y++) {
        unsigned char *row = path->tiles + path_tile(0, y);
        for (int x = 0; x < PATH_SIDE; x++) {
            row[x] = steps[screeps_terrain(room, x, y)];
        }
    }
}

static void path_close(struct path *path, unsigned tile) { path->tiles[tile] = PATH_CLOSED; }

/* Closes all tiles, with the frame. */
static void path_close_all(struct path *path) {
    for (unsigned four = 0; four < PATH_TILES / 4; four++) {
        path->fours[four] = PATH_CLOSED * 0x01010101u;
    }
}

static void path_mark_border_tile(struct path *path, unsigned tile) {
    if (path->tiles[tile] < PATH_BORDER) {
        path->tiles[tile] += PATH_BORDER;
    }
}

/* Marks the open tiles at the border. */
static void path_mark_border(struct path *path) {
    for (int at = 0; at < PATH_SIDE; at++) {
        path_mark_border_tile(path, path_tile(at, 0));
        path_mark_border_tile(path, path_tile(at, PATH_SIDE - 1));
        path_mark_border_tile(path, path_tile(0, at));
        path_mark_border_tile(path, path_tile(PATH_SIDE - 1, at));
    }
}

/* No creep comes onto the tile of an object of this kind. */
static int path_obstructs(int kind) {
    return kind == KIND_SOURCE || kind == KIND_CONTROLLER || kind == KIND_SPAWN || kind == KIND_EXTENSION || kind == KIND_STORAGE;
}

static unsigned path_tile_of(int index) { return path_tile((int)screeps_get(index, FIELD_X), (int)screeps_get(index, FIELD_Y)); }

/* Closes the tiles on which something obstructs, and makes those with roads cheap. */
static void path_read_objects(struct path *path) {
    int count = screeps_count();
    for (int index = 0; index < count; index++) {
        if (screeps_get(index, FIELD_ROOM) != path->room) {
            continue;
        }
        int kind = (int)screeps_get(index, FIELD_KIND);
        if (path_obstructs(kind)) {
            path_close(path, path_tile_of(index));
        } else if (kind == KIND_ROAD) {
            path->tiles[path_tile_of(index)] = PATH_ROAD;
        }
    }
}

/* Begins a search in a room, which has no goal yet. In one that isn't in sight all tiles are closed. */
PATH_FUNCTION void path_begin(struct path *path, int room) {
    path->form = PATH_FORM;
    path->room = room;
    path->cost = 0;
    path_close_all(path);
    if (screeps_room_name(room) >= 0) {
        path_read_ground(path);
        path_mark_border(path);
        path_read_objects(path);
    }
    path_empty_lists(path);
}

/* Closes the tiles of all creeps of the room but that of the id `creep`, which is 0 where no creep is excepted: the way leads
 * round them as they stand now. Comes between path_begin and the goals. */
PATH_FUNCTION void path_round_creeps(struct path *path, long long creep) {
    int count = screeps_count();
    for (int index = 0; index < count; index++) {
        if (screeps_get(index, FIELD_KIND) == KIND_CREEP && screeps_get(index, FIELD_ROOM) == path->room &&
            screeps_get(index, FIELD_ID) != creep) {
            path_close(path, path_tile_of(index));
        }
    }
}

/* ---- goals: all are given before the first search. Each function answers how many tiles it made goals, since a tile that is
 * closed can be none. */

/* A tile is a goal, also one at the border; x and y are 0 to 49. */
PATH_FUNCTION int path_to_tile(struct path *path, int x, int y) {
    unsigned tile = path_tile(x, y), step = path->tiles[tile];
    path_fill_lists(path);
    if (step >= PATH_DONE) {
        return 0;
    }
    path_reach(path, tile, PATH_AT_GOAL, step % PATH_BORDER);
    return 1;
}

static int path_least(int one, int other) { return one < other ? one : other; }

static int path_most(int one, int other) { return one > other ? one : other; }

/* All tiles within a range of one are goals, but for those at the border: with 1 those from which a creep harvests a source
 * or fills a spawn, with 3 those from which it builds. */
PATH_FUNCTION int path_to_range(struct path *path, int x, int y, int range) {
    int right = path_least(x + range, PATH_SIDE - 2), bottom = path_least(y + range, PATH_SIDE - 2);
    int goals = 0;
    for (int row = path_most(y - range, 1); row <= bottom; row++) {
        for (int column = path_most(x - range, 1); column <= right; column++) {
            goals += path_to_tile(path, column, row);
        }
    }
    return goals;
}

/* The room lies beside another in this direction, which is DIRECTION_TOP, DIRECTION_RIGHT, DIRECTION_BOTTOM or DIRECTION_LEFT. */
static int path_lies_beside(int name, int other, int side) {
    int columns = side == DIRECTION_RIGHT ? 1 : side == DIRECTION_LEFT ? -1 : 0;
    int rows = side == DIRECTION_BOTTOM ? 1 : side == DIRECTION_TOP ? -1 : 0;
    return ROOM_COLUMN(name) == ROOM_COLUMN(other) + columns && ROOM_ROW(name) == ROOM_ROW(other) + rows;
}

/* The index of the room beside a room in sight in this direction, where it is in sight too, or -1. */
PATH_FUNCTION int path_room_beside(int room, int side) {
    int rooms = screeps_rooms(), name = screeps_room_name(room);
    for (int at = 0; at < rooms; at++) {
        int other = screeps_room(at);
        if (path_lies_beside(screeps_room_name(other), name, side)) {
            return other;
        }
    }
    return -1;
}

/* The tiles of a side of the room are goals, which is DIRECTION_TOP, DIRECTION_RIGHT, DIRECTION_BOTTOM or DIRECTION_LEFT: who steps onto one goes over to the room
 * there. Where that room is in sight, those that lead to a wall are left out. */
PATH_FUNCTION int path_to_exit(struct path *path, int side) {
    int beside = path_room_beside(path->room, side), across = side == DIRECTION_LEFT || side == DIRECTION_RIGHT;
    int near = side == DIRECTION_LEFT || side == DIRECTION_TOP ? 0 : PATH_SIDE - 1, far = PATH_SIDE - 1 - near;
    int goals = 0;
    for (int at = 1; at < PATH_SIDE - 1; at++) {
        if (beside < 0 || screeps_terrain(beside, across ? far : at, across ? at : far) != GROUND_WALL) {
            goals += path_to_tile(path, across ? near : at, across ? at : near);
        }
    }
    return goals;
}

/* ---- the search */

/* Searches until the tile from which somebody wants to go is reached, and settles at most so many tiles. It may be called for
 * another tile later, and goes on from where it is. x and y are 0 to 49. */
PATH_FUNCTION int path_search(struct path *path, int x, int y, int most) {
    unsigned from = path_tile(x, y);
    if (path->tiles[from] < PATH_DONE) {
        path_fill_lists(path);
    }
    for (; path->tiles[from] < PATH_DONE; most--) {
        if (most <= 0) {
            return PATH_CUT;
        }
        unsigned tile = path_take(path);
        if (tile == 0) {
            return PATH_NONE;
        }
        path_settle(path, tile);
    }
    return path->tiles[from] == PATH_CLOSED ? PATH_NONE : PATH_FOUND;
}

/* The direction of the first step of a cheapest way from the tile to a goal, or PATH_AT_GOAL, or PATH_UNKNOWN where the
 * search has not reached the tile. x and y are 0 to 49. */
PATH_FUNCTION int path_step(const struct path *path, int x, int y) {
    int known = path->tiles[path_tile(x, y)];
    if (known < PATH_DONE || known == PATH_CLOSED) {
        return PATH_UNKNOWN;
    }
    return known >= PATH_WAITING ? (known - PATH_WAITING) / PATH_LISTS : known - PATH_SETTLED;
}

/* ---- from tick to tick */

/* The bytes are a search in this room, as another tick may have left them. */
PATH_FUNCTION int path_is_in(const struct path *path, int room) { return path->form == PATH_FORM && path->room == room; }

/* Makes the search the memory text, in place of all that stood there. Answers as screeps_memory_write. */
PATH_FUNCTION int path_save(const struct path *path) { return screeps_memory_write(path, sizeof *path); }

/* Takes the search that is the memory text: 1, or 0 where the text is none. */
PATH_FUNCTION int path_load(struct path *path) {
    path_listed = 0;
    return screeps_memory_length() == (int)sizeof *path && screeps_memory_read(path) == CODE_OK && path->form == PATH_FORM;
}

#endif
