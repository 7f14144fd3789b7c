/* A player whose creep walks from room to room and back, for ever: in each room it goes to a source, and then out by a side,
 * from rooms of even columns to the right and from those of odd ones to the left.
 *
 * It finds its way by players/path.h. A search over much of a room may cost more than a tick's budget: it is cut then, kept in
 * the memory text, and goes on in the next tick, while the creep waits.
 *
 * Built by players/build.sh.
 */
#include "path.h"

/* So many tiles a search settles in one tick at most; and where the budget isn't enough for so many at least it is saved for the
 * next tick. */
#define MOST_TILES 400
#define LEAST_TILES 100

/* More than looking at one object costs, in instructions, and all that is done besides in a tick. */
#define COST_OF_A_LOOK 40
#define COST_OF_A_TICK 1000

#define INSTRUCTIONS_OF_A_UNIT 10000

/* What the creep walks to. */
enum goal { SOURCE, EXIT };

/* What is kept in the memory text. */
struct notes {
    int goal;         /* of the search */
    struct path path; /* the search, in the room in which the creep is */
};

static struct notes notes;

struct creep {
    long long id;
    int room, x, y;
};

/* Reads the notes of the tick before. A text of another length is none of ours: then no search is in any room. */
static void read_notes(void) {
    if (screeps_memory_length() == sizeof notes) {
        screeps_memory_read(&notes);
    }
}

/* The index of the first own creep, or -1. */
static int find_creep(void) {
    unsigned me = (unsigned)screeps_me();
    int count = screeps_count();
    for (int index = 0; index < count; index++) {
        if (screeps_get(index, FIELD_KIND) == KIND_CREEP && screeps_get(index, FIELD_OWNER) == me) {
            return index;
        }
    }
    return -1;
}

/* The index of the first source in a room, or -1. */
static int find_source(int room) {
    int count = screeps_count();
    for (int index = 0; index < count; index++) {
        if (screeps_get(index, FIELD_KIND) == KIND_SOURCE && screeps_get(index, FIELD_ROOM) == room) {
            return index;
        }
    }
    return -1;
}

/* The side by which the creep leaves the room. */
static int side_of(int room) { return ROOM_COLUMN(screeps_room_name(room)) % 2 == 0 ? DIRECTION_RIGHT : DIRECTION_LEFT; }

/* Begins a search in the room of the creep. Where there is no source it goes on to the exit. */
static void begin(enum goal goal, const struct creep *creep) {
    int source = goal == SOURCE ? find_source(creep->room) : -1;
    path_begin(&notes.path, creep->room);
    path_round_creeps(&notes.path, creep->id);
    if (source >= 0) {
        notes.goal = SOURCE;
        path_to_range(&notes.path, (int)screeps_get(source, FIELD_X), (int)screeps_get(source, FIELD_Y), 1);
    } else {
        notes.goal = EXIT;
        path_to_exit(&notes.path, side_of(creep->room));
    }
}

/* How many tiles may be settled in this tick, in which a search is begun or goes on. */
static int most_tiles(int begins) {
    int rest = screeps_allowance() * INSTRUCTIONS_OF_A_UNIT - COST_OF_A_TICK - screeps_count() * 2 * COST_OF_A_LOOK;
    rest -= begins ? PATH_COST_OF_ROOM + screeps_count() * 2 * PATH_COST_OF_OBJECT : PATH_COST_OF_GOING_ON;
    return rest < MOST_TILES * PATH_COST_OF_TILE ? rest / PATH_COST_OF_TILE : MOST_TILES;
}

/* The creep steps in this direction of its search. On a border tile from which it didn't get over, as where another creep
 * stands beyond, it steps back, and comes again. */
static void step(const struct creep *creep, int direction) {
    if (direction == PATH_AT_GOAL && notes.goal == EXIT) {
        direction = side_of(creep->room) == DIRECTION_RIGHT ? DIRECTION_LEFT : DIRECTION_RIGHT;
    }
    if (direction != PATH_AT_GOAL) {
        screeps_move(creep->id, direction);
    }
}

/* The creep came to a source. */
static int is_at_source(const struct creep *creep) {
    return notes.goal == SOURCE && path_step(&notes.path, creep->x, creep->y) == PATH_AT_GOAL;
}

/* Sees to it that a search for the creep stands in the notes, and goes on with it as far as the budget allows. */
static int search(const struct creep *creep) {
    int is_new = !path_is_in(&notes.path, creep->room), begins = is_new || is_at_source(creep);
    int most = most_tiles(begins), is_known = !begins && path_step(&notes.path, creep->x, creep->y) != PATH_UNKNOWN;
    if (most < LEAST_TILES && !is_known) {
        return PATH_CUT;
    }
    if (begins) {
        begin(is_new ? SOURCE : EXIT, creep);
    }
    return path_search(&notes.path, creep->x, creep->y, most);
}

/* Where no way leads to the goal the search is forgotten, since one may in a later tick. */
static void walk(const struct creep *creep) {
    int found = search(creep);
    if (found == PATH_FOUND) {
        step(creep, path_step(&notes.path, creep->x, creep->y));
    } else if (found == PATH_NONE) {
        notes.path.form = 0;
    }
}

void loop(void) {
    int index = find_creep();
    if (index < 0) {
        return;
    }
    struct creep creep = {
        .id = screeps_get(index, FIELD_ID),
        .room = (int)screeps_get(index, FIELD_ROOM),
        .x = (int)screeps_get(index, FIELD_X),
        .y = (int)screeps_get(index, FIELD_Y),
    };
    read_notes();
    walk(&creep);
    screeps_memory_write(&notes, sizeof notes);
}
