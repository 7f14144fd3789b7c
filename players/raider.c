/* A player whose creeps raid: each goes for the nearest creep or building of another player in its room, and strikes it, and shoots
 * at it where it can. In a room without any it goes on, out by the side to the left.
 *
 * What a raider hunts may move, so the way is looked for anew in each tick. A search costs much: so many raiders have one as the
 * budget allows, and the others wait.
 *
 * Built by players/build.sh.
 */
#include "path.h"

#define INSTRUCTIONS_OF_A_UNIT 10000

/* More than looking at one object costs, in instructions. */
#define COST_OF_A_LOOK 60

/* All tiles of a room inside its border. */
#define MOST_TILES 2304

static unsigned me;
static int count;

static int field(int index, int number) { return (int)screeps_get(index, number); }

static long long id_of(int index) { return screeps_get(index, FIELD_ID); }

static int is_own(int index) { return screeps_get(index, FIELD_OWNER) == me; }

/* A creep or a building of another player. What is nobody's, as a road, is left alone. */
static int is_prey(int index) {
    int kind = field(index, FIELD_KIND);
    return (kind == KIND_CREEP || (kind >= KIND_SPAWN && kind <= KIND_STORAGE)) && !is_own(index);
}

static int larger(int one, int other) { return one > other ? one : other; }

static int absolute(int number) { return number < 0 ? -number : number; }

/* How many tiles lie between two objects of a room. */
static int distance(int one, int other) {
    return larger(absolute(field(one, FIELD_X) - field(other, FIELD_X)), absolute(field(one, FIELD_Y) - field(other, FIELD_Y)));
}

/* What a raider goes for, or -1. */
static int find_prey(int raider) {
    int nearest = -1, range = PATH_SIDE;
    for (int index = 0; index < count; index++) {
        if (is_prey(index) && field(index, FIELD_ROOM) == field(raider, FIELD_ROOM) && distance(raider, index) < range) {
            range = distance(raider, index);
            nearest = index;
        }
    }
    return nearest;
}

/* Where the prey is out of reach, or the raider has no parts for it, the calls are refused. */
static void strike(int raider, int prey) {
    screeps_attack(id_of(raider), id_of(prey));
    screeps_ranged_attack(id_of(raider), id_of(prey));
}

/* The raider goes a step nearer to its prey, or to the exit. */
static void walk(int raider, int prey) {
    static struct path path;
    int x = field(raider, FIELD_X), y = field(raider, FIELD_Y);
    path_begin(&path, field(raider, FIELD_ROOM));
    path_round_creeps(&path, id_of(raider));
    if (prey >= 0) {
        path_to_range(&path, field(prey, FIELD_X), field(prey, FIELD_Y), 1);
    } else {
        path_to_exit(&path, DIRECTION_LEFT);
    }
    /* (with the raider at its goal there is no direction, and the call is refused) */
    if (path_search(&path, x, y, MOST_TILES) == PATH_FOUND) {
        screeps_move(id_of(raider), path_step(&path, x, y));
    }
}

/* How many searches the budget allows, once all raiders have looked around. */
static int most_searches(int raiders) {
    int rest = screeps_allowance() * INSTRUCTIONS_OF_A_UNIT - (raiders + 2) * count * COST_OF_A_LOOK;
    return rest / (PATH_COST_OF_ROOM + 2 * count * PATH_COST_OF_OBJECT + MOST_TILES * PATH_COST_OF_TILE);
}

static int is_raider(int index) { return field(index, FIELD_KIND) == KIND_CREEP && is_own(index); }

void loop(void) {
    int raiders = 0;
    me = (unsigned)screeps_me();
    count = screeps_count();
    for (int index = 0; index < count; index++) {
        raiders += is_raider(index);
    }
    int searches = most_searches(raiders);
    for (int index = 0; index < count; index++) {
        if (!is_raider(index)) {
            continue;
        }
        int prey = find_prey(index);
        if (prey >= 0) {
            strike(index, prey);
        }
        if (searches > 0 && screeps_get(index, FIELD_EXTRA) == 0) {
            walk(index, prey);
            searches--;
        }
    }
}
