/* A player whose creeps guard a spawn: all that can fight or heal go for one foe, that which comes nearest to the spawn, and with
 * none they stay around the spawn.
 *
 * Each strikes a foe that stands beside it, and where there is none it heals: of the fellows within reach, itself among them, the one
 * who lacks most hits. Who can shoot does so besides. Who has no parts to strike keeps two tiles away from the foe.
 *
 * Each looks for its way round all other creeps, as they stand. A search costs much: so many guards have one as the budget allows, and
 * the others stay where they are. All have fought before.
 *
 * Built by players/build.sh.
 */
#include "path.h"

/* How far from the spawn a foe is gone for, and how far from it the guards stay. */
#define WATCHED 12
#define AROUND 2

/* How many tiles a search settles at most: on plain ground all within 15 of its goal. Who is farther away stays there. */
#define MOST_TILES 1000

#define INSTRUCTIONS_OF_A_UNIT 10000

/* More than looking at one object costs, in instructions. */
#define COST_OF_A_LOOK 60

static unsigned me;
static int count;

static int field(int index, int number) { return (int)screeps_get(index, number); }

static long long id_of(int index) { return screeps_get(index, FIELD_ID); }

static int is_kind(int index, int kind) { return field(index, FIELD_KIND) == kind; }

static int is_own(int index) { return screeps_get(index, FIELD_OWNER) == me; }

static int larger(int one, int other) { return one > other ? one : other; }

static int absolute(int number) { return number < 0 ? -number : number; }

/* How many tiles lie between two objects of a room; of two rooms, more than any that counts here. */
static int distance(int one, int other) {
    if (field(one, FIELD_ROOM) != field(other, FIELD_ROOM)) {
        return PATH_SIDE;
    }
    return larger(absolute(field(one, FIELD_X) - field(other, FIELD_X)), absolute(field(one, FIELD_Y) - field(other, FIELD_Y)));
}

/* The first spawn of this player, or -1. */
static int find_spawn(void) {
    for (int index = 0; index < count; index++) {
        if (is_kind(index, KIND_SPAWN) && is_own(index)) {
            return index;
        }
    }
    return -1;
}

/* The creep of another player that is nearest to an object, and so many tiles away at most; or -1. */
static int find_foe(int from, int range) {
    int nearest = -1;
    for (int index = 0; index < count; index++) {
        if (is_kind(index, KIND_CREEP) && !is_own(index) && distance(from, index) <= range) {
            range = distance(from, index) - 1;
            nearest = index;
        }
    }
    return nearest;
}

static int lack_of(int index) { return field(index, FIELD_HITS_MAX) - field(index, FIELD_HITS); }

/* The own creep within three tiles of a creep that lacks most hits, maybe itself; or -1 where none lacks any. */
static int find_hurt(int creep) {
    int most = 0, hurt = -1;
    for (int index = 0; index < count; index++) {
        if (is_kind(index, KIND_CREEP) && is_own(index) && distance(creep, index) <= 3 && lack_of(index) > most) {
            most = lack_of(index);
            hurt = index;
        }
    }
    return hurt;
}

/* The creep has such a part that has hits. */
static int has_live(int creep, int part) {
    int parts = field(creep, FIELD_PARTS);
    for (int place = 0; place < parts; place++) {
        int it = field(creep, FIELD_PART + place);
        if (PART_OF(it) == part && PART_HITS(it) > 0) {
            return 1;
        }
    }
    return 0;
}

static void heal(int creep, int hurt) {
    if (distance(creep, hurt) <= 1) {
        screeps_heal(id_of(creep), id_of(hurt));
    } else {
        screeps_ranged_heal(id_of(creep), id_of(hurt));
    }
}

/* A creep strikes, or heals, and shoots besides. A heal would overrule its blow, so it doesn't want both; a shot is overruled by a
 * heal over two or three tiles, and counts beside all else that is wanted here. */
static void fight(int creep) {
    int foe = find_foe(creep, 3), hurt = find_hurt(creep);
    int strikes = foe >= 0 && screeps_attack(id_of(creep), id_of(foe)) == CODE_OK;
    if (!strikes && hurt >= 0) {
        heal(creep, hurt);
    }
    if (foe >= 0) {
        screeps_ranged_attack(id_of(creep), id_of(foe));
    }
}

/* How near to its goal a creep wants to be: to the spawn, or to a foe, which one that can't strike keeps off. */
static int range_of(int creep, int foe) { return foe < 0 ? AROUND : has_live(creep, PART_ATTACK) ? 1 : 2; }

/* The creep isn't tired, and stands in the room of its goal, too far from it. */
static int has_to_walk(int creep, int goal, int range) {
    return field(creep, FIELD_EXTRA) == 0 && distance(creep, goal) < PATH_SIDE && distance(creep, goal) > range;
}

/* The creep goes a step towards a goal. */
static void walk(int creep, int goal, int range) {
    static struct path path;
    int x = field(creep, FIELD_X), y = field(creep, FIELD_Y);
    path_begin(&path, field(creep, FIELD_ROOM));
    path_round_creeps(&path, id_of(creep));
    path_to_range(&path, field(goal, FIELD_X), field(goal, FIELD_Y), range);
    if (path_search(&path, x, y, MOST_TILES) == PATH_FOUND) {
        screeps_move(id_of(creep), path_step(&path, x, y));
    }
}

/* How many searches the budget allows, once all guards have looked around. */
static int most_searches(int guards) {
    int rest = screeps_allowance() * INSTRUCTIONS_OF_A_UNIT - (3 * guards + 3) * count * COST_OF_A_LOOK;
    return rest / (PATH_COST_OF_ROOM + 2 * count * PATH_COST_OF_OBJECT + MOST_TILES * PATH_COST_OF_TILE);
}

static int is_guard(int index) {
    return is_kind(index, KIND_CREEP) && is_own(index) &&
           (has_live(index, PART_ATTACK) || has_live(index, PART_RANGED_ATTACK) || has_live(index, PART_HEAL));
}

/* All guards fight, each with what it can; answers how many there are. */
static int fight_all(void) {
    int guards = 0;
    for (int index = 0; index < count; index++) {
        if (is_guard(index)) {
            fight(index);
            guards++;
        }
    }
    return guards;
}

/* The guards go for the foe that is nearest to the spawn, and with none to the spawn. */
static void walk_all(int spawn, int searches) {
    int foe = find_foe(spawn, WATCHED), goal = foe >= 0 ? foe : spawn;
    for (int index = 0; index < count && searches > 0; index++) {
        if (is_guard(index) && has_to_walk(index, goal, range_of(index, foe))) {
            walk(index, goal, range_of(index, foe));
            searches--;
        }
    }
}

void loop(void) {
    me = (unsigned)screeps_me();
    count = screeps_count();
    int guards = fight_all(), spawn = find_spawn();
    if (spawn >= 0) {
        walk_all(spawn, most_searches(guards));
    }
}
