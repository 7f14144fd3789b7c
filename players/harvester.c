/* A player whose creeps work for their room, each with what it can reach, since none of them moves.
 *
 * A creep with room for more that stands beside a source harvests. Any other hands over its load to a store of this
 * player that has room for it; with none it works at a site of this player; with none it mends what is worn; and with
 * nothing of that it waits. One thing a tick is enough: of harvest, repair and build a creep does only one anyway.
 *
 * Nothing has to be kept from tick to tick, so the memory text stays empty. Each creep looks through the objects up to
 * four times, and the player leaves off before its budget is used up.
 *
 * Built by players/build.sh.
 */
#include "screeps.h"

/* More than looking at one object costs, in instructions, with what is done for a creep once it is found. */
#define COST_OF_A_LOOK 200

#define INSTRUCTIONS_OF_A_UNIT 10000

/* What a creep may do, the best first. */
enum task { HARVEST, TRANSFER, BUILD, REPAIR, TASKS };

struct creep {
    long long id, room, x, y;
    long long load, capacity;
};

static unsigned me;
static int count;

/* How many objects may still be looked at within this tick's budget. */
static int looks;

static int may_look(void) {
    if (looks == 0) {
        return 0;
    }
    looks--;
    return 1;
}

static long long absolute(long long number) { return number < 0 ? -number : number; }

/* The object stands in the creep's room, and at most so many tiles away, in each direction. */
static int is_within(int range, int index, const struct creep *creep) {
    return screeps_get(index, FIELD_ROOM) == creep->room && absolute(screeps_get(index, FIELD_X) - creep->x) <= range &&
           absolute(screeps_get(index, FIELD_Y) - creep->y) <= range;
}

/* Nobody else owns it. */
static int is_ours(int index) {
    long long owner = screeps_get(index, FIELD_OWNER);
    return owner == 0 || owner == me;
}

static int is_store(int kind) { return kind >= KIND_SPAWN && kind <= KIND_CONTAINER; }

static int is_building(int kind) { return kind >= KIND_SPAWN && kind <= KIND_ROAD; }

static int is_below(int index, int field, int most) { return screeps_get(index, field) < screeps_get(index, most); }

/* The object is a target for this task of the creep. */
static int serves(enum task task, int index, const struct creep *creep) {
    int kind = (int)screeps_get(index, FIELD_KIND);
    switch (task) {
    case HARVEST:
        return kind == KIND_SOURCE && screeps_get(index, FIELD_ENERGY) > 0 && is_within(1, index, creep);
    case TRANSFER:
        return is_store(kind) && is_ours(index) && is_below(index, FIELD_ENERGY, FIELD_CAPACITY) && is_within(1, index, creep);
    case BUILD:
        return kind == KIND_SITE && is_ours(index) && is_within(3, index, creep);
    default:
        return is_building(kind) && is_ours(index) && is_below(index, FIELD_HITS, FIELD_HITS_MAX) && is_within(3, index, creep);
    }
}

/* The first object that serves, or -1. */
static int find_target(enum task task, const struct creep *creep) {
    for (int index = 0; index < count && may_look(); index++) {
        if (serves(task, index, creep)) {
            return index;
        }
    }
    return -1;
}

static int call(enum task task, long long creep, long long target) {
    switch (task) {
    case HARVEST:
        return screeps_harvest(creep, target);
    case TRANSFER:
        /* (all that it carries, as far as there is room for it) */
        return screeps_transfer(creep, target, 0);
    case BUILD:
        return screeps_build(creep, target);
    default:
        return screeps_repair(creep, target);
    }
}

/* Whether the creep's load allows the task. */
static int is_ready(enum task task, const struct creep *creep) {
    return task == HARVEST ? creep->load < creep->capacity : creep->load > 0;
}

/* The creep does the first of its tasks that is recorded. Where a call says no, as it does to a creep without WORK
 * parts that would harvest, the next one may do. */
static void work(const struct creep *creep) {
    for (enum task task = HARVEST; task < TASKS; task++) {
        int target = is_ready(task, creep) ? find_target(task, creep) : -1;
        if (target >= 0 && call(task, creep->id, screeps_get(target, FIELD_ID)) == CODE_OK) {
            return;
        }
    }
}

static int is_own_creep(int index) {
    return screeps_get(index, FIELD_KIND) == KIND_CREEP && screeps_get(index, FIELD_OWNER) == me;
}

static void work_of(int index) {
    struct creep creep = {
        .id = screeps_get(index, FIELD_ID),
        .room = screeps_get(index, FIELD_ROOM),
        .x = screeps_get(index, FIELD_X),
        .y = screeps_get(index, FIELD_Y),
        .load = screeps_get(index, FIELD_ENERGY),
        .capacity = screeps_get(index, FIELD_CAPACITY),
    };
    work(&creep);
}

void loop(void) {
    me = (unsigned)screeps_me();
    count = screeps_count();
    looks = screeps_allowance() * (INSTRUCTIONS_OF_A_UNIT / COST_OF_A_LOOK) - 1;
    for (int index = 0; index < count && may_look(); index++) {
        if (is_own_creep(index)) {
            work_of(index);
        }
    }
}
