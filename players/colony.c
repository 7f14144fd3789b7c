/* A player who lives from one spawn: its creeps harvest, fill the spawn and its extensions, upgrade the controller, build, mend what
 * decays, and strike at creeps of other players who come into the room. Where all are dead the spawn begins anew.
 *
 * There are workers and guards. A worker harvests at its source until it is full, carries the load to where its rank sends it, and
 * comes back. The rank is its place among the workers, the eldest first, so where one dies the next takes its place: the first two
 * fill the spawn and the extensions, the third upgrades the controller, the fourth mends, and the others build. Who has nothing of his
 * own to do builds, and where nothing is to be built upgrades. While there are few, all fill.
 *
 * All this is decided anew in each tick, from what is seen. The memory text keeps for each creep which source is its own, and the
 * way on which it walks, since it costs much to find one. There are as many searches in a tick as the budget allows, and who has none
 * waits for a tick.
 *
 * This player looks at one room alone, that of its first spawn. From level 2 on it places as many extensions around the spawn as the
 * level allows, and once these stand it lays roads where workers carry their loads.
 *
 * Built by players/build.sh.
 */
#include "path.h"

/* The workers have so many work parts together: each harvests 2 in a tick, and is under way for more than half of the time. Up to so
 * many workers are as cheap as may be, and the later ones as large as the spawn and the extensions allow. */
enum { WORK_PARTS = 20, HASTY = 8 };

/* How many workers fill, and how many guards there are at most while strangers are in the room. */
enum { FILLERS = 2, GUARDS = 3 };

/* What a unit of a body costs: of work, carry and move; of carry and move; and of attack and move. A body has so many at most. */
enum { WORKER_COST = 200, PORTER_COST = 100, GUARD_COST = 130, MOST_UNITS = 4 };

/* What has lost a twentieth of its hits is mended. */
enum { WORN = 20 };

/* Extensions stand so far from the spawn; the tiles around it stay free. */
enum { NEAREST = 2, FARTHEST = 6 };

/* Who couldn't step for so many ticks looks for another way. */
enum { PATIENCE = 3 };

/* A search settles a whole room at most. The budget less this is for searches. */
enum { MOST_TILES = 48 * 48, INSTRUCTIONS_OF_A_UNIT = 10000, INSTRUCTIONS_OF_THE_REST = 200000 };

/* ---- what is seen */

/* Objects of the home room that serve for one thing, by their indices in this tick. */
struct list { int length, at[200]; };

/* What a worker may do with its load. Each has the list of those for which it may be done. */
enum job { FILL, MEND, BUILD, UPGRADE, JOBS };

static struct list targets[JOBS], sources, workers, guards, strangers;

/* How near to its target a job is done. */
static const int range_of[JOBS] = {[FILL] = 1, [MEND] = 3, [BUILD] = 3, [UPGRADE] = 3};

static unsigned me;

/* The first spawn and its room; what the spawns and extensions there hold, and may hold; and the work parts of all workers. */
static int spawn, home, energy, capacity, work_parts;

/* The room has all the extensions that its level allows. */
static int is_extended;

static int field(int index, int number) { return (int)screeps_get(index, number); }

static long long id_of(int index) { return screeps_get(index, FIELD_ID); }

static int is_own(int index) { return screeps_get(index, FIELD_OWNER) == me; }

static int absolute(int number) { return number < 0 ? -number : number; }

static int lesser(int one, int other) { return one < other ? one : other; }

static int larger(int one, int other) { return one > other ? one : other; }

/* How many tiles lie between two objects of a room. */
static int distance(int one, int other) {
    return larger(absolute(field(one, FIELD_X) - field(other, FIELD_X)), absolute(field(one, FIELD_Y) - field(other, FIELD_Y)));
}

static void enlist(struct list *list, int index) {
    if (list->length < (int)(sizeof list->at / sizeof *list->at)) {
        list->at[list->length++] = index;
    }
}

/* The object of a list that is nearest to another, or -1. */
static int nearest(const struct list *list, int from) {
    int found = -1, least = PATH_SIDE;
    for (int place = 0; place < list->length; place++) {
        int range = distance(from, list->at[place]);
        if (range < least) {
            least = range;
            found = list->at[place];
        }
    }
    return found;
}

static int count_parts(int creep, int part) {
    int parts = field(creep, FIELD_PARTS), found = 0;
    for (int place = 0; place < parts; place++) {
        found += PART_OF(field(creep, FIELD_PART + place)) == part;
    }
    return found;
}

static void see_creep(int index) {
    if (!is_own(index)) {
        enlist(&strangers, index);
        return;
    }
    int works = count_parts(index, PART_WORK);
    enlist(works > 0 ? &workers : &guards, index);
    work_parts += works;
}

/* A spawn or an extension of this player. */
static void see_store(int index) {
    energy += field(index, FIELD_ENERGY);
    capacity += field(index, FIELD_CAPACITY);
    if (field(index, FIELD_ENERGY) < field(index, FIELD_CAPACITY)) {
        enlist(&targets[FILL], index);
    }
}

/* An object of the home room comes into the lists in which it belongs. */
static void see(int index) {
    int kind = field(index, FIELD_KIND), most = field(index, FIELD_HITS_MAX), is_ours = is_own(index) || field(index, FIELD_OWNER) == 0;
    if (kind == KIND_CREEP) {
        see_creep(index);
    } else if (kind == KIND_SOURCE) {
        enlist(&sources, index);
    } else if (kind == KIND_CONTROLLER && is_own(index)) {
        enlist(&targets[UPGRADE], index);
    } else if (kind == KIND_SITE && is_own(index)) {
        enlist(&targets[BUILD], index);
    } else if ((kind == KIND_SPAWN || kind == KIND_EXTENSION) && is_own(index)) {
        see_store(index);
    }
    if (kind >= KIND_SPAWN && kind <= KIND_ROAD && is_ours && (most - field(index, FIELD_HITS)) * WORN >= most) {
        enlist(&targets[MEND], index);
    }
}

/* The first own spawn, or -1. */
static int find_spawn(int count) {
    for (int index = 0; index < count; index++) {
        if (field(index, FIELD_KIND) == KIND_SPAWN && is_own(index)) {
            return index;
        }
    }
    return -1;
}

/* ---- what is kept of each creep, in the memory text */

/* How many notes there are, the most steps of a way, and the sign of a memory text that holds notes. */
enum { NOTES = 24, WAY_MOST = 60, NOTES_FORM = 0x4E4C4F43 };

struct note {
    long long creep;             /* the id, or 0 where the note is free */
    long long target;            /* the id of the object to which the way leads */
    long long source;            /* the id of a worker's own source, or 0 */
    unsigned char x, y;          /* the tile on which the creep stood when it last wanted to step */
    unsigned char still;         /* for how many ticks it has wanted to in vain */
    unsigned char at, length;    /* how many steps of the way are done, and how many it has */
    unsigned char way[WAY_MOST]; /* their directions */
};

static struct { int form; struct note notes[NOTES]; } kept;

/* Reads the notes, or begins with none, and frees those of creeps that are gone. */
static void load_notes(void) {
    if (screeps_memory_length() == (int)sizeof kept) {
        screeps_memory_read(&kept);
    }
    for (int place = 0; place < NOTES; place++) {
        if (kept.form != NOTES_FORM || screeps_find(kept.notes[place].creep) < 0) {
            kept.notes[place].creep = 0;
        }
    }
    kept.form = NOTES_FORM;
}

/* The note of this id, or none. */
static struct note *noted(long long creep) {
    for (int place = 0; place < NOTES; place++) {
        if (kept.notes[place].creep == creep) {
            return &kept.notes[place];
        }
    }
    return 0;
}

/* The note of a creep: a new one is empty. None where all notes are taken. */
static struct note *note_of(int creep) {
    struct note *note = noted(id_of(creep));
    if (!note && (note = noted(0))) {
        *note = (struct note){.creep = id_of(creep)};
    }
    return note;
}

/* ---- walking */

static struct path path;

/* How many searches are left in this tick. */
static int searches;

/* More than a search costs in instructions, by how many objects there are. */
static int search_cost(int count) { return PATH_COST_OF_ROOM + 2 * count * PATH_COST_OF_OBJECT + MOST_TILES * PATH_COST_OF_TILE; }

/* From level 2 on roads are laid, once all extensions stand, and a way at a time. */
static int may_lay_roads(void) {
    return targets[UPGRADE].length > 0 && field(targets[UPGRADE].at[0], FIELD_EXTRA) >= 2 && is_extended && targets[BUILD].length == 0;
}

/* How far each direction leads to the right and down. */
static const signed char right_of[] = {0, 0, 1, 1, 1, 0, -1, -1, -1}, down_of[] = {0, -1, -1, 0, 1, 1, 1, 0, -1};

/* Writes down the way that was found from a tile on, and lays sites of roads on it where it is to be a road. */
static void write_way(struct note *note, int x, int y, int is_road) {
    int direction;
    while (note->length < WAY_MOST && (direction = path_step(&path, x, y)) > PATH_AT_GOAL) {
        note->way[note->length++] = (unsigned char)direction;
        x += right_of[direction];
        y += down_of[direction];
        if (is_road) {
            screeps_create_site(home, x, y, KIND_ROAD);
        }
    }
}

/* Looks for the way of a creep to a target: to a source or a creep, and where it got stuck, round all creeps as they stand. */
static void find_way(int creep, struct note *note, int target, int range) {
    int x = field(creep, FIELD_X), y = field(creep, FIELD_Y), kind = field(target, FIELD_KIND);
    int goes_round = kind == KIND_SOURCE || kind == KIND_CREEP || note->still >= PATIENCE;
    note->target = id_of(target);
    note->still = note->at = note->length = 0;
    searches--;
    path_begin(&path, home);
    if (goes_round) {
        path_round_creeps(&path, id_of(creep));
    }
    path_to_range(&path, field(target, FIELD_X), field(target, FIELD_Y), range);
    if (path_search(&path, x, y, MOST_TILES) == PATH_FOUND) {
        write_way(note, x, y, !goes_round && may_lay_roads());
    }
}

/* The creep stepped since it last wanted to, or wanted to in vain. */
static void follow(int creep, struct note *note) {
    int x = field(creep, FIELD_X), y = field(creep, FIELD_Y), stepped = note->x != x || note->y != y;
    note->at += stepped;
    note->still = stepped ? 0 : note->still + 1;
    note->x = (unsigned char)x;
    note->y = (unsigned char)y;
}

/* A creep goes on towards a target. */
static void walk(int creep, int target, int range) {
    struct note *note = note_of(creep);
    if (!note || field(creep, FIELD_EXTRA) > 0) {
        return;
    }
    follow(creep, note);
    int is_new = note->target != id_of(target), is_done = note->length > 0 && note->at >= note->length;
    if ((is_new || is_done || note->still >= PATIENCE) && searches > 0) {
        find_way(creep, note, target, range);
    }
    if (note->target == id_of(target) && note->at < note->length) {
        screeps_move(id_of(creep), note->way[note->at]);
    }
}

/* ---- workers */

/* How many workers have a source for their own. */
static int workers_at(long long source) {
    int found = 0;
    for (int place = 0; place < NOTES; place++) {
        found += kept.notes[place].creep != 0 && kept.notes[place].source == source;
    }
    return found;
}

/* The source that the fewest workers have. */
static long long least_used(void) {
    long long found = 0;
    for (int place = 0; place < sources.length; place++) {
        long long source = id_of(sources.at[place]);
        if (found == 0 || workers_at(source) < workers_at(found)) {
            found = source;
        }
    }
    return found;
}

/* The own source of a worker; while it is empty, another that isn't. Or -1. */
static int source_of(int creep) {
    struct note *note = note_of(creep);
    if (note && note->source == 0) {
        note->source = least_used();
    }
    int own = note ? screeps_find(note->source) : -1;
    for (int place = 0; (own < 0 || field(own, FIELD_ENERGY) == 0) && place < sources.length; place++) {
        if (field(sources.at[place], FIELD_ENERGY) > 0) {
            return sources.at[place];
        }
    }
    return own;
}

static int call(enum job job, long long creep, long long target) {
    switch (job) {
    case FILL:
        /* (all that it carries, as far as there is room for it) */
        return screeps_transfer(creep, target, 0);
    case MEND:
        return screeps_repair(creep, target);
    case BUILD:
        return screeps_build(creep, target);
    default:
        return screeps_upgrade(creep, target);
    }
}

/* The target of a job: the one to which the worker walks, or else the nearest; or -1. */
static int target_of(enum job job, int creep) {
    struct note *note = note_of(creep);
    for (int place = 0; note && place < targets[job].length; place++) {
        if (note->target == id_of(targets[job].at[place])) {
            return targets[job].at[place];
        }
    }
    return nearest(&targets[job], creep);
}

/* Does a job for the first target within reach that allows it: a creep may stand where an extension is to come. */
static int do_within_reach(enum job job, int creep) {
    for (int place = 0; place < targets[job].length; place++) {
        int target = targets[job].at[place];
        if (distance(creep, target) <= range_of[job] && call(job, id_of(creep), id_of(target)) == CODE_OK) {
            return 1;
        }
    }
    return 0;
}

/* Does a job, or goes to where it is done. Answers whether there is anything of it to do. */
static int do_job(enum job job, int creep) {
    if (do_within_reach(job, creep)) {
        return 1;
    }
    int target = target_of(job, creep);
    if (target < 0 || distance(creep, target) <= range_of[job]) {
        return 0;
    }
    walk(creep, target, range_of[job]);
    return 1;
}

/* The first job of a worker, by its rank. */
static enum job job_of(int rank) {
    if (rank < FILLERS || workers.length < HASTY) {
        return FILL;
    }
    return rank == FILLERS ? UPGRADE : rank == FILLERS + 1 ? MEND : BUILD;
}

static void work(int creep, int rank) {
    int source = source_of(creep), load = field(creep, FIELD_ENERGY), is_full = load >= field(creep, FIELD_CAPACITY);
    if (!is_full && source >= 0 && screeps_harvest(id_of(creep), id_of(source)) == CODE_OK) {
        return;
    }
    if (load > 0) {
        (void)(do_job(job_of(rank), creep) || do_job(BUILD, creep) || do_job(UPGRADE, creep));
    } else if (source >= 0 && distance(creep, source) > 1) {
        walk(creep, source, 1);
    }
}

/* ---- guards */

/* A guard goes for the stranger that is nearest to it; with none it stays near the controller. */
static void guard(int creep) {
    int foe = nearest(&strangers, creep);
    if (foe >= 0) {
        struct note *note = note_of(creep);
        if (screeps_attack(id_of(creep), id_of(foe)) == CODE_NOT_IN_RANGE && note) {
            /* (the foe walks, so that the way to where it stood may be of no use) */
            note->target = 0;
            walk(creep, foe, 1);
        }
    } else if (targets[UPGRADE].length > 0 && distance(creep, targets[UPGRADE].at[0]) > 4) {
        walk(creep, targets[UPGRADE].at[0], 4);
    }
}

/* ---- what the spawn makes */

static unsigned char body[4 * MOST_UNITS];
static unsigned parts;

static void add(int part, int times) {
    while (times-- > 0) {
        body[parts++] = (unsigned char)part;
    }
}

/* As many units as it may cost. With what is left it carries more. */
static void shape_worker(int cost) {
    int units = lesser(cost / WORKER_COST, MOST_UNITS), more = units < MOST_UNITS && cost - units * WORKER_COST >= PORTER_COST;
    add(PART_WORK, units);
    add(PART_CARRY, units + more);
    add(PART_MOVE, units + more);
}

static void shape_guard(void) {
    int units = lesser(energy / GUARD_COST, MOST_UNITS);
    add(PART_MOVE, units);
    add(PART_ATTACK, units);
}

/* What the next worker costs. */
static int worker_cost(void) { return workers.length < HASTY ? WORKER_COST : capacity / PORTER_COST * PORTER_COST; }

/* Guards come before all workers but the first. */
static void make_creep(void) {
    if (workers.length > 0 && guards.length < lesser(strangers.length, GUARDS)) {
        shape_guard();
    } else if (work_parts < WORK_PARTS && energy >= worker_cost()) {
        shape_worker(worker_cost());
    }
    if (parts > 0) {
        screeps_spawn_creep(id_of(spawn), body, parts);
    }
}

/* ---- what is to be built */

static int is_at_source(int x, int y) {
    for (int place = 0; place < sources.length; place++) {
        int source = sources.at[place];
        if (absolute(field(source, FIELD_X) - x) <= 1 && absolute(field(source, FIELD_Y) - y) <= 1) {
            return 1;
        }
    }
    return 0;
}

/* Places extensions on every other tile of a ring around the spawn, so that creeps pass between them. */
static void place_ring(int range) {
    int spawn_x = field(spawn, FIELD_X), spawn_y = field(spawn, FIELD_Y);
    for (int y = spawn_y - range; y <= spawn_y + range; y++) {
        for (int x = spawn_x - range; x <= spawn_x + range; x++) {
            int is_inside = absolute(x - spawn_x) < range && absolute(y - spawn_y) < range;
            if (!is_inside && (x + y + spawn_x + spawn_y) % 2 == 0 && !is_at_source(x, y)) {
                screeps_create_site(home, x, y, KIND_EXTENSION);
            }
        }
    }
}

/* Places as many extensions as the level allows. No site may be on the spawn's own tile; but where the room has all, another code comes. */
static void place_extensions(void) {
    int code = screeps_create_site(home, field(spawn, FIELD_X), field(spawn, FIELD_Y), KIND_EXTENSION);
    is_extended = code == CODE_ROOM_LEVEL_NOT_ENOUGH;
    for (int range = NEAREST; range <= FARTHEST && !is_extended; range++) {
        place_ring(range);
    }
}

void loop(void) {
    int count = screeps_count();
    me = (unsigned)screeps_me();
    spawn = find_spawn(count);
    if (spawn < 0) {
        return;
    }
    home = field(spawn, FIELD_ROOM);
    searches = (screeps_allowance() * INSTRUCTIONS_OF_A_UNIT - INSTRUCTIONS_OF_THE_REST) / search_cost(count);
    for (int index = 0; index < count; index++) {
        if (field(index, FIELD_ROOM) == home) {
            see(index);
        }
    }
    load_notes();
    place_extensions();
    make_creep();
    for (int place = 0; place < guards.length; place++) {
        guard(guards.at[place]);
    }
    for (int rank = 0; rank < workers.length; rank++) {
        work(workers.at[rank], rank);
    }
    screeps_memory_write(&kept, sizeof kept);
}
