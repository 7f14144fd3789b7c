/* The calls that a world server offers a player's module, and the numbers that they speak in.
 *
 * A player is one WebAssembly module with a function `loop`, which takes nothing and gives nothing. In each tick
 * the server makes the module anew, calls `loop`, and answers the calls below. The world doesn't change while it
 * runs: what a player wants is recorded, and the rules are applied when all players have run.
 *
 * docs/players.md says what each call answers, and in which order its refusals come. players/build.sh compiles a
 * player. Nothing here needs a standard library, and there are no floats: a module with a float is refused.
 */
#ifndef SCREEPS_H
#define SCREEPS_H

#ifdef __cplusplus
extern "C" {
#endif

/* What a player writes: the server calls it once in each tick. */
void loop(void);

/* The name of a call in the module that the server looks for, and its C name below. */
#define SCREEPS_CALL(name) __attribute__((import_module("screeps"), import_name(#name)))

/* ---- What a call answers
 *
 * A call that answers an index, a number or a name answers a negative code where it has none. A call that wants
 * something answers CODE_OK where it was recorded. Any other code says that nothing was recorded or changed. */
enum {
    CODE_OK = 0,
    CODE_NOT_OWNER = -1,               /* it isn't the player's */
    CODE_BUSY = -4,                    /* the spawn makes a creep already */
    CODE_NOT_FOUND = -5,               /* no such object or room is in sight */
    CODE_NOT_ENOUGH_RESOURCES = -6,    /* there isn't so much energy */
    CODE_INVALID_TARGET = -7,          /* no such target is in sight, or it is none for this; or a tile is none for this */
    CODE_FULL = -8,                    /* there isn't so much room, or 4,096 intents are recorded in this tick */
    CODE_NOT_IN_RANGE = -9,            /* the target is too far away */
    CODE_INVALID_ARGS = -10,           /* an argument is out of its range */
    CODE_TIRED = -11,                  /* the creep is still tired of its last step */
    CODE_NO_BODYPART = -12,            /* the creep has no part for it that has hits */
    CODE_ROOM_LEVEL_NOT_ENOUGH = -14,  /* the level of the room allows no such building, or no more of them */
    CODE_GLOBAL_LEVEL_NOT_ENOUGH = -15 /* the player's global level allows no further controller */
};

/* ---- The player and the tick */

/* The tick of the world as it stands. */
SCREEPS_CALL(tick) long long screeps_tick(void);

/* The number of this player. The numbers are unsigned: one above 2,147,483,647 comes out negative here, and
 * FIELD_OWNER, which has 64 bits, never does. To compare them, cast this to unsigned. */
SCREEPS_CALL(me) int screeps_me(void);

/* The CPU units that may be used in this tick, 0 to 500. A unit is 10,000 instructions. */
SCREEPS_CALL(allowance) int screeps_allowance(void);

/* The CPU units that were saved before this tick, 0 to 10,000. */
SCREEPS_CALL(bucket) int screeps_bucket(void);

/* The player's points, and the global level that they give, from 1 on. */
SCREEPS_CALL(points) long long screeps_points(void);
SCREEPS_CALL(level) int screeps_level(void);

/* ---- Rooms: those in which the player has a creep, a building or a controller */

/* How many rooms are in sight. */
SCREEPS_CALL(rooms) int screeps_rooms(void);

/* The index of the i-th of them, from 0 on. Rooms come in rising index. Or CODE_INVALID_ARGS. */
SCREEPS_CALL(room) int screeps_room(int i);

/* The name of a room in sight, as a number: ROOM_COLUMN and ROOM_ROW read it. Or CODE_INVALID_ARGS. */
SCREEPS_CALL(room_name) int screeps_room_name(int room);

/* Column 0 is E0, column -1 is W0; row 0 is S0, row -1 is N0. */
#define ROOM_COLUMN(name) ((name) / 256 - 128)
#define ROOM_ROW(name) ((name) % 256 - 128)

/* The ground of a tile of a room in sight; x and y are 0 to 49, from the left and from the top.
 * Or CODE_INVALID_ARGS. */
SCREEPS_CALL(terrain) int screeps_terrain(int room, int x, int y);

enum {
    GROUND_PLAIN = 0,
    GROUND_WALL = 1,
    GROUND_SWAMP = 2
};

/* ---- Objects: all that stand in the rooms in sight, in rising id, whoever owns them */

/* How many there are. */
SCREEPS_CALL(count) int screeps_count(void);

/* The index of the object of an id, from 0 on, in this tick. Or CODE_NOT_FOUND. */
SCREEPS_CALL(find) int screeps_find(long long id);

/* A field of the object at an index. Or CODE_INVALID_ARGS, where there is no such index or field. */
SCREEPS_CALL(get) long long screeps_get(int index, int field);

enum {
    FIELD_ID = 0,
    FIELD_KIND = 1,
    FIELD_ROOM = 2, /* the index of its room */
    FIELD_X = 3,
    FIELD_Y = 4,
    FIELD_OWNER = 5, /* a player's number, or 0 for nobody */
    FIELD_HITS = 6,
    FIELD_HITS_MAX = 7,
    FIELD_ENERGY = 8,       /* a creep's load is its energy */
    FIELD_CAPACITY = 9,     /* the most energy that it holds */
    FIELD_TIMER = 10,       /* ticks: a source's to its renewal, a creep's to its end, a controller's to its downgrade, a spawn's to its creep */
    FIELD_EXTRA = 11,       /* a controller's level, a creep's fatigue, the kind that a site becomes */
    FIELD_PROGRESS = 12,    /* of a controller to its next level, of a site to its building */
    FIELD_OTHER = 13,       /* who reserves a controller, or 0 */
    FIELD_OTHER_TICKS = 14, /* and for how many ticks */
    FIELD_PARTS = 15,       /* how many parts its body has, of a spawn the body of the creep that it makes */
    FIELD_PART = 100        /* FIELD_PART + i is part i, for i from 0 and below FIELD_PARTS */
};

/* What a part's field says. A part without hits doesn't work any more. */
#define PART_OF(field) ((field) / 1000)
#define PART_HITS(field) ((field) % 1000)

enum {
    KIND_SOURCE = 1,
    KIND_CONTROLLER = 2,
    KIND_CREEP = 3,
    KIND_SPAWN = 4,
    KIND_EXTENSION = 5,
    KIND_STORAGE = 6,
    KIND_CONTAINER = 7,
    KIND_ROAD = 8,
    KIND_PILE = 9, /* energy that lies on a tile */
    KIND_SITE = 10 /* a building to come */
};

/* The parts of a creep, with what each costs. */
enum {
    PART_MOVE = 1,          /* 50 */
    PART_WORK = 2,          /* 100 */
    PART_CARRY = 3,         /* 50 */
    PART_ATTACK = 4,        /* 80 */
    PART_RANGED_ATTACK = 5, /* 150 */
    PART_TOUGH = 6,         /* 10 */
    PART_HEAL = 7,          /* 250 */
    PART_CLAIM = 8          /* 600 */
};


/* ---- The memory text: the only thing of a player that lasts from tick to tick, any bytes, at most MEMORY_MOST */

enum { MEMORY_MOST = 65536 };

/* How many bytes it has. */
SCREEPS_CALL(memory_length) int screeps_memory_length(void);

/* Copies all of it to an address: ask first how long it is. Or CODE_INVALID_ARGS, where it would pass the end of
 * the module's memory. */
SCREEPS_CALL(memory_read) int screeps_memory_read(void *at);

/* Makes these bytes the memory text, in place of the old one. Or CODE_INVALID_ARGS, where they are too many or
 * pass the end of the module's memory. */
SCREEPS_CALL(memory_write) int screeps_memory_write(const void *at, unsigned length);

/* ---- What a creep does: recorded now, done when all players have run
 *
 * Each takes an own creep by its id, and most a target by its id. All answer CODE_NOT_FOUND where no such creep is in
 * sight, CODE_NOT_OWNER where it is another's, CODE_INVALID_TARGET where no such target is in sight or it is of another
 * kind, CODE_NOT_IN_RANGE where the target is too far away, and CODE_FULL where 4,096 intents are recorded. Called again
 * for the same creep, the last call counts.
 *
 * A creep may do several things in one tick, but of these only the first of the list that is recorded counts: heal, ranged_heal,
 * attack_controller, dismantle, repair, build, attack, harvest; and of these: ranged_heal, repair or build, ranged_mass_attack,
 * ranged_attack.
 *
 * An amount of 0 wants all there is; where it is above 0, so much has to be there, and room for it. What comes before it
 * in the tick may leave less: then less is taken. */

/* Drops energy on the creep's tile. Or CODE_INVALID_ARGS (a negative amount), CODE_NOT_ENOUGH_RESOURCES (it carries
 * less, or nothing at all). */
SCREEPS_CALL(drop) int screeps_drop(long long creep, int amount);

/* Hands energy to another creep, a spawn, an extension, a storage or a container within 1 tile, whoever owns it. Or
 * CODE_INVALID_ARGS (a negative amount), CODE_NOT_ENOUGH_RESOURCES (it carries less, or nothing at all), CODE_FULL (the
 * target has less room, or none). */
SCREEPS_CALL(transfer) int screeps_transfer(long long creep, long long target, int amount);

/* Takes energy from a spawn, an extension, a storage or a container within 1 tile, whoever owns it. Or CODE_INVALID_ARGS
 * (a negative amount), CODE_NOT_ENOUGH_RESOURCES (there is less, or nothing at all), CODE_FULL (the creep has less room,
 * or none). */
SCREEPS_CALL(withdraw) int screeps_withdraw(long long creep, long long target, int amount);

/* Picks up a pile within 1 tile, as far as the creep has room for it. Or CODE_FULL (it has none). */
SCREEPS_CALL(pickup) int screeps_pickup(long long creep, long long target);

/* Heals a creep within 1 tile by 12 for each HEAL part, whoever owns it; it may be the creep itself. What heals and what
 * hurts is added up in a tick, and comes to all at its end. Or CODE_NO_BODYPART. */
SCREEPS_CALL(heal) int screeps_heal(long long creep, long long target);

/* Heals a creep within 3 tiles by 4 for each HEAL part. Or CODE_NO_BODYPART. */
SCREEPS_CALL(ranged_heal) int screeps_ranged_heal(long long creep, long long target);

/* Tears 50 hits for each WORK part from a spawn, an extension, a storage, a container or a road within 1 tile, whoever owns it, and
 * gets 1 energy for each 200 of them; what it has no room for falls on its tile. Or CODE_NO_BODYPART. */
SCREEPS_CALL(dismantle) int screeps_dismantle(long long creep, long long target);

/* Strikes another creep or a building within 1 tile, whoever owns it: 30 damage for each ATTACK part. A creep strikes back with its
 * own ATTACK parts. Or CODE_NO_BODYPART. */
SCREEPS_CALL(attack) int screeps_attack(long long creep, long long target);

/* Takes 2 energy for each WORK part from a source within 1 tile; what the creep has no room for falls on its tile. Or
 * CODE_NO_BODYPART, CODE_NOT_OWNER (another player owns or reserves the room's controller too),
 * CODE_NOT_ENOUGH_RESOURCES (the source is empty). */
SCREEPS_CALL(harvest) int screeps_harvest(long long creep, long long target);

/* Mends a spawn, an extension, a storage, a container or a road within 3 tiles, whoever owns it: 100 hits for each WORK
 * part, and each 100 of them, also where they are fewer, cost 1 energy. Or CODE_NO_BODYPART, CODE_NOT_ENOUGH_RESOURCES
 * (it carries nothing). */
SCREEPS_CALL(repair) int screeps_repair(long long creep, long long target);

/* Works at an own site within 3 tiles: 5 for each WORK part, each for 1 energy. Once nothing is missing, the building
 * stands there, with an id of its own. Or CODE_NO_BODYPART, CODE_NOT_OWNER (another's site too),
 * CODE_NOT_ENOUGH_RESOURCES (it carries nothing), CODE_INVALID_TARGET (a creep stands where a spawn, an extension or a
 * storage would, too). */
SCREEPS_CALL(build) int screeps_build(long long creep, long long target);

/* Shoots at all creeps and buildings of other players within 3 tiles: 10 damage for each RANGED_ATTACK part at 1 tile, 4 at 2 and 1 at
 * 3. What is nobody's, as containers and roads are, is spared. Or CODE_NO_BODYPART. */
SCREEPS_CALL(ranged_mass_attack) int screeps_ranged_mass_attack(long long creep);

/* Shoots at another creep or a building within 3 tiles, whoever owns it: 10 damage for each RANGED_ATTACK part. Nobody shoots back.
 * Or CODE_NO_BODYPART. */
SCREEPS_CALL(ranged_attack) int screeps_ranged_attack(long long creep, long long target);

/* The creep dies at the end of the tick, and what it carries falls on its tile. What comes below it does no more. */
SCREEPS_CALL(suicide) int screeps_suicide(long long creep);

/* Takes a controller within 1 tile for the player, who owns it from then on, at level 1. Or CODE_NO_BODYPART, CODE_INVALID_TARGET
 * (somebody owns it, or another reserves it, too), CODE_GLOBAL_LEVEL_NOT_ENOUGH (he owns as many as his global level already, those that
 * other creeps of his are to claim in this tick counted). */
SCREEPS_CALL(claim_controller) int screeps_claim_controller(long long creep, long long target);

/* Puts energy into an own controller within 3 tiles: 1 for each WORK part, as far as it carries that; one of level 8 takes 15 in a tick.
 * Each is a point, and one of what the next level wants; and the controller's time gets longer by 100 ticks. Or CODE_NO_BODYPART,
 * CODE_NOT_OWNER (the controller isn't the player's too), CODE_NOT_ENOUGH_RESOURCES (it carries nothing). */
SCREEPS_CALL(upgrade) int screeps_upgrade(long long creep, long long target);

/* Reserves a controller within 1 tile for a tick more for each CLAIM part, up to 5,000; a new reservation begins with 1. Or
 * CODE_NO_BODYPART, CODE_INVALID_TARGET (somebody owns it, or another reserves it, too). */
SCREEPS_CALL(reserve) int screeps_reserve(long long creep, long long target);

/* Takes from another player's controller within 1 tile 300 ticks of its time for each CLAIM part, or from his reservation 1 tick; 1 tick
 * is left. Or CODE_NO_BODYPART, CODE_INVALID_TARGET (no other player owns or reserves it, too). */
SCREEPS_CALL(attack_controller) int screeps_attack_controller(long long creep, long long target);

/* ---- What a player does without a creep */

/* Makes a site for a building of a kind, KIND_SPAWN to KIND_ROAD, on a tile of a room in sight that is not at the border, x and y 1 to 48.
 * Creeps build it. Or CODE_NOT_FOUND (the room is not in sight), CODE_INVALID_ARGS (another tile or kind), CODE_NOT_OWNER (another player owns
 * or reserves the room's controller), CODE_ROOM_LEVEL_NOT_ENOUGH (a spawn, an extension or a storage where the controller isn't the player's;
 * or the room has as many of the kind as its level allows, with sites, and with those recorded in this tick), CODE_INVALID_TARGET (a
 * wall, or a source, a controller, a building or a site stands there, or a creep where the building would obstruct), CODE_FULL (the
 * player has 100 sites, with those recorded in this tick; or 4,096 intents are recorded). */
SCREEPS_CALL(create_site) int screeps_create_site(int room, int x, int y, int kind);

/* Takes an own site away, with the work that is in it. Or CODE_NOT_FOUND (no site), CODE_NOT_OWNER, CODE_FULL. */
SCREEPS_CALL(remove_site) int screeps_remove_site(long long site);

/* A spawn of the player begins a creep of a body: so many bytes from an address on, each the number of a part, 1 to 50 of them.
 * The own spawns and extensions of the room pay for it, and it comes after 3 ticks for each part. Or CODE_NOT_FOUND (no spawn),
 * CODE_NOT_OWNER, CODE_BUSY (it makes a creep), CODE_INVALID_ARGS (no parts, too many, a byte that is none, or bytes that pass the end of the
 * module's memory), CODE_NOT_ENOUGH_RESOURCES (those hold less than it costs), CODE_FULL. */
SCREEPS_CALL(spawn_creep) int screeps_spawn_creep(long long spawn, const void *parts, unsigned length);

/* ---- How a creep steps */

/* Steps onto the tile that lies in a direction, after all that creeps do besides. What is no tile of the room, a wall, or one
 * with a source, a controller, a spawn, an extension or a storage is not refused here, and then the creep stays; so it does
 * where another creep comes onto the tile or stays there. Who steps onto a border tile goes to the next room. Or
 * CODE_INVALID_ARGS (no direction), CODE_NO_BODYPART, CODE_TIRED (its FIELD_EXTRA is not 0). */
SCREEPS_CALL(move) int screeps_move(long long creep, int direction);

/* The directions, clockwise; y grows downwards. */
enum {
    DIRECTION_TOP = 1,
    DIRECTION_TOP_RIGHT = 2,
    DIRECTION_RIGHT = 3,
    DIRECTION_BOTTOM_RIGHT = 4,
    DIRECTION_BOTTOM = 5,
    DIRECTION_BOTTOM_LEFT = 6,
    DIRECTION_LEFT = 7,
    DIRECTION_TOP_LEFT = 8
};

#ifdef __cplusplus
}
#endif

#endif
