/* A player whose creeps put down what they carry: 5 energy each in every tick, and all of it in every tenth.
 *
 * It shows the ways of a good player. It finds its own creeps by looking through what it sees; it reads each code,
 * and goes on where one says no; it leaves off before its budget is used up; and it keeps a count from tick to
 * tick in its memory text, since nothing else of it lasts.
 *
 * Built by players/build.sh.
 */
#include "screeps.h"

/* More than looking at one object costs, in instructions. */
#define COST_OF_A_LOOK 100

#define INSTRUCTIONS_OF_A_UNIT 10000

/* What is kept in the memory text: 8 bytes, little endian, as the module's memory has them. */
struct notes {
    unsigned runs;  /* the ticks in which this player ran */
    unsigned drops; /* the drops that were recorded */
};

static struct notes notes;

/* Reads the notes of the ticks before. A text of another length is none of ours, as in the first run, and the
 * notes stay 0. It is the length that says whether the text fits. */
static void read_notes(void) {
    if (screeps_memory_length() == sizeof notes) {
        screeps_memory_read(&notes);
    }
}

/* How many objects may be looked at within this tick's budget. */
static int most_looks(void) {
    return screeps_allowance() * (INSTRUCTIONS_OF_A_UNIT / COST_OF_A_LOOK) - 1;
}

/* The object is a creep of this player. */
static int is_own_creep(int index, unsigned me) {
    return screeps_get(index, FIELD_KIND) == KIND_CREEP && screeps_get(index, FIELD_OWNER) == me;
}

/* The creep drops so much, or what it has where that is less. */
static int drop(long long creep, int amount) {
    int code = screeps_drop(creep, amount);
    if (code == CODE_NOT_ENOUGH_RESOURCES && amount != 0) {
        code = screeps_drop(creep, 0);
    }
    return code;
}

/* Every own creep drops so much, until the record of this tick is full. */
static void drop_of_each(int amount) {
    unsigned me = (unsigned)screeps_me();
    int count = screeps_count();
    int most = most_looks();
    for (int index = 0; index < count && index < most; index++) {
        if (!is_own_creep(index, me)) {
            continue;
        }
        int code = drop(screeps_get(index, FIELD_ID), amount);
        if (code == CODE_OK) {
            notes.drops++;
        } else if (code == CODE_FULL) {
            return;
        }
        /* (with any other code this creep has nothing to drop, and the next one may) */
    }
}

void loop(void) {
    read_notes();
    notes.runs++;
    drop_of_each(notes.runs % 10 == 0 ? 0 : 5);
    screeps_memory_write(&notes, sizeof notes);
}
