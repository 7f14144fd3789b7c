/* The player of dropper.c in C++: its creeps put down 5 energy each in every tick, and all of it in every tenth.
 *
 * What C++ takes care of here: the objects in sight are gone through by a range, which leaves off before the tick's
 * budget is used up, and an object is asked by its names. There is no library behind it, so no container, no string and
 * no `new`; exceptions are off, and what has a constructor is best made within `loop`.
 *
 * Built by players/build.sh.
 */
#include "screeps.h"

namespace {

/* More than looking at one object costs, in instructions. */
constexpr int cost_of_a_look = 100;

constexpr int instructions_of_a_unit = 10000;

/* An object in sight, by its index. */
class Object {
  public:
    explicit Object(int index) : index(index) {}

    long long id() const { return screeps_get(index, FIELD_ID); }

    bool is_creep_of(unsigned player) const {
        return screeps_get(index, FIELD_KIND) == KIND_CREEP && screeps_get(index, FIELD_OWNER) == player;
    }

  private:
    int index;
};

/* All objects in sight, or as many as may be looked at within this tick's budget. */
class Objects {
  public:
    class Iterator {
      public:
        explicit Iterator(int index) : index(index) {}
        Object operator*() const { return Object(index); }
        Iterator &operator++() {
            index++;
            return *this;
        }
        bool operator!=(const Iterator &other) const { return index != other.index; }

      private:
        int index;
    };

    Iterator begin() const { return Iterator(0); }

    Iterator end() const {
        int count = screeps_count();
        int most = screeps_allowance() * (instructions_of_a_unit / cost_of_a_look) - 1;
        return Iterator(most < 0 ? 0 : count < most ? count : most);
    }
};

/* What is kept in the memory text: 8 bytes, little endian, as the module's memory has them. */
struct Notes {
    unsigned runs;  /* the ticks in which this player ran */
    unsigned drops; /* the drops that were recorded */

    /* Those of the ticks before. A text of another length is none of ours, as in the first run, and they are 0. */
    static Notes read() {
        Notes notes = {0, 0};
        if (screeps_memory_length() == static_cast<int>(sizeof notes)) {
            screeps_memory_read(&notes);
        }
        return notes;
    }

    void write() const { screeps_memory_write(this, sizeof *this); }
};

/* The creep drops so much, or what it has where that is less. */
int drop(long long creep, int amount) {
    int code = screeps_drop(creep, amount);
    return code == CODE_NOT_ENOUGH_RESOURCES && amount != 0 ? screeps_drop(creep, 0) : code;
}

/* Every own creep drops so much, until the record of this tick is full. Answers how many drops were recorded. */
unsigned drop_of_each(int amount) {
    unsigned me = static_cast<unsigned>(screeps_me());
    unsigned drops = 0;
    for (Object object : Objects()) {
        if (!object.is_creep_of(me)) {
            continue;
        }
        int code = drop(object.id(), amount);
        if (code == CODE_FULL) {
            break;
        }
        /* (with any other code but CODE_OK this creep has nothing to drop, and the next one may) */
        drops += code == CODE_OK;
    }
    return drops;
}

} // namespace

void loop(void) {
    Notes notes = Notes::read();
    notes.runs++;
    notes.drops += drop_of_each(notes.runs % 10 == 0 ? 0 : 5);
    notes.write();
}
