/* The four functions on memory that a compiler calls by itself, as for a struct that is copied or an array that
 * begins with zeros. There is no standard library behind a player, so they stand here; players/build.sh links them
 * to every player, and those that nothing calls are left out of the module.
 *
 * They cost some instructions for each byte, which the player pays for as for any other.
 */

typedef __SIZE_TYPE__ size;

/* Otherwise the compiler may see what a loop below does, and make of it a call of the function that it stands in. */
#define NO_BUILTIN __attribute__((no_builtin))

void *memcpy(void *to, const void *from, size length);
void *memmove(void *to, const void *from, size length);
void *memset(void *to, int byte, size length);
int memcmp(const void *one, const void *other, size length);

NO_BUILTIN void *memcpy(void *to, const void *from, size length) {
    unsigned char *target = to;
    const unsigned char *source = from;
    for (size at = 0; at < length; at++) {
        target[at] = source[at];
    }
    return to;
}

/* The two may overlap: a copy to a lower address begins at the front, and one to a higher address at the end. */
NO_BUILTIN void *memmove(void *to, const void *from, size length) {
    unsigned char *target = to;
    const unsigned char *source = from;
    if (target <= source) {
        for (size at = 0; at < length; at++) {
            target[at] = source[at];
        }
    } else {
        for (size at = length; at > 0; at--) {
            target[at - 1] = source[at - 1];
        }
    }
    return to;
}

NO_BUILTIN void *memset(void *to, int byte, size length) {
    unsigned char *target = to;
    for (size at = 0; at < length; at++) {
        target[at] = (unsigned char)byte;
    }
    return to;
}

NO_BUILTIN int memcmp(const void *one, const void *other, size length) {
    const unsigned char *left = one;
    const unsigned char *right = other;
    for (size at = 0; at < length; at++) {
        if (left[at] != right[at]) {
            return left[at] < right[at] ? -1 : 1;
        }
    }
    return 0;
}
