/* Refuses memory: loaded before the C library (LD_PRELOAD) it counts the allocations that a program makes of it, and lets one of them fail, or that one
 * and all behind it. checks/by_hand/refused_memory.py builds it.
 *
 * REFUSED_COUNT is the path of a file of 8 bytes, in which the count stands, also where the program is ended. REFUSED_NUMBER is the number of the
 * allocation that fails, from 1 on, or 0; with REFUSED_BEHIND those behind it fail too. What is allocated before the program's own start is not counted. */
#define _GNU_SOURCE
#include <errno.h>
#include <fcntl.h>
#include <stddef.h>
#include <stdint.h>
#include <stdlib.h>
#include <sys/mman.h>
#include <unistd.h>

extern void *__libc_malloc(size_t size);
extern void *__libc_calloc(size_t count, size_t size);
extern void *__libc_realloc(void *place, size_t size);
extern void *__libc_memalign(size_t alignment, size_t size);

static uint64_t *allocations, number;
static int is_behind_too;

__attribute__((constructor)) static void begin(void) {
    const char *path = getenv("REFUSED_COUNT"), *wanted = getenv("REFUSED_NUMBER");
    int file = path == NULL ? -1 : open(path, O_RDWR | O_CLOEXEC);
    if (file < 0) {
        return;
    }
    void *place = mmap(NULL, sizeof *allocations, PROT_READ | PROT_WRITE, MAP_SHARED, file, 0);
    close(file);
    if (place == MAP_FAILED) {
        return;
    }
    number = wanted == NULL ? 0 : strtoull(wanted, NULL, 10);
    is_behind_too = getenv("REFUSED_BEHIND") != NULL;
    allocations = place;
    *allocations = 0;
}

/* Counts an allocation, and says whether it fails. */
static int is_refused(void) {
    if (allocations == NULL) {
        return 0;
    }
    uint64_t at = __atomic_add_fetch(allocations, 1, __ATOMIC_RELAXED);
    int is_this = number != 0 && (at == number || (is_behind_too && at > number));
    if (is_this) {
        errno = ENOMEM;
    }
    return is_this;
}

void *malloc(size_t size) {
    return is_refused() ? NULL : __libc_malloc(size);
}

void *calloc(size_t count, size_t size) {
    return is_refused() ? NULL : __libc_calloc(count, size);
}

/* (of no byte it gives the place back) */
void *realloc(void *place, size_t size) {
    return size > 0 && is_refused() ? NULL : __libc_realloc(place, size);
}

void *reallocarray(void *place, size_t count, size_t size) {
    size_t all;
    if (__builtin_mul_overflow(count, size, &all)) {
        errno = ENOMEM;
        return NULL;
    }
    return realloc(place, all);
}

void *memalign(size_t alignment, size_t size) {
    return is_refused() ? NULL : __libc_memalign(alignment, size);
}

void *aligned_alloc(size_t alignment, size_t size) {
    return memalign(alignment, size);
}

int posix_memalign(void **place, size_t alignment, size_t size) {
    if (alignment % sizeof(void *) != 0 || (alignment & (alignment - 1)) != 0 || alignment == 0) {
        return EINVAL;
    }
    void *found = memalign(alignment, size);
    if (found == NULL) {
        return ENOMEM;
    }
    *place = found;
    return 0;
}
