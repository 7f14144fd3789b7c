/* Writes the frames of a journal to a new file as the program does, with two writes and two syncs a frame: two_syncs JOURNAL COPY.
   bench/journal.py holds a run beside it. It prints how many frames it wrote. */

#include <fcntl.h>
#include <stdint.h>
#include <stdio.h>
#include <stdlib.h>
#include <string.h>
#include <sys/stat.h>
#include <unistd.h>

static void fails(const char *what) {
    perror(what);
    exit(1);
}

static void put(int file, const unsigned char *bytes, size_t count, off_t at) {
    if (pwrite(file, bytes, count, at) != (ssize_t)count || fdatasync(file) != 0) {
        fails("two_syncs");
    }
}

int main(int count, char **words) {
    if (count != 3) {
        fputs("two_syncs JOURNAL COPY\n", stderr);
        return 2;
    }
    int from = open(words[1], O_RDONLY), to = open(words[2], O_RDWR | O_CREAT | O_TRUNC, 0644);
    struct stat found;
    if (from < 0 || to < 0 || fstat(from, &found) != 0) {
        fails("two_syncs");
    }
    unsigned char *bytes = malloc(found.st_size), closed = 0, open_gate = 1;
    if (bytes == NULL || read(from, bytes, found.st_size) != found.st_size) {
        fails("two_syncs");
    }
    long frames = 0;
    off_t at = 0;
    if (pwrite(to, &closed, 1, 0) != 1) {
        fails("two_syncs");
    }
    while (at < found.st_size && bytes[at] != 0) {
        uint64_t length;
        memcpy(&length, bytes + at + 1, sizeof length);
        size_t whole = sizeof length + length;
        unsigned char gate = bytes[at + 1 + whole];
        bytes[at + 1 + whole] = closed;
        put(to, bytes + at + 1, whole + 1, at + 1);
        put(to, &open_gate, 1, at);
        bytes[at + 1 + whole] = gate;
        at += 1 + whole;
        frames += 1;
    }
    printf("%ld\n", frames);
    return 0;
}
