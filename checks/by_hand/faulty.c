/* Faults of a program of its own accord: loaded before the C library (LD_PRELOAD) it changes the calls that the program makes of it, as the variable
 * FAULT says. checks/by_hand/faulty_programs.py builds it, and says which checks have to refuse which fault. */
#define _GNU_SOURCE
#include <errno.h>
#include <fcntl.h>
#include <signal.h>
#include <stdarg.h>
#include <stdlib.h>
#include <string.h>
#include <sys/file.h>
#include <sys/mman.h>
#include <sys/stat.h>
#include <sys/syscall.h>
#include <unistd.h>

extern void *__libc_malloc(size_t size);
extern void *__libc_realloc(void *place, size_t size);

enum { INPUT = 0, OUTPUT = 1, ERRORS = 2, MIB = 1 << 20, HELD = 1 << 16 };

static int is_fault(const char *name) {
    const char *fault = getenv("FAULT");
    return fault != NULL && strcmp(fault, name) == 0;
}

/* The answer of a call, as the fault has it. */
static ssize_t answered(ssize_t answer) {
    if (answer < 0 && errno == EINTR && is_fault("interrupted call fails")) {
        errno = EIO;
    }
    return answer;
}

/* (a place in a file is asked for, by which no other call is made than those that are looked at) */
static int is_pipe(int file) {
    int error = errno, is_one = lseek(file, 0, SEEK_CUR) < 0 && errno == ESPIPE;
    errno = error;
    return is_one;
}

static int is_folder(const char *path) {
    struct stat found;
    return stat(path, &found) == 0 && S_ISDIR(found.st_mode);
}

__attribute__((constructor)) static void begin(void) {
    if (is_fault("closed input ends all") && fcntl(INPUT, F_GETFD) < 0) {
        _exit(5);
    }
    if (is_fault("SIGXFSZ passed over")) {
        signal(SIGXFSZ, SIG_IGN);
    }
}

/* The journal, once something was written into it, where it ends, the last gate in it that was written by itself, and how many frames were. */
static int journal = -1;
static off_t end, gate;
static int frames;

/* What waits until a line is printed: pieces, one behind the other. */
enum { PIECES = 16 };
static char held[HELD];
static size_t held_length, piece_lengths[PIECES];
static off_t piece_places[PIECES];
static int pieces;
static int sync_waits;

static ssize_t write_now(const void *bytes, size_t length, off_t at) {
    return syscall(SYS_pwrite64, journal, bytes, length, at);
}

static void write_held(void) {
    const char *from = held;
    for (int piece = 0; piece < pieces; piece++) {
        write_now(from, piece_lengths[piece], piece_places[piece]);
        from += piece_lengths[piece];
    }
    held_length = 0;
    pieces = 0;
}

ssize_t pwrite(int file, const void *bytes, size_t length, off_t at) {
    journal = file;
    end = at + (off_t)length > end ? at + (off_t)length : end;
    gate = length == 1 ? at : gate;
    if (is_fault("line before frame") && held_length + length <= HELD && pieces < PIECES) {
        memcpy(held + held_length, bytes, length);
        held_length += length;
        piece_lengths[pieces] = length;
        piece_places[pieces++] = at;
        return (ssize_t)length;
    }
    if (is_fault("long frame cut") && length > 16 * MIB) {
        write_now(bytes, 16 * MIB, at);
        return (ssize_t)length;
    }
    frames += length > 1;
    if (is_fault("third frame not written") && frames == 3 && length > 1) {
        return (ssize_t)length;
    }
    if (is_fault("pipe as a file") && is_pipe(file)) {
        return syscall(SYS_write, file, bytes, length);
    }
    int is_halved = is_fault("first frame in two pieces") && frames == 1 && length > 1;
    ssize_t done = answered(write_now(bytes, is_halved ? length / 2 : length, at));
    return done < 0 && is_fault("failed write passed over") ? (ssize_t)length : done;
}

/* (by this call alone the folder of the journal is synced) */
int fsync(int file) {
    if (is_fault("no sync of the folder")) {
        return 0;
    }
    int done = (int)answered(syscall(SYS_fsync, file));
    return is_fault("failed sync of the folder passed over") ? 0 : done;
}

int ftruncate(int file, off_t length) {
    if (is_fault("no cut")) {
        return 0;
    }
    int done = (int)answered(syscall(SYS_ftruncate, file, length));
    return is_fault("failed cut passed over") ? 0 : done;
}

/* What an open comes to that failed. */
static int refused(const char *path, int flags) {
    int error = errno;
    int is_journal = (flags & O_CREAT) != 0;
    if (is_journal && is_fault("refused journal kept in memory")) {
        return memfd_create("journal", 0);
    }
    if (!is_journal && error == EACCES && is_fault("refused file is empty") && !is_folder(path)) {
        return (int)syscall(SYS_openat, AT_FDCWD, "/dev/null", O_RDONLY, 0);
    }
    if (!is_journal && error == EACCES && is_fault("refused folder ends all") && is_folder(path)) {
        syscall(SYS_write, ERRORS, "fault 7 DiskFault\n", 18);
        _exit(7);
    }
    errno = error;
    return (int)answered(-1);
}

int open(const char *path, int flags, ...) {
    va_list rest;
    va_start(rest, flags);
    int mode = (flags & O_CREAT) != 0 ? va_arg(rest, int) : 0;
    va_end(rest);
    int file = (int)syscall(SYS_openat, AT_FDCWD, path, flags, mode);
    if (file >= 0 && (flags & O_ACCMODE) == O_RDONLY && is_fault("readers lock too")) {
        syscall(SYS_flock, file, LOCK_SH | LOCK_NB);
    }
    return file < 0 ? refused(path, flags) : file;
}

int open64(const char *path, int flags, ...) __attribute__((alias("open")));

int statx(int folder, const char *restrict path, int flags, unsigned int mask, struct statx *restrict found) {
    if (is_fault("length by a seek") && path[0] == 0) {
        memset(found, 0, sizeof *found);
        off_t length = lseek(folder, 0, SEEK_END);
        found->stx_size = length < 0 ? 0 : (unsigned long long)length;
        found->stx_mode = S_IFREG;
        return 0;
    }
    int done = (int)syscall(SYS_statx, folder, path, flags, mask, found);
    if (done < 0 && is_fault("failed length is nothing")) {
        memset(found, 0, sizeof *found);
        return 0;
    }
    if (done == 0 && is_fault("pipe fails") && S_ISFIFO(found->stx_mode)) {
        errno = EIO;
        return -1;
    }
    return done;
}

int flock(int file, int operation) {
    if (is_fault("lock passed over")) {
        return 0;
    }
    int done = (int)syscall(SYS_flock, file, operation);
    return is_fault("failed lock passed over") ? 0 : done;
}

int fdatasync(int file) {
    if (is_fault("no sync") || (is_fault("pipe as a file") && is_pipe(file))) {
        return 0;
    }
    if (is_fault("sync behind line") || is_fault("line before frame")) {
        sync_waits = 1;
        return 0;
    }
    int done = (int)answered(syscall(SYS_fdatasync, file));
    return is_fault("failed sync passed over") ? 0 : done;
}

/* The file of this journal, when it is open no more. */
static void write_behind(const void *bytes, size_t length) {
    int file = (int)syscall(SYS_openat, AT_FDCWD, "journal.bin", O_WRONLY | O_APPEND, 0);
    syscall(SYS_write, file, bytes, length);
    close(file);
}

ssize_t write(int file, const void *bytes, size_t length) {
    if (file == ERRORS && is_fault("fault line into the journal") && fcntl(ERRORS, F_GETFD) < 0) {
        write_behind(bytes, length);
    }
    if (file == ERRORS && is_fault("no fault line")) {
        return (ssize_t)length;
    }
    if (file == OUTPUT && is_fault("long lines cut") && length > HELD / 2) {
        syscall(SYS_write, file, bytes, HELD / 2);
        return (ssize_t)length;
    }
    ssize_t done = syscall(SYS_write, file, bytes, length);
    if (file == OUTPUT && pieces > 0) {
        write_held();
    }
    if (file == OUTPUT && sync_waits) {
        syscall(SYS_fdatasync, journal);
        sync_waits = 0;
    }
    if (file == OUTPUT && done < 0 && is_fault("frame lost with its line")) {
        write_now("", 1, gate);
        syscall(SYS_ftruncate, journal, gate + 1);
    }
    return file == OUTPUT && done < 0 && is_fault("failed line passed over") ? (ssize_t)length : done;
}

ssize_t __write(int file, const void *bytes, size_t length) {
    return write(file, bytes, length);
}

/* All of a file is read by one call, and given in pieces. */
static ssize_t read_at_once(int file, void *bytes, size_t length) {
    static char *all[64];
    static ssize_t counts[64], given[64];
    if (all[file] == NULL) {
        all[file] = __libc_malloc(64 * MIB);
        counts[file] = syscall(SYS_read, file, all[file], 64 * MIB);
    }
    ssize_t left = counts[file] - given[file], count = left < (ssize_t)length ? left : (ssize_t)length;
    memcpy(bytes, all[file] + given[file], (size_t)count);
    given[file] += count;
    return count;
}

ssize_t read(int file, void *bytes, size_t length) {
    if (is_fault("read at once")) {
        return read_at_once(file, bytes, length);
    }
    if (is_fault("pipe fails") && is_pipe(file)) {
        errno = EIO;
        return -1;
    }
    ssize_t done = answered(syscall(SYS_read, file, bytes, length));
    return done < 0 && is_fault("failed read is the end") ? 0 : done;
}

/* The front of the journal is read by one call, and given in pieces. */
static ssize_t read_front(int file, void *bytes, size_t length, off_t at) {
    static char *front;
    static ssize_t count;
    if (front == NULL) {
        front = __libc_malloc(MIB);
        count = syscall(SYS_pread64, file, front, MIB, 0);
    }
    ssize_t left = at < count ? count - at : 0, given = left < (ssize_t)length ? left : (ssize_t)length;
    memcpy(bytes, front + at, (size_t)given);
    return given;
}

ssize_t pread(int file, void *bytes, size_t length, off_t at) {
    if (is_fault("journal read at once")) {
        return read_front(file, bytes, length, at);
    }
    ssize_t done = answered(syscall(SYS_pread64, file, bytes, length, at));
    return done < 0 && is_fault("failed read of the journal is the end") ? 0 : done;
}

/* What becomes of a request that finds no memory. */
static void *told(void *found) {
    if (found == NULL && is_fault("no memory ends all")) {
        abort();
    }
    if (found == NULL && is_fault("no memory is a read fault")) {
        syscall(SYS_write, ERRORS, "fault 5 ReadFault\n", 18);
        _exit(5);
    }
    if (found == NULL && is_fault("no memory spoils the journal") && journal >= 0) {
        syscall(SYS_pwrite64, journal, "tick", 4, end);
    }
    return found;
}

void *malloc(size_t size) {
    return told(__libc_malloc(size));
}

void *realloc(void *place, size_t size) {
    return told(__libc_realloc(place, size));
}

void (*__sysv_signal(int number, void (*handler)(int)))(int) {
    if (!is_fault("SIGPIPE as usual")) {
        struct sigaction action = {.sa_handler = handler};
        sigaction(number, &action, NULL);
    }
    return SIG_DFL;
}
