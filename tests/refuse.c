// Refuses the call with a given number, of those that the program makes: of malloc and realloc for REFUSE_GROWTH, of
// read and write for REFUSE_READ and REFUSE_WRITE. For SHORTEN_READ and SHORTEN_WRITE the call moves one byte only.
// That there was such a call is reported in the file that REFUSE_REPORT names. At each write to standard output the
// bytes of memory that the program has asked for and not given back are reported in the file that KEPT_REPORT names.
// Loaded before the C library by LD_PRELOAD.
#define _GNU_SOURCE
#include <dlfcn.h>
#include <errno.h>
#include <fcntl.h>
#include <stdint.h>
#include <stdio.h>
#include <stdlib.h>
#include <sys/types.h>
#include <unistd.h>

static long number_of(const char *name) {
    const char *text = getenv(name);
    return text ? atol(text) : 0;
}

static ssize_t next_write(int file, const void *bytes, size_t count) {
    static ssize_t (*next)(int, const void *, size_t);
    if (!next) next = (ssize_t (*)(int, const void *, size_t))dlsym(RTLD_NEXT, "write");
    return next(file, bytes, count);
}

// Whether this call of the kind is the one; `seen` counts them.
static int is_the_one(const char *kind, long *seen) {
    long wanted = number_of(kind);
    if (wanted == 0 || ++*seen != wanted) return 0;
    const char *report = getenv("REFUSE_REPORT");
    int file = report ? open(report, O_WRONLY) : -1;
    if (file >= 0) {
        next_write(file, "refused\n", 8);
        close(file);
    }
    return 1;
}

// Only calls after the program's start count: the loader's own are not the program's.
static int started;

__attribute__((constructor)) static void start(void) { started = 1; }

// The blocks that the program has, by their places, where they are counted. The program counts with one thread.
#define PLACES (1 << 20)

static struct block {
    void *start;
    size_t size;
} blocks[PLACES];
static size_t bytes_out;

// The place of the block, or a free one for it.
static struct block *place_of(void *start) {
    size_t place = (uintptr_t)start / 16 % PLACES;
    while (blocks[place].start && blocks[place].start != start) place = (place + 1) % PLACES;
    return &blocks[place];
}

// A block that is gone keeps its place, with no bytes.
static void counts(void *start, size_t size) {
    struct block *block;
    if (!start || !getenv("KEPT_REPORT")) return;
    block = place_of(start);
    block->start = start;
    bytes_out += size - block->size;
    block->size = size;
}

static void report_kept(int file) {
    const char *report = getenv("KEPT_REPORT");
    char text[32];
    int to;
    if (file != STDOUT_FILENO || !report) return;
    to = open(report, O_WRONLY | O_TRUNC);
    if (to < 0) return;
    next_write(to, text, (size_t)snprintf(text, sizeof text, "%zu\n", bytes_out));
    close(to);
}

static long growths;

void *malloc(size_t size) {
    static void *(*next)(size_t);
    void *start;
    if (!next) next = (void *(*)(size_t))dlsym(RTLD_NEXT, "malloc");
    if (started && is_the_one("REFUSE_GROWTH", &growths)) {
        errno = ENOMEM;
        return NULL;
    }
    start = next(size);
    counts(start, size);
    return start;
}

void *realloc(void *old, size_t size) {
    static void *(*next)(void *, size_t);
    void *start;
    if (!next) next = (void *(*)(void *, size_t))dlsym(RTLD_NEXT, "realloc");
    if (started && is_the_one("REFUSE_GROWTH", &growths)) {
        errno = ENOMEM;
        return NULL;
    }
    start = next(old, size);
    if (start) {
        counts(old, 0);
        counts(start, size);
    }
    return start;
}

void free(void *start) {
    static void (*next)(void *);
    if (!next) next = (void (*)(void *))dlsym(RTLD_NEXT, "free");
    counts(start, 0);
    next(start);
}

ssize_t read(int file, void *bytes, size_t count) {
    static ssize_t (*next)(int, void *, size_t);
    static long refused, shortened;
    if (!next) next = (ssize_t (*)(int, void *, size_t))dlsym(RTLD_NEXT, "read");
    if (is_the_one("REFUSE_READ", &refused)) {
        errno = EIO;
        return -1;
    }
    if (count > 1 && is_the_one("SHORTEN_READ", &shortened)) count = 1;
    return next(file, bytes, count);
}

ssize_t write(int file, const void *bytes, size_t count) {
    static long refused, shortened;
    if (is_the_one("REFUSE_WRITE", &refused)) {
        errno = EIO;
        return -1;
    }
    if (count > 1 && is_the_one("SHORTEN_WRITE", &shortened)) count = 1;
    report_kept(file);
    return next_write(file, bytes, count);
}
