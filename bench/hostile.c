/* Is loaded before the program's own libraries, and fails one of its calls. HOSTILE is KIND:NUMBER, with the kinds
   alloc (a call that takes memory), read and write (on a stream), short_read and short_write (one byte is moved), and
   the number of the call, from 1. At the end it writes how many calls of alloc, read and write there were to the file
   that HOSTILE_COUNTS names. Calls before the program's `main` are not counted. */
#define _GNU_SOURCE
#include <dlfcn.h>
#include <errno.h>
#include <fcntl.h>
#include <stddef.h>
#include <stdio.h>
#include <stdlib.h>
#include <string.h>
#include <sys/syscall.h>
#include <unistd.h>

enum { ALLOC, READ, WRITE, KINDS };

static const char *const names[KINDS] = {"alloc", "read", "write"};
static unsigned long counts[KINDS], failing[KINDS], shortened[KINDS];
static int is_counting;

/* Counts a call, and tells whether its number is the one that is asked for. */
static int is_next(int kind, const unsigned long *asked) {
    return is_counting && ++counts[kind] == asked[kind];
}

#define REAL(name) ((__typeof__(&name))dlsym(RTLD_NEXT, #name))

void *malloc(size_t size) {
    static void *(*real)(size_t);
    if (!real) real = REAL(malloc);
    if (is_next(ALLOC, failing)) { errno = ENOMEM; return NULL; }
    return real(size);
}

void *realloc(void *at, size_t size) {
    static void *(*real)(void *, size_t);
    if (!real) real = REAL(realloc);
    if (is_next(ALLOC, failing)) { errno = ENOMEM; return NULL; }
    return real(at, size);
}

void *aligned_alloc(size_t alignment, size_t size) {
    static void *(*real)(size_t, size_t);
    if (!real) real = REAL(aligned_alloc);
    if (is_next(ALLOC, failing)) { errno = ENOMEM; return NULL; }
    return real(alignment, size);
}

int posix_memalign(void **at, size_t alignment, size_t size) {
    static int (*real)(void **, size_t, size_t);
    if (!real) real = REAL(posix_memalign);
    if (is_next(ALLOC, failing)) return ENOMEM;
    return real(at, alignment, size);
}

/* A call on a stream, which may fail or move one byte alone. */
static long moved(int kind, long call, int stream, const void *bytes, size_t count) {
    if (is_next(kind, failing)) { errno = EIO; return -1; }
    if (counts[kind] == shortened[kind] && count > 1) count = 1;
    return syscall(call, stream, bytes, count);
}

ssize_t read(int stream, void *bytes, size_t count) { return moved(READ, SYS_read, stream, bytes, count); }

ssize_t write(int stream, const void *bytes, size_t count) { return moved(WRITE, SYS_write, stream, bytes, count); }

__attribute__((constructor)) static void begin(void) {
    const char *asked = getenv("HOSTILE");
    for (int kind = 0; asked && kind < KINDS; kind++) {
        char name[32];
        snprintf(name, sizeof name, "short_%s", names[kind]);
        if (!strncmp(asked, name, strlen(name))) shortened[kind] = strtoul(asked + strlen(name) + 1, NULL, 10);
        else if (!strncmp(asked, names[kind], strlen(names[kind]))) failing[kind] = strtoul(asked + strlen(names[kind]) + 1, NULL, 10);
    }
    is_counting = 1;
}

__attribute__((destructor)) static void end(void) {
    const char *path = getenv("HOSTILE_COUNTS");
    char text[96];
    is_counting = 0;
    int length = snprintf(text, sizeof text, "%lu %lu %lu\n", counts[ALLOC], counts[READ], counts[WRITE]);
    int file = path ? open(path, O_WRONLY | O_CREAT | O_TRUNC, 0600) : -1;
    if (file >= 0) syscall(SYS_write, file, text, (size_t)length);
}
