// Loaded before the C library (LD_PRELOAD), it makes a program's reads or writes go wrong. FAIL names the call, read or write; MOST the most bytes that it
// moves, or 0 for as many as it will; AT the turn that fails first, from 1, or 0 for none; TIMES how many in a row do; ERROR that failure's number, or 0 for
// a call that moves nothing and does not fail.
#define _GNU_SOURCE
#include <dlfcn.h>
#include <errno.h>
#include <stdlib.h>
#include <string.h>
#include <unistd.h>

static struct { const char *call; size_t most; long at, times; int error, is_known; } set;

static long setting(const char *name) {
    const char *text = getenv(name);
    return text ? atol(text) : 0;
}

static int goes_wrong(const char *call, long *turn, size_t *n) {
    if (!set.is_known) {
        set.call = getenv("FAIL");
        set.most = setting("MOST");
        set.at = setting("AT");
        set.times = setting("TIMES");
        set.error = setting("ERROR");
        set.is_known = 1;
    }
    if (!set.call || strcmp(set.call, call) != 0)
        return 0;
    if (set.most != 0 && set.most < *n)
        *n = set.most;
    ++*turn;
    return set.at != 0 && set.at <= *turn && *turn < set.at + set.times;
}

static ssize_t answer(void) {
    if (set.error == 0)
        return 0;
    errno = set.error;
    return -1;
}

ssize_t read(int fd, void *to, size_t n) {
    static long turn;
    static ssize_t (*real)(int, void *, size_t);
    if (!real)
        real = dlsym(RTLD_NEXT, "read");
    return fd == 0 && goes_wrong("read", &turn, &n) ? answer() : real(fd, to, n);
}

ssize_t write(int fd, const void *from, size_t n) {
    static long turn;
    static ssize_t (*real)(int, const void *, size_t);
    if (!real)
        real = dlsym(RTLD_NEXT, "write");
    return fd == 1 && goes_wrong("write", &turn, &n) ? answer() : real(fd, from, n);
}
