// Under LD_PRELOAD: makes one read or write fail, and all behind it, as a device that went away does. FAIL_READ=N is
// the Nth read, FAIL_WRITE=N the Nth write; ERRNO says how, 5 (an I/O error) where it isn't given.
#define _GNU_SOURCE
#include <dlfcn.h>
#include <errno.h>
#include <stdlib.h>
#include <unistd.h>

static long number_in(const char *name, long otherwise) {
    const char *text = getenv(name);
    return text ? atol(text) : otherwise;
}

ssize_t read(int fd, void *buffer, size_t count) {
    static ssize_t (*next)(int, void *, size_t);
    static long reads, failing = -1;
    if (!next) {
        next = dlsym(RTLD_NEXT, "read");
        failing = number_in("FAIL_READ", 0);
    }
    if (failing && ++reads >= failing) {
        errno = (int)number_in("ERRNO", EIO);
        return -1;
    }
    return next(fd, buffer, count);
}

ssize_t write(int fd, const void *buffer, size_t count) {
    static ssize_t (*next)(int, const void *, size_t);
    static long writes, failing = -1;
    if (!next) {
        next = dlsym(RTLD_NEXT, "write");
        failing = number_in("FAIL_WRITE", 0);
    }
    // What is wrong is written to standard error, which stays.
    if (fd != 2 && failing && ++writes >= failing) {
        errno = (int)number_in("ERRNO", EIO);
        return -1;
    }
    return next(fd, buffer, count);
}
