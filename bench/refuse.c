/* Preloaded, makes the request for memory of the number REFUSE (from 1) fail, and all others succeed; of the number 0,
 * none. Where REFUSE_COUNT names a file, the number of requests is written into it at the program's end. */
#define _GNU_SOURCE
#include <dlfcn.h>
#include <fcntl.h>
#include <stdio.h>
#include <stdlib.h>
#include <unistd.h>

static long count, wanted = -1;

static int refused(void) {
    if (wanted < 0) {
        const char *text = getenv("REFUSE");
        wanted = text ? atol(text) : 0;
    }
    return ++count == wanted;
}

void *malloc(size_t size) {
    static void *(*real)(size_t);
    if (!real) real = (void *(*)(size_t))dlsym(RTLD_NEXT, "malloc");
    return refused() ? NULL : real(size);
}

void *realloc(void *at, size_t size) {
    static void *(*real)(void *, size_t);
    if (!real) real = (void *(*)(void *, size_t))dlsym(RTLD_NEXT, "realloc");
    return refused() ? NULL : real(at, size);
}

__attribute__((destructor)) static void tell(void) {
    const char *name = getenv("REFUSE_COUNT");
    if (!name) return;
    char text[24];
    int length = snprintf(text, sizeof text, "%ld", count);
    int file = open(name, O_WRONLY | O_CREAT | O_TRUNC, 0600);
    if (file < 0 || write(file, text, (size_t)length) != length) _exit(99);
    close(file);
}
