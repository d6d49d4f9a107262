/* Refuses the allocation whose number the variable REFUSED has, counted from 1, and no other one. Where it refuses it
   writes a byte to the descriptor 9. */
#define _GNU_SOURCE
#include <dlfcn.h>
#include <errno.h>
#include <stddef.h>
#include <stdlib.h>
#include <unistd.h>

static int is_refused(void) {
    static long asked, refused = -1;
    if (refused < 0) {
        const char *number = getenv("REFUSED");
        refused = number ? atol(number) : 0;
    }
    if (++asked != refused) {
        return 0;
    }
    errno = write(9, "x", 1) == 1 ? ENOMEM : EIO;
    return 1;
}

void *malloc(size_t size) {
    static void *(*next)(size_t);
    if (!next) {
        next = (void *(*)(size_t))dlsym(RTLD_NEXT, "malloc");
    }
    return is_refused() ? NULL : next(size);
}

void *realloc(void *old, size_t size) {
    static void *(*next)(void *, size_t);
    if (!next) {
        next = (void *(*)(void *, size_t))dlsym(RTLD_NEXT, "realloc");
    }
    return is_refused() ? NULL : next(old, size);
}
