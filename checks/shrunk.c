/* Shrinks a file while it is read: the first read of the file that the variable SHRUNK names gives at most as many bytes
   as the variable LEFT has, and behind it the file has no more than these. It then writes a byte to the descriptor 9. */
#define _GNU_SOURCE
#include <dlfcn.h>
#include <stdlib.h>
#include <sys/stat.h>
#include <sys/types.h>
#include <unistd.h>

static int is_open_at(int number, const char *name) {
    struct stat opened, named;
    return fstat(number, &opened) == 0 && stat(name, &named) == 0 && opened.st_dev == named.st_dev && opened.st_ino == named.st_ino;
}

ssize_t read(int number, void *into, size_t count) {
    static ssize_t (*next)(int, void *, size_t);
    static int is_shrunk;
    const char *name = getenv("SHRUNK"), *left = getenv("LEFT");
    if (!next) {
        next = (ssize_t (*)(int, void *, size_t))dlsym(RTLD_NEXT, "read");
    }
    if (is_shrunk || !name || !left || !is_open_at(number, name)) {
        return next(number, into, count);
    }
    is_shrunk = 1;
    size_t most = strtoul(left, NULL, 10);
    ssize_t taken = next(number, into, count < most ? count : most);
    if (truncate(name, (off_t)most) != 0 || write(9, "x", 1) != 1) {
        abort();
    }
    return taken;
}
