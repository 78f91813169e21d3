/* Preloaded into the program: the FAIL_READ-th read of standard input fails, and the FAIL_WRITE-th write to standard
 * output. */
#define _GNU_SOURCE
#include <dlfcn.h>
#include <errno.h>
#include <stdlib.h>
#include <unistd.h>

/* Counts a call, and tells whether it is the one that fails. */
static int fails(const char *name, unsigned long *calls) {
    const char *at = getenv(name);
    *calls += 1;
    return at != NULL && strtoul(at, NULL, 10) == *calls;
}

ssize_t read(int file, void *room, size_t bytes) {
    static unsigned long calls;
    if (file == 0 && fails("FAIL_READ", &calls)) {
        errno = EIO;
        return -1;
    }
    return ((ssize_t (*)(int, void *, size_t))dlsym(RTLD_NEXT, "read"))(file, room, bytes);
}

ssize_t write(int file, const void *from, size_t bytes) {
    static unsigned long calls;
    if (file == 1 && fails("FAIL_WRITE", &calls)) {
        errno = EIO;
        return -1;
    }
    return ((ssize_t (*)(int, const void *, size_t))dlsym(RTLD_NEXT, "write"))(file, from, bytes);
}
