/* Preloaded into a test program: the FAIL_ALLOC-th request for memory is refused.
 * At exit it writes to standard error how many requests there were, where COUNT_ALLOCS is set. */
#define _GNU_SOURCE
#include <dlfcn.h>
#include <errno.h>
#include <stdio.h>
#include <stdlib.h>
#include <string.h>
#include <unistd.h>

static unsigned long refused_at;
static unsigned long requests;
static void *(*next_malloc)(size_t);
static void *(*next_realloc)(void *, size_t);
static int ready;

__attribute__((constructor)) static void begin(void) {
    const char *at = getenv("FAIL_ALLOC");
    next_malloc = dlsym(RTLD_NEXT, "malloc");
    next_realloc = dlsym(RTLD_NEXT, "realloc");
    refused_at = at ? strtoul(at, NULL, 10) : 0;
    requests = 0;
    ready = 1;
}

static void end(void) {
    if (ready && getenv("COUNT_ALLOCS")) {
        char line[64];
        int length = snprintf(line, sizeof line, "requests %lu\n", requests);
        if (write(2, line, length) < 0) {}
    }
    ready = 0;
}

__attribute__((destructor)) static void finish(void) { end(); }

void _exit(int status) {
    void (*next)(int) = dlsym(RTLD_NEXT, "_exit");
    end();
    next(status);
    __builtin_unreachable();
}

static int refuse(void) {
    if (!ready) return 0;
    return __atomic_add_fetch(&requests, 1, __ATOMIC_RELAXED) == refused_at;
}

void *malloc(size_t size) {
    if (refuse()) { errno = ENOMEM; return NULL; }
    if (!next_malloc) next_malloc = dlsym(RTLD_NEXT, "malloc");
    return next_malloc(size);
}

void *realloc(void *old, size_t size) {
    if (refuse()) { errno = ENOMEM; return NULL; }
    if (!next_realloc) next_realloc = dlsym(RTLD_NEXT, "realloc");
    return next_realloc(old, size);
}
