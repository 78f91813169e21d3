/* Linked into tests in the place of the kit's heap: a test names the request for memory that is refused, counted from 1 and
 * from then on, alone or with all that follow, and asks how many there were since. Tests that use it have one thread. */
#include <stddef.h>
#include <stdint.h>
#include <stdlib.h>

struct tried {
    uint64_t ok;
    void *block;
};

static uint64_t refused_at;
static int refuses_more;
static uint64_t asked;
static max_align_t nothing;

void refuse_request(uint64_t number) {
    refused_at = number;
    refuses_more = 0;
    asked = 0;
}

void refuse_from(uint64_t number) {
    refuse_request(number);
    refuses_more = 1;
}

uint64_t requests(void) { return asked; }

static struct tried answer(void *block) {
    struct tried tried = {block != NULL, block ? block : &nothing};
    return tried;
}

static int is_refused(void) {
    asked += 1;
    return asked == refused_at || (refuses_more && asked > refused_at);
}

struct tried rattle_alloc(size_t bytes, size_t align) {
    return answer(is_refused() ? NULL : malloc(bytes ? bytes : align));
}

struct tried rattle_realloc(void *old, size_t kept, size_t bytes, size_t align) {
    (void)kept;
    return answer(is_refused() ? NULL : realloc(old, bytes ? bytes : align));
}

void rattle_dealloc(void *block) { free(block); }
