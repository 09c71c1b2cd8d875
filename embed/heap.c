/* The functions by which the archive takes memory, for processors that the kit has no object for.
 * Each gives whether memory was found, and where it is. */
#include <stdint.h>
#include <stdlib.h>

struct found {
    uint64_t is_there;
    void *at;
};

/* A block that isn't there is at a place of its own: the archive wants no null pointer. */
static char nowhere[16];

static struct found found(void *at) { return (struct found){at != 0, at ? at : nowhere}; }

struct found rattle_alloc(size_t size, size_t edge) {
    return found(malloc(size ? size : edge));
}

struct found rattle_realloc(void *at, size_t old, size_t size, size_t edge) {
    (void)old;
    return found(realloc(at, size ? size : edge));
}

void rattle_dealloc(void *at) { free(at); }
