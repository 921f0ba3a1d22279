/* The three requests for memory that the proved library makes, over the C library's, for a target for which the kit has no
 * object of its own. A request for no bytes is one for as many as it is aligned to. A pointer is never null, also where a
 * request is refused: it then leads to a byte that nobody reads. */
#include <stdint.h>
#include <stdlib.h>

/* The library reads both numbers whole. */
struct granted {
    uint64_t is;
    void *at;
};

static char nowhere;

static struct granted granted(void *at) {
    struct granted made = {at != NULL, at == NULL ? &nowhere : at};
    return made;
}

struct granted rattle_alloc(size_t bytes, size_t align) { return granted(malloc(bytes == 0 ? align : bytes)); }

/* `kept` is how many bytes at the front stay; realloc keeps them all. */
struct granted rattle_realloc(void *at, size_t kept, size_t bytes, size_t align) {
    (void)kept;
    return granted(realloc(at, bytes == 0 ? align : bytes));
}

void rattle_dealloc(void *at) { free(at); }
