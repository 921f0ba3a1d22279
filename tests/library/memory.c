/* The requests for memory of a program: see harness.h. As many as NBT_GRANTED says are granted, and none after them; all where it isn't
 * there. A program ends that writes past a block, or gives one back twice. */
#include "harness.h"
#include <assert.h>
#include <stdlib.h>

void *__real_malloc(size_t);
void *__real_realloc(void *, size_t);
void __real_free(void *);
void *__wrap_malloc(size_t);
void *__wrap_realloc(void *, size_t);
void __wrap_free(void *);

struct memory memory;
static size_t granted;
static int is_for_ever, is_said;

void grant(size_t requests, int for_ever) {
    granted = requests;
    memory.denied = 0;
    is_for_ever = for_ever;
    is_said = 1;
}

static int is_granted(void) {
    const char *number = is_said ? NULL : getenv("NBT_GRANTED");
    if (!is_said)
        grant(number == NULL ? SIZE_MAX : strtoul(number, NULL, 10), 1);
    if (granted == SIZE_MAX || granted-- > 0)
        return 1;
    memory.denied++;
    granted = is_for_ever ? 0 : SIZE_MAX;
    return 0;
}

/* What stands before a block, and its word behind it too, as long as it is in use. */
struct front { size_t length, word; };
static const size_t IN_USE = (size_t)0x5bd1e995a7c3f00d;
enum { FRESH = 0xcd, GIVEN_BACK = 0xdd };

static void *made(size_t length) {
    struct front *front = __real_malloc(sizeof *front + length + sizeof IN_USE);
    if (front == NULL)
        return NULL;
    *front = (struct front){length, IN_USE};
    memcpy((uint8_t *)memset(front + 1, FRESH, length) + length, &IN_USE, sizeof IN_USE);
    memory.blocks++;
    return front + 1;
}

static struct front *front_of(void *block) {
    struct front *front = (struct front *)block - 1;
    assert(front->word == IN_USE && memcmp((uint8_t *)block + front->length, &IN_USE, sizeof IN_USE) == 0);
    return front;
}

/* Bytes that weren't written yet, and those of a block that was given back, are none that stood there by chance. */
void *__wrap_malloc(size_t size) { return is_granted() ? made(size) : NULL; }

/* A block always moves. */
void *__wrap_realloc(void *block, size_t size) {
    void *moved = is_granted() ? made(size) : NULL;
    if (moved != NULL && block != NULL) {
        memcpy(moved, block, front_of(block)->length < size ? front_of(block)->length : size);
        __wrap_free(block);
    }
    return moved;
}

void __wrap_free(void *block) {
    if (block == NULL)
        return;
    memset(block, GIVEN_BACK, front_of(block)->length);
    memory.blocks--;
    ((struct front *)block - 1)->word = 0;
    __real_free((struct front *)block - 1);
}
