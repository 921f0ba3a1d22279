/* The bounds that include/nbt.h has: the stack that each call of some rows wants, and how long texts are. Calls run on a stack of their own,
 * whose bytes are known, so that those that a call changes can be found. Prints the most of each call. */
#define _GNU_SOURCE
#include "harness.h"
#include <stdio.h>
#include <stdlib.h>
#include <sys/mman.h>
#include <ucontext.h>

/* A call that wants twice what it may meets a page that can't be touched. */
enum { PAINT = 0x5a, PAGE = 4096, STACK = 2 * NBT_STACK };

/* ---- the stack of a call */

static uint8_t *stack, painted[PAGE];
static ucontext_t caller;
static struct sample row;
static size_t used;
static uint32_t status;

static void start(void) {
    static uint8_t text[1 << 24], filled[MOST_FILLED];
    size_t at;
    used = 0;
    status = rows[row.of].call(&row.asked, filled, text, sizeof text, &used, &at);
}

static uint8_t *new_stack(void) {
    uint8_t *made = mmap(NULL, PAGE + STACK, PROT_READ | PROT_WRITE, MAP_PRIVATE | MAP_ANONYMOUS, -1, 0);
    if (made == MAP_FAILED || mprotect(made, PAGE, PROT_NONE) != 0)
        exit(2);
    memset(painted, PAINT, PAGE);
    return made + PAGE;
}

/* How many bytes of its stack a call changes, from the first to the deepest. */
static size_t depth(void) {
    ucontext_t context;
    size_t untouched = 0;
    memset(stack, PAINT, STACK);
    getcontext(&context);
    context.uc_stack.ss_sp = stack;
    context.uc_stack.ss_size = STACK;
    context.uc_link = &caller;
    makecontext(&context, start, 0);
    swapcontext(&caller, &context);
    while (untouched < STACK && memcmp(stack + untouched, painted, PAGE) == 0)
        untouched += PAGE;
    while (untouched < STACK && stack[untouched] == PAINT)
        untouched++;
    return STACK - untouched;
}

/* ---- what is measured */

/* How long the text of a call is at most: so many bytes, and so many for each byte of its input. */
static const struct {
    size_t least, each;
} texts[CALLS] = {
    [OF_status_text] = {64, 0}, [OF_name_text] = {NBT_NAME_ROOM, 0}, [OF_brief] = {NBT_BRIEF_ROOM, 0}, [OF_capture_line] = {NBT_LINE_ROOM, 0},
    [OF_show] = {64, 131}, [OF_json] = {128, 174}, [OF_table_list] = {0, 4}, [OF_table_json] = {0, 6}};

static size_t greater(size_t first, size_t second) { return first > second ? first : second; }

int measure_rows(const char *text) {
    static size_t stacks[CALLS], lengths[CALLS];
    size_t mark = kept_mark(), of;
    stack = new_stack();
    for (; next_row(&text, &row); release(mark)) {
        of = row.of;
        stacks[of] = greater(stacks[of], depth());
        expect(stacks[of] <= NBT_STACK, "a call wants no more of the stack");
        if (status != NBT_DONE || texts[of].least + texts[of].each == 0)
            continue;
        lengths[of] = greater(lengths[of], used);
        expect(used <= texts[of].least + texts[of].each * row.asked.in[0].length, "a text is no longer");
    }
    free_stations();
    for (of = 0; of < CALLS; of++)
        if (stacks[of] > 0)
            printf("%s: %zu of the stack, %zu of text\n", rows[of].name, stacks[of], lengths[of]);
    return 0;
}
