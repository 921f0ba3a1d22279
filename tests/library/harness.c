/* Calls in rooms between pages that can't be touched: see harness.h. */
#define _GNU_SOURCE
#include "harness.h"
#include <stdio.h>
#include <stdlib.h>
#include <sys/mman.h>

enum { PAGE = 4096, OUTPUT = INPUTS, FILLED, AREAS, SPACE = 6144 * PAGE, MORE = 3 };
/* What stands before a call where it writes, by the side. */
static const int FILLS[] = {0xa5, 0x5a};
#define KEPT ((size_t)1 << 30)

/* ---- the rows */

#define IN(i) it->in[i].at, it->in[i].length
#define N(i) (uint32_t)it->n[i]
#define L(i) it->n[i]
#define B(i) (it->n[i] != 0)
#define OUT into, room, used
#define USED used
#define AT at
#define STATION it->station
#define MADE &it->station->at
#define HOLE(structure, from, to)
#define ROW(name, structure, size, way, words) \
    _Static_assert(sizeof(struct structure) == size, "the size of a structure of calls.def"); \
    static uint32_t name(const struct asked *it, void *FILLED, uint8_t *into, size_t room, size_t *used, size_t *at) { \
        (void)it, (void)FILLED, (void)into, (void)room, (void)used, (void)at; \
        return nbt_##name words; \
    }
#include "calls.def"
#undef ROW

enum { READS, CHANGES };
#define ROW(name, structure, size, way, words) {#name, #structure, #words, name, size, way},
const struct row rows[CALLS] = {
#include "calls.def"
};
#undef ROW
#undef HOLE

static const struct hole {
    const char *structure;
    size_t from, to;
} holes[] = {
#define ROW(name, structure, size, way, words)
#define HOLE(structure, from, to) {#structure, from, to},
#include "calls.def"
};

static int has(enum call of, const char *word) { return strstr(rows[of].words, word) != NULL; }

int has_input(enum call of, int input) {
    const char word[] = {'I', 'N', '(', (char)('0' + input), ')', '\0'};
    return has(of, word);
}

/* ---- what holds, and what was answered */

const char *doing = "";
unsigned long line_number, call_count, refusal_count;
struct trials trials;
static uint8_t reached[CALLS][256];

void expect(int holds, const char *what) {
    if (holds)
        return;
    fflush(stdout);
    fprintf(stderr, "%s: line %lu: nbt_%.*s: not so: %s\n", program, line_number, (int)(strcspn(doing, "\n") % 300), doing, what);
    abort();
}

void print_statuses(void) {
    size_t of, status;
    for (of = 0; of < CALLS; of++)
        for (status = 0; status < 256; status++)
            if (reached[of][status])
                printf("nbt_%s %zu\n", rows[of].name, status);
}

/* Whether include/nbt.h says of a status what *at is. */
static int has_place(uint32_t status) {
    static const uint8_t others[] = {NBT_BAD_TEXT, NBT_SOURCE_BAD_TEXT, NBT_DESTINATION_BAD_TEXT, NBT_TRUNCATED, NBT_MORE, NBT_TRAILING_BYTES,
        NBT_NAME_RDATA, NBT_NO_PART, NBT_TABLE_NOT_CANONICAL, NBT_SECOND_NOT_CANONICAL, NBT_NAME_PRESENT, NBT_TOO_MANY_NAMES};
    return (status >= NBT_NAME_TRUNCATED && status <= NBT_DESTINATION_BAD_POINTER) || (status < 256 && memchr(others, (int)status, sizeof others));
}

/* ---- space */

uint8_t *area_at(int area, size_t length, int side, int fill) {
    static uint8_t *spaces[AREAS];
    if (spaces[area] == NULL) {
        uint8_t *start = mmap(NULL, SPACE + 2 * PAGE, PROT_READ | PROT_WRITE, MAP_PRIVATE | MAP_ANONYMOUS | MAP_NORESERVE, -1, 0);
        expect(start != MAP_FAILED && mprotect(start, PAGE, PROT_NONE) == 0 && mprotect(start + PAGE + SPACE, PAGE, PROT_NONE) == 0, "mmap");
        spaces[area] = start + PAGE;
    }
    expect(length <= SPACE, "a room in the space for it");
    return memset(side == 0 ? spaces[area] : spaces[area] + SPACE - length, fill, length);
}

static int is_filled(const uint8_t *at, size_t length, int fill) {
    return length == 0 || (at[0] == fill && memcmp(at, at + 1, length - 1) == 0);
}

static uint8_t *kept;
static size_t kept_length, held_length;

size_t kept_mark(void) { return kept_length; }

void release(size_t mark) { kept_length = mark > held_length ? mark : held_length; }

void hold(size_t mark) { held_length = mark; }

struct bytes keep(const void *from, size_t length) {
    struct bytes made;
    if (kept == NULL) {
        kept = mmap(NULL, KEPT, PROT_READ | PROT_WRITE, MAP_PRIVATE | MAP_ANONYMOUS | MAP_NORESERVE, -1, 0);
        expect(kept != MAP_FAILED, "mmap");
    }
    expect(length <= KEPT - kept_length - 16, "what is kept has room");
    made = (struct bytes){kept + kept_length, length};
    if (length > 0)
        memcpy(kept + kept_length, from, length);
    kept_length += (length + 15) / 8 * 8;
    return made;
}

static uint8_t half(char digit) { return (uint8_t)(digit <= '9' ? digit - '0' : (digit | 32) - 'a' + 10); }

struct bytes bytes_of(const char *digits) {
    size_t length = strspn(digits, "0123456789abcdefABCDEF") / 2, i;
    struct bytes made = keep(digits, length);
    for (i = 0; i < length; i++)
        ((uint8_t *)made.at)[i] = (uint8_t)(half(digits[2 * i]) << 4 | half(digits[2 * i + 1]));
    return made;
}

int is_same(struct bytes first, struct bytes second) {
    return first.length == second.length && (first.length == 0 || memcmp(first.at, second.at, first.length) == 0);
}

/* The same question, its inputs on a side of areas of their own. Inputs that are one another's stay so. */
static struct asked placed(enum call of, const struct asked *asked, int side) {
    struct asked made = *asked;
    int i;
    for (i = 0; i < INPUTS; i++) {
        const struct bytes *it = &asked->in[i];
        if (i > 0 && it->at == asked->in[i - 1].at && it->length == asked->in[i - 1].length)
            made.in[i] = made.in[i - 1];
        else if (it->length > 0 || side == 1)
            made.in[i].at = has_input(of, i) ? area_at(i, it->length, side, 0) : NULL;
        else
            made.in[i].at = NULL;
        if (it->length > 0)
            memcpy((uint8_t *)made.in[i].at, it->at, it->length);
    }
    return made;
}

/* ---- a call */

/* How many structures a call has room for, and how many it filled in. */
static size_t structures(enum call of) { return has(of, "ENTRIES") ? ENTRIES : 1; }

static size_t filled_count(enum call of, const struct answer *it) {
    return it->status != NBT_DONE ? 0 : has(of, "ENTRIES") ? it->used : 1;
}

/* Adds the fields of a structure to some bytes, and answers how many these are then. */
static size_t add_fields(enum call of, const uint8_t *structure, uint8_t *into, size_t length) {
    size_t place = 0, i;
    for (i = 0; i <= COUNT(holes); i++) {
        size_t end = i == COUNT(holes) ? rows[of].fills : holes[i].from;
        if (i < COUNT(holes) && strcmp(holes[i].structure, rows[of].structure) != 0)
            continue;
        memcpy(into + length, structure + place, end - place);
        length += end - place;
        place = i == COUNT(holes) ? end : holes[i].to;
    }
    return length;
}

struct bytes fields_of(enum call of, const struct answer *it) {
    static uint8_t all[MOST_FILLED];
    size_t length = 0, i;
    for (i = 0; i < filled_count(of, it); i++)
        length = add_fields(of, it->filled.at + i * rows[of].fills, all, length);
    return keep(all, length);
}

/* What has to hold of each call, whatever it was given. */
static void judge(enum call of, const struct answer *it, const struct asked *before, const struct asked *after, size_t room, int fill) {
    size_t filled = filled_count(of, it) * rows[of].fills;
    int is_done = it->status == NBT_DONE, i;
    if (has(of, "OUT")) {
        expect(is_done ? it->used <= room : it->status == NBT_NO_ROOM ? it->used > room && it->used != UNSAID : it->used == UNSAID, "*used");
        expect(is_filled(it->bytes.at + (is_done ? it->used : 0), is_done ? room - it->used : room, fill), "bytes past *used stay as they were");
    } else {
        expect(is_done && has(of, "USED") ? it->used > 0 && it->used <= ENTRIES : it->used == UNSAID, "*used");
    }
    expect(is_filled(it->filled.at + filled, it->filled.length - filled, fill), "a structure is filled in at NBT_DONE alone");
    expect((it->at != UNSAID) == (has(of, "AT)") && has_place(it->status)), "*at is written at a status with a place alone");
    for (i = 0; i < INPUTS; i++)
        expect(is_same(before->in[i], after->in[i]), "inputs stay as they were");
    expect(it->status < 256, "a number of enum nbt_status");
    reached[of][it->status] = 1;
}

struct answer attempt(enum call of, const struct asked *asked, size_t room, int side, size_t requests) {
    const struct row *row = &rows[of];
    const size_t fills = structures(of) * row->fills, blocks = memory.blocks;
    const int fill = FILLS[side], is_making = has(of, "MADE"), is_kept = is_making || has(of, "STATION");
    struct asked made = placed(of, asked, side);
    uint8_t *into = room == 0 && side == 0 ? NULL : area_at(OUTPUT, room, side, fill), *filled = area_at(FILLED, fills, side, fill);
    struct answer it = {.used = UNSAID, .at = UNSAID, .filled = {filled, fills}};
    doing = row->name;
    if (is_making)
        asked->station->at = filled;
    grant(requests, call_count % 2);
    it.status = row->call(&made, filled, into, room, &it.used, &it.at);
    it.bytes = (struct bytes){into, it.status == NBT_DONE && has(of, "OUT") ? it.used : 0};
    expect(it.status != NBT_NO_MEMORY || memory.denied > 0, "NBT_NO_MEMORY where a request is refused alone");
    expect(memory.denied == 0 || (it.status != NBT_DONE && it.status != NBT_NO_ROOM), "nothing is done where a request is refused");
    call_count++;
    refusal_count += memory.denied > 0;
    grant(SIZE_MAX, 0);
    judge(of, &it, asked, &made, room, fill);
    expect(!is_making || (it.status == NBT_DONE) == (asked->station->at != NULL), "a station is made at NBT_DONE alone");
    expect(is_kept || memory.blocks == blocks, "a call gives back what it took");
    return it;
}

/* Two answers are one: their numbers, their bytes, and each field. */
static void expect_same(enum call of, struct answer first, struct answer second) {
    expect(first.status == second.status && first.used == second.used && first.at == second.at, "the same numbers again");
    expect(is_same(first.bytes, second.bytes), "the same bytes again");
    expect(is_same(fields_of(of, &first), fields_of(of, &second)), "the same fields again, each of them written");
}

static void expect_no_room(struct answer it, size_t wanted) {
    expect(it.status == NBT_NO_ROOM && it.used == wanted, "NBT_NO_ROOM, and the same room wanted");
}

/* A call in a room, with few requests granted, and with all of them where that isn't enough. */
static struct answer tried(enum call of, const struct asked *asked, size_t room) {
    struct answer it = {.status = NBT_NO_MEMORY};
    uint32_t poor;
    size_t requests;
    for (requests = trials.least; it.status == NBT_NO_MEMORY && requests < trials.most; requests++)
        it = attempt(of, asked, room, room > 0, requests);
    if (it.status == NBT_DONE)
        return it;
    poor = it.status;
    it = attempt(of, asked, room, room > 0, SIZE_MAX);
    expect(poor == NBT_NO_MEMORY || poor == it.status, "the same fault, or NBT_NO_MEMORY, where a request is refused");
    return it;
}

static struct bytes table_of(struct nbt_station *station) {
    struct asked asked = {.station = station};
    size_t wanted = attempt(OF_station_save, &asked, 0, 1, SIZE_MAX).used;
    struct answer it;
    if (wanted == UNSAID)
        return (struct bytes){NULL, 0};
    it = attempt(OF_station_save, &asked, wanted, 1, SIZE_MAX);
    return keep(it.bytes.at, it.bytes.length);
}

struct answer answered(enum call of, const struct asked *asked) {
    const int is_taking = rows[of].changes && !has(of, "MADE");
    struct bytes before = is_taking ? table_of(asked->station) : (struct bytes){NULL, 0};
    struct answer it = tried(of, asked, 0);
    size_t room = 0, wanted = it.used;
    if (it.status == NBT_NO_ROOM) {
        for (room = 1; trials.rooms > 0 && room < wanted; room += wanted / (trials.rooms + 1) + 1)
            expect_no_room(attempt(of, asked, room, 0, SIZE_MAX), wanted);
        expect_no_room(attempt(of, asked, wanted - 1, (int)(call_count % 2), SIZE_MAX), wanted);
        room = wanted + call_count % 2 * MORE;
        it = tried(of, asked, room);
        expect(is_taking ? it.status != NBT_NO_ROOM : it.status == NBT_DONE && it.used == wanted, "the room that is wanted");
    }
    it.bytes = keep(it.bytes.at, it.bytes.length);
    it.filled = keep(it.filled.at, it.filled.length);
    if (!rows[of].changes)
        expect_same(of, it, attempt(of, asked, wanted == UNSAID ? 0 : wanted, room == 0, SIZE_MAX));
    if (is_taking && it.status != NBT_DONE)
        expect(is_same(before, table_of(asked->station)), "a station is as it was where nothing is done");
    return it;
}
