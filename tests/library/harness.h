/* What the programs of this folder have alike: the rows of calls.def, and a call in rooms between pages that can't be touched. */
#ifndef HARNESS_H
#define HARNESS_H

#include <nbt.h>
#include <string.h>

/* The requests for memory of a program that is linked with memory.c, --wrap=malloc, --wrap=realloc and --wrap=free. */
extern struct memory {
    size_t denied; /* how many were refused since the last grant */
    size_t blocks; /* how many blocks there are */
} memory;

/* How many requests are granted from now on, SIZE_MAX for all; then one is refused, and where `for_ever` says so all after it. */
void grant(size_t requests, int for_ever);

/* ENTRIES is how many structures a call may fill in that fills in several. */
enum { INPUTS = 3, NUMBERS = 6, ENTRIES = 3, MOST_FILLED = ENTRIES * 600 };
#define UNSAID (SIZE_MAX - 88)
#define COUNT(list) (sizeof(list) / sizeof *(list))

struct bytes {
    const uint8_t *at;
    size_t length;
};

/* A text or bytes of the program, without the zero that ends them. */
#define BYTES(text) {(const uint8_t *)(text), sizeof(text) - 1}

/* What a call is given. An input that it hasn't is all zero. */
struct asked {
    struct bytes in[INPUTS];
    uint64_t n[NUMBERS];
    struct nbt_station *station;
};

/* The structures that are none of the header's. */
struct nothing {
    uint8_t none;
};
struct dropped {
    uint32_t keys;
};

enum call {
#define ROW(name, structure, size, way, words) OF_##name,
#define HOLE(structure, from, to)
#include "calls.def"
#undef ROW
#undef HOLE
    CALLS
};

struct row {
    const char *name, *structure, *words;
    uint32_t (*call)(const struct asked *it, void *filled, uint8_t *into, size_t room, size_t *used, size_t *at);
    size_t fills;     /* the bytes of its structure */
    int changes;      /* whether a station is another one after it */
};

extern const struct row rows[CALLS];

/* What a call answered: UNSAID where it wrote no number. What it wrote stays until what is kept is released. */
struct answer {
    uint32_t status;
    size_t used, at;
    struct bytes bytes, filled;
};

/* A row in the form of cases.txt: a call, what it is given, and its answer: bytes where `mark` is =, those of the fields of its structures
 * where it is ~, words where it is : or !, and none where it is 0. */
struct sample {
    enum call of;
    struct asked asked;
    char mark;
    struct bytes answer;
};

/* Passes over lines up to a row, which is read, and answers whether there is one. Names hold until the next `line`, those before the
 * first one for ever. What is kept for a row may be released once it is done. */
int next_row(const char **text, struct sample *made);
void free_stations(void);

/* Whether a call answered what its row says; ends the program where it didn't. */
void judge_answer(const struct sample *it, struct answer answer);

/* Numbers that are odd for some call: those of types, and the least and the greatest. */
enum { ODD_NUMBERS = 25 };
extern const uint64_t odd_numbers[ODD_NUMBERS];

/* Ends the program where something doesn't hold, with what was done last. */
void expect(int holds, const char *what);
extern const char *program, *doing;
extern unsigned long line_number;

/* How a call is tried: in how many rooms besides, and with how many requests for memory granted, from the least to less than the most, or
 * until it is done. */
extern struct trials {
    size_t rooms, least, most;
} trials;

/* How many calls were made, and in how many of them a request was refused. */
extern unsigned long call_count, refusal_count;

/* One call, in a room of so many bytes, on a side of it (0 the front, where an input without bytes is null, 1 the end), with so many
 * requests granted. What has to hold of every call is judged here. What it wrote stays until the next call. */
struct answer attempt(enum call of, const struct asked *asked, size_t room, int side, size_t requests);

/* A call in no room, in a byte too little, in as much as it wants or more, and with few requests granted: it answers the same, on the
 * other side too. One that changes a station is done once, and leaves it as it was before that. */
struct answer answered(enum call of, const struct asked *asked);
#define CALL(name, ...) answered(OF_##name, &(struct asked){__VA_ARGS__})

/* What is kept, and let go of from a mark on, but for what is held, up to a mark: bytes, and the bytes that digits stand for. */
struct bytes keep(const void *from, size_t length);
struct bytes bytes_of(const char *digits);
size_t kept_mark(void);
void release(size_t mark);
void hold(size_t mark);

/* The fields of the structures that a call filled in, one after the other. */
struct bytes fields_of(enum call of, const struct answer *it);

int is_same(struct bytes first, struct bytes second);
int has_input(enum call of, int input);

/* Bytes at the edge of a page, each of them `fill`: areas 0 to 2 are of inputs, 3 is of what is written, 4 of structures. */
uint8_t *area_at(int area, size_t length, int side, int fill);

/* The statuses that calls answered, a line each. */
void print_statuses(void);

/* What ways of calls.c do with rows; its status. */
int vary_rows(const char *text);
int measure_rows(const char *text);

#endif
