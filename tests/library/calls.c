/* The calls of rows on standard input, in the form of cases.txt, each with harness.c's eyes on it. Usage: calls WAY <ROWS:
 *
 * judged [ROOMS]  each call answers what its row says, also in so many rooms that are too small, and with requests for memory refused
 * refused         so it does, and with each of its requests refused in turn
 * varied          so it does, and with its inputs and numbers changed: hostile.c
 * measured        the stack that each call wants, and how long texts are: bounds.c
 *
 * The first two print what each call answers: the number of its `line`, the call, its status, *used, *at, and sums of the bytes and of the
 * fields that it wrote. calls.mjs prints the same in WebAssembly. The last line of standard error counts what was done. */
#define _GNU_SOURCE
#include "harness.h"
#include <stdio.h>
#include <stdlib.h>

const char *program = "calls";

/* ---- what is answered */

static uint32_t sum_of(struct bytes it) {
    uint32_t sum = 0x811c9dc5;
    size_t i;
    for (i = 0; i < it.length; i++)
        sum = (sum ^ it.at[i]) * 0x01000193;
    return sum;
}

static void print_number(size_t number) { printf(number == UNSAID ? " -" : " %zu", number); }

static void print_answer(const struct row *row, struct bytes fields, struct answer it) {
    printf("%lu %s %u", line_number, row->name, (unsigned)it.status);
    print_number(it.used);
    print_number(it.at);
    printf(" %08x %08x\n", (unsigned)sum_of(it.bytes), (unsigned)sum_of(fields));
}

/* ---- what rows say */

/* The text of a status, and its place if it has one. */
static struct bytes refusal(struct answer answer) {
    static char text[128];
    size_t used = 0;
    expect(nbt_status_text(answer.status, (uint8_t *)text, sizeof text, &used) == NBT_DONE, "the text of a status");
    if (answer.at != UNSAID)
        used += (size_t)snprintf(text + used, sizeof text - used, " %zu", answer.at);
    return (struct bytes){(const uint8_t *)text, used};
}

static void print_bytes(const char *what, struct bytes it, int is_text) {
    size_t i;
    fprintf(stderr, "%s ", what);
    for (i = 0; i < it.length && i < 300; i++)
        fprintf(stderr, is_text ? "%c" : "%02x", it.at[i]);
}

void judge_answer(const struct sample *it, struct answer answer) {
    int is_refusal = it->mark == '!', is_as_said = (answer.status == NBT_DONE) != is_refusal;
    struct bytes found = answer.status != NBT_DONE ? refusal(answer) : it->mark == '~' ? fields_of(it->of, &answer) : answer.bytes;
    is_as_said = it->mark == '\0' || (is_as_said && (it->mark == ':' || is_same(found, it->answer)));
    if (!is_as_said) {
        print_bytes("found", found, answer.status != NBT_DONE);
        print_bytes(", wanted", it->answer, is_refusal);
        fprintf(stderr, "\n");
    }
    expect(is_as_said, "what a row says");
}

/* Of a number in a register that has more bits than the parameter the others don't count. */
static void wide(void) {
    typedef uint32_t wide_show(uint32_t, const uint8_t *, size_t, uint8_t *, size_t, size_t *);
    static wide_show *volatile show = (wide_show *)(void (*)(void))nbt_show;
    const struct bytes payload = BYTES("\x84\0\0\6" "\x0a\0\0\5\0\x8b");
    uint8_t text[256], wanted[256];
    size_t used, length;
    expect(nbt_show(138, payload.at, payload.length, wanted, sizeof wanted, &length) == NBT_DONE, "a text");
    expect(show(0xabcd0000 | 138, payload.at, payload.length, text, sizeof text, &used) == NBT_DONE && used == length && memcmp(text, wanted, used) == 0,
           "a port with more bits");
}

/* Each is tried with few requests granted, or with ever more of them until it is done. */
static int judge_rows(const char *text, size_t rooms, int is_each_refused) {
    struct sample row;
    size_t mark, count = 0;
    wide();
    for (mark = kept_mark(); next_row(&text, &row); release(mark), count++) {
        struct answer it;
        trials = (struct trials){.rooms = rooms, .least = count % 7, .most = count % 7 + 2};
        if (is_each_refused)
            trials = (struct trials){.rooms = rooms, .most = SIZE_MAX};
        it = answered(row.of, &row.asked);
        judge_answer(&row, it);
        print_answer(&rows[row.of], fields_of(row.of, &it), it);
    }
    free_stations();
    expect(memory.blocks == 0, "what is kept is given back");
    fprintf(stderr, "%zu rows, %lu calls, %lu refusals\n", count, call_count, refusal_count);
    return 0;
}

/* ---- the ways */

#ifndef FUZZER
int main(int words, char **word) {
    static char text[1 << 29];
    const char *way = words > 1 ? word[1] : "";
    expect(fread(text, 1, sizeof text, stdin) < sizeof text, "room for rows");
    program = way;
    if (strcmp(way, "varied") == 0)
        return vary_rows(text);
    if (strcmp(way, "measured") == 0)
        return measure_rows(text);
    return judge_rows(text, words > 2 ? strtoul(word[2], NULL, 10) : 0, strcmp(way, "refused") == 0);
}
#endif
