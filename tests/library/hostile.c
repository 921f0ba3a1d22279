/* A caller of the library who goes to every limit that include/nbt.h leaves: each row, its inputs cut at each length and with each byte
 * changed, its numbers at their least and greatest, in each room, between pages that can't be touched, and with requests for memory
 * refused. Prints which statuses each call answered, for tests/library/statuses_reached.py. */
#include "harness.h"
#include <stdio.h>

enum { MOST_SAMPLES = 1 << 14, MOST_CHANGED = 700, MOST_ALIKE = 2 };

const uint64_t odd_numbers[ODD_NUMBERS] = {0, 1, 2, 3, 11, 12, 13, 0x10, 0x12, 0x14, 0x20, 0x21, 23, 0x81, 0x84, 137, 138, 139, 255,
    UINT16_MAX, UINT32_MAX, SIZE_MAX / 18, SIZE_MAX / 6, SIZE_MAX / 2, SIZE_MAX};

/* A station that is made is given back. */
static struct answer tried(enum call of, const struct asked *asked) {
    size_t mark = kept_mark();
    struct answer it = answered(of, asked);
    if (of == OF_station_create)
        nbt_station_free(*asked->station);
    release(mark);
    return it;
}

static int number_count(enum call of) {
    int count = 0;
    const char *at;
    for (at = rows[of].words + 1; *at != '\0'; at++)
        count += strchr("NLB", *at) != NULL && at[1] == '(' && at[-1] != 'I';
    return count;
}

/* What a row's call answers, which is what it says. One that makes a station makes another one when it is varied. */
static uint32_t sampled(struct sample *it) {
    static struct nbt_station other;
    struct answer answer;
    if (it->of == OF_station_create) {
        nbt_station_free(*it->asked.station);
        answer = answered(it->of, &it->asked);
        it->asked.station = &other;
    } else {
        answer = tried(it->of, &it->asked);
    }
    judge_answer(it, answer);
    return answer.status;
}

static size_t longest(const struct asked *asked) {
    size_t length = 0;
    int i;
    for (i = 0; i < INPUTS; i++)
        length = asked->in[i].length > length ? asked->in[i].length : length;
    return length;
}

/* With each number below so many, and at each of its values. */
static void numbered(enum call of, struct asked asked, uint64_t below) {
    int i;
    size_t j;
    for (i = 0; i < number_count(of); i++) {
        uint64_t before = asked.n[i];
        for (asked.n[i] = 0; asked.n[i] < below; asked.n[i]++)
            tried(of, &asked);
        for (j = 0; j < ODD_NUMBERS; j++) {
            asked.n[i] = odd_numbers[j];
            tried(of, &asked);
        }
        asked.n[i] = before;
    }
}

/* With one of its numbers at one of its values: another one each time. */
static void turned(enum call of, struct asked asked) {
    static size_t turn;
    asked.n[turn % (size_t)number_count(of)] = odd_numbers[turn % ODD_NUMBERS];
    turn++;
    tried(of, &asked);
}

/* Each front of an input, and all of it with each byte changed. */
static void changed(const struct sample *it, int input) {
    static const uint8_t bytes[] = {0x00, 0x01, 0x3f, 0x40, 0x80, 0xc0, 0xff};
    static uint8_t copy[MOST_CHANGED];
    struct asked asked = it->asked;
    const struct bytes whole = it->asked.in[input];
    size_t length, i;
    for (length = 0; length <= whole.length; length++) {
        asked.in[input] = (struct bytes){whole.at, length};
        tried(it->of, &asked);
        numbered(it->of, asked, 0);
    }
    asked.in[input] = (struct bytes){copy, whole.length};
    for (length = 0; length < whole.length; length++)
        for (i = 0; i < COUNT(bytes); i++) {
            memcpy(copy, whole.at, whole.length);
            copy[length] = bytes[i];
            tried(it->of, &asked);
            if (number_count(it->of) > 0)
                turned(it->of, asked);
        }
}

/* Room for no question and no record is enough, if nothing is to be filled in. */
static void no_entries(void) {
    struct bytes it = BYTES("\0\1\0\0\0\1\0\0\0\0\0\0" "\0\0\x20\0\1");
    size_t count = UNSAID, at = UNSAID;
    expect(nbt_service_items(it.at, it.length, 0, NBT_FIRST_ITEM, NULL, 0, &count, &at) == NBT_DONE && count == 0 && at == UNSAID, "room for no entry");
}

/* A row, with other numbers and inputs: with many where no input is so long that this would take long. */
static void varied(const struct sample *it) {
    int input, is_short = longest(&it->asked) <= MOST_CHANGED;
    numbered(it->of, it->asked, is_short ? 258 : 0);
    for (input = 0; input < INPUTS && is_short; input++)
        if (has_input(it->of, input))
            changed(it, input);
}

int vary_rows(const char *text) {
    static struct sample samples[MOST_SAMPLES];
    static size_t alike[CALLS][256];
    static int is_varied[MOST_SAMPLES];
    size_t sample_count = 0, i;
    while (next_row(&text, &samples[sample_count]))
        expect(++sample_count < MOST_SAMPLES, "room for rows");
    trials = (struct trials){.most = 3};
    /* Few rows of a call with one status are varied, which would take long of all. */
    for (i = 0; i < sample_count; i++)
        is_varied[i] = alike[samples[i].of][sampled(&samples[i])]++ < MOST_ALIKE;
    for (i = 0; i < sample_count; i++)
        if (is_varied[i])
            varied(&samples[i]);
    free_stations();
    no_entries();
    expect(memory.blocks == 0, "all stations give back what they took");
    print_statuses();
    fprintf(stderr, "%lu calls\n", call_count);
    return 0;
}
