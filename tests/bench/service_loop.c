/* What calls of the library cost: reads a capture, and then has the library do something with it, ROUNDS times. Usage:
 * service_loop ROUNDS WHAT <CAPTURE. Prints the sum of what was read, and the nanoseconds of processor time of the calls. WHAT is
 *
 * show, json  nbt_show or nbt_json tells each payload, into one buffer; the sum is of the bytes of texts
 * items       of port 137 the header is read, item after item, and the parts of RDATA; the sum is that of tests/plain/sum.rs
 * judged      the same after nbt_service_read, which judges the whole packet
 * absorb      a station that has taken all payloads but the last takes in the table of one that has taken the last
 * save, load  that table is saved; it is taken in by a station that has taken none
 * look        the first station is given its payloads again */
#define _GNU_SOURCE
#include <nbt.h>
#include <stdio.h>
#include <stdlib.h>
#include <string.h>
#include <time.h>

enum { NB = 0x20, NBSTAT = 0x21 };

struct payload {
    uint16_t port;
    size_t length;
    uint8_t *bytes;
};

static uint8_t room[1 << 20];

static void must(int holds) {
    if (!holds)
        exit(1);
}

/* The payloads of the capture on standard input, and how many there are. */
static struct payload *read_payloads(size_t *count) {
    struct payload *all = NULL;
    struct nbt_line said;
    char *line = NULL;
    size_t size = 0, used;
    for (*count = 0; getline(&line, &size, stdin) > 0;) {
        must(nbt_capture_line((uint8_t *)line, strcspn(line, "\n"), &said, room, sizeof room, &used) == NBT_DONE);
        if (*count % 1024 == 0)
            all = realloc(all, (*count + 1024) * sizeof *all);
        all[*count] = (struct payload){said.port, used, malloc(used)};
        memcpy(all[(*count)++].bytes, room, used);
    }
    return all;
}

/* ---- what is read of one */

static uint64_t text_of(const struct payload *it, uint32_t tell(uint16_t, const uint8_t *, size_t, uint8_t *, size_t, size_t *)) {
    size_t used;
    must(tell(it->port, it->bytes, it->length, room, sizeof room, &used) == NBT_DONE);
    return used;
}

static uint64_t show(const struct payload *it) { return text_of(it, nbt_show); }

static uint64_t json(const struct payload *it) { return text_of(it, nbt_json); }

static uint64_t addresses(const uint8_t *data, size_t length) {
    struct nbt_service_address read;
    size_t number, at;
    uint64_t sum = 0;
    for (number = 0; nbt_service_address(NB, data, length, number, &read, &at) == NBT_DONE; number++)
        sum += (uint64_t)read.address + read.flags;
    return sum;
}

static uint64_t nodes(const uint8_t *data, size_t length) {
    struct nbt_service_node read;
    struct nbt_service_unit unit;
    size_t number, at;
    uint64_t sum = 0;
    for (number = 0; nbt_service_node(NBSTAT, data, length, number, &read, &at) == NBT_DONE; number++)
        sum += (uint64_t)read.flags + read.name[0] + read.name[15];
    if (nbt_service_unit(NBSTAT, data, length, &unit, &at) == NBT_DONE)
        sum += unit.bytes[5];
    return sum;
}

static uint64_t values(const uint8_t *payload, const struct nbt_service_item *item) {
    uint64_t sum = (uint64_t)item->section + item->time_to_live + item->type + item->class_number + item->data
        + item->data_length + item->netbios + item->name_length + item->name[1];
    if (item->section != 0 && item->type == NB)
        sum += addresses(payload + item->data, item->data_length);
    if (item->section != 0 && item->type == NBSTAT)
        sum += nodes(payload + item->data, item->data_length);
    return sum;
}

/* The sum of a packet's values, its items one after another; 0 where one doesn't stand. */
static uint64_t packet(const struct payload *it, uint32_t begin(const uint8_t *, size_t, struct nbt_service_header *, size_t *)) {
    struct nbt_service_header header;
    struct nbt_service_item item;
    size_t place = 12, at;
    uint32_t number, count;
    uint64_t sum;
    if (begin(it->bytes, it->length, &header, &at) != NBT_DONE)
        return 0;
    count = (uint32_t)header.questions + header.answers + header.authorities + header.additional;
    sum = (uint64_t)header.identifier + header.word;
    for (number = 0; number < count; number++) {
        if (nbt_service_item(it->bytes, it->length, number, place, &item, &at) != NBT_DONE)
            return 0;
        sum += values(it->bytes, &item);
        place = item.next;
    }
    return sum + place;
}

static uint64_t items(const struct payload *it) { return packet(it, nbt_service_header); }

static uint64_t judged(const struct payload *it) { return packet(it, nbt_service_read); }

/* ---- what stations do */

static struct nbt_station held, one, none;
static uint8_t table[1024];
static size_t table_length;

static void give(struct nbt_station *station, const struct payload *all, size_t count) {
    struct nbt_taken taken;
    size_t used;
    for (; count > 0; count--, all++) {
        must(nbt_station_take(station, 0, all->bytes, all->length, &taken, room, sizeof room, &used) == NBT_DONE);
        must(taken.outcome == NBT_KEPT);
    }
}

static struct nbt_station station_of(const struct payload *all, size_t count) {
    struct nbt_station made;
    size_t at;
    must(nbt_station_create(NULL, 0, 0x0a000001, 138, UINT32_MAX, UINT32_MAX, &made.at, &at) == NBT_DONE);
    give(&made, all, count);
    return made;
}

static void save(void) { must(nbt_station_save(&one, table, sizeof table, &table_length) == NBT_DONE); }

static void absorb(struct nbt_station *station) {
    size_t used, at;
    must(nbt_station_absorb(station, 0, table, table_length, NULL, 0, &used, &at) == NBT_DONE);
}

static uint64_t by_stations(const char *what, const struct payload *all, size_t count) {
    if (strcmp(what, "absorb") == 0)
        absorb(&held);
    else if (strcmp(what, "load") == 0)
        absorb(&none);
    else if (strcmp(what, "save") == 0)
        save();
    else
        give(&held, all, count - 1);
    return 0;
}

static const struct {
    const char *what;
    uint64_t (*read)(const struct payload *it);
} ways[] = {{"show", show}, {"json", json}, {"items", items}, {"judged", judged}, {NULL, NULL}};

int main(int argc, char **argv) {
    int rounds = argc > 2 ? atoi(argv[1]) : 0;
    size_t count, i, way = 0;
    struct payload *all = read_payloads(&count);
    uint64_t sum = 0;
    clock_t began;
    while (argc > 2 && ways[way].what != NULL && strcmp(ways[way].what, argv[2]) != 0)
        way++;
    if (ways[way].what == NULL) {
        held = station_of(all, count - 1), one = station_of(all + count - 1, 1), none = station_of(all, 0);
        save();
    }
    began = clock();
    for (; rounds > 0; rounds--)
        if (ways[way].what == NULL)
            sum += by_stations(argv[2], all, count);
        else
            for (i = 0; i < count; i++)
                sum += ways[way].read(&all[i]);
    printf("%llu %lld\n", (unsigned long long)sum, (long long)(clock() - began) * (1000000000 / CLOCKS_PER_SEC));
    return 0;
}
