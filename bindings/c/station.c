/* A station that is given the pieces of a datagram, in any order, and hands it over once; what it knows meanwhile, as lines and as bytes for
 * a file or for another station; two stations that each missed a piece, of which the one takes in what the other knows; and a name of which
 * no station is made. */
#include <nbt.h>
#include <stdio.h>
#include <stdlib.h>
#include <string.h>

static const uint8_t *bytes(const char *text) { return (const uint8_t *)text; }

static uint8_t into[NBT_TAKE_ROOM];

/* Whether there is a station with these names. */
static bool create(const char *names, struct nbt_station *station) {
    size_t at = 0;
    uint32_t status = nbt_station_create(bytes(names), strlen(names), 0x0a000009, NBT_PORT_DATAGRAMS,
                                         NBT_KEYS, UINT32_MAX, &station->at, &at);
    if (status != NBT_DONE)
        printf("'%s': status %u at %zu\n", names, (unsigned)status, at);
    return status == NBT_DONE;
}

static void take(struct nbt_station *station, const uint8_t *payload, size_t length) {
    struct nbt_taken taken;
    size_t used;
    uint32_t status = nbt_station_take(station, 5000, payload, length, &taken, into, sizeof into, &used);
    if (status != NBT_DONE)
        printf("status %u\n", (unsigned)status);
    else if (taken.outcome == NBT_KEPT)
        printf("kept %08lx:%u/%u\n", (unsigned long)taken.address, taken.port, taken.identifier);
    else if (taken.outcome == NBT_DELIVERED)
        printf("delivered: %.*s\n", (int)taken.data_length, (const char *)into + taken.source_length + taken.destination_length);
    else if (taken.outcome == NBT_UNHEARD && taken.error_length > 0)
        printf("unheard, to be answered by %zu bytes, code %02x\n", taken.error_length, into[taken.error_length - 1]);
    else if (taken.outcome == NBT_REFUSED)
        printf("refused, status %u at %zu\n", (unsigned)taken.refusal, taken.refused_at);
}

static void know(struct nbt_station *station) {
    uint8_t text[256], none[1], *table = NULL;
    size_t used;
    if (nbt_station_list(station, text, sizeof text, &used) == NBT_DONE)
        printf("%.*s", (int)used, (const char *)text);
    if (nbt_station_save(station, none, 0, &used) == NBT_NO_ROOM && (table = malloc(used)) != NULL
        && nbt_station_save(station, table, used, &used) == NBT_DONE)
        printf("%zu bytes, %.4s\n", used, (const char *)table);
    free(table);
}

static void look_at_clock(struct nbt_station *station, uint64_t now) {
    uint32_t dropped;
    if (nbt_station_tick(station, now, &dropped) == NBT_DONE)
        printf("at %u: %u\n", (unsigned)now, (unsigned)dropped);
}

/* Gives a station what others send. Whether it went well. */
static bool listen(struct nbt_station *station) {
    uint8_t packets[512];
    size_t used, at, first;
    if (nbt_datagram_write(NBT_DATAGRAM_UNIQUE, 7, 0x0a000005, NBT_PORT_DATAGRAMS, bytes("JOE<00>"), 7,
                           bytes("FRED<20>"), 8, bytes("hello, FRED"), 11, 6, packets, sizeof packets, &used, &at) != NBT_DONE)
        return false;
    first = (size_t)packets[0] << 8 | packets[1];
    take(station, packets + 2 + first + 2, used - first - 4);
    know(station);
    take(station, packets + 2, first);
    take(station, packets + 2, first);
    if (nbt_datagram_write(NBT_DATAGRAM_UNIQUE, 8, 0x0a000005, NBT_PORT_DATAGRAMS, bytes("JOE<00>"), 7,
                           bytes("ANN<20>"), 7, bytes("hello"), 5, 100, packets, sizeof packets, &used, &at) != NBT_DONE)
        return false;
    take(station, packets + 2, used - 2);
    take(station, packets + 2, 40);
    look_at_clock(station, 6999);
    look_at_clock(station, 7000);
    return true;
}

/* How many bytes the spelling has that stands there. */
static size_t spelled(const uint8_t *name) {
    size_t length = 0;
    while (name[length] != 0)
        length += name[length] + 1u;
    return length + 1;
}

/* The datagrams that are handed over of a table: each is its key, its type, both spellings, and its data behind its length. */
static void print(const uint8_t *each, const uint8_t *end) {
    while (each < end) {
        const uint8_t *source = each + 9, *destination = source + spelled(source), *data = destination + spelled(destination) + 2;
        size_t length = (size_t)data[-2] << 8 | data[-1];
        printf("%u.%u.%u.%u:%u/%u, type %02x: %.*s\n", each[0], each[1], each[2], each[3], each[4] << 8 | each[5],
               each[6] << 8 | each[7], each[8], (int)length, (const char *)data);
        each = data + length;
    }
}

/* Gives each of two stations a piece of a datagram; the one takes in what the other knows, once with too little room, and once more, when
 * nothing becomes whole. Whether it went well. */
static bool join(struct nbt_station *one, struct nbt_station *other) {
    static const size_t rooms[] = {50, 512, 512};
    uint8_t packets[512], table[512], room[512];
    size_t used, at, first, length, i;
    if (nbt_datagram_write(NBT_DATAGRAM_GROUP, 9, 0x0a000005, NBT_PORT_DATAGRAMS, bytes("JOE<00>"), 7,
                           bytes("FRED<20>"), 8, bytes("hello, FRED"), 11, 6, packets, sizeof packets, &used, &at) != NBT_DONE)
        return false;
    first = (size_t)packets[0] << 8 | packets[1];
    take(one, packets + 2, first);
    take(other, packets + 4 + first, used - 4 - first);
    if (nbt_station_save(other, table, sizeof table, &length) != NBT_DONE)
        return false;
    for (i = 0; i < 3; i++) {
        uint32_t status = nbt_station_absorb(one, 5500, table, length, room, rooms[i], &used, &at);
        printf("status %u, %zu bytes\n", (unsigned)status, used);
        if (status == NBT_DONE)
            print(room, room + used);
    }
    return true;
}

int main(void) {
    struct nbt_station one, other;
    bool done;
    if (create("FRED<20> JOE", &one))
        nbt_station_free(one);
    /* Of a station that is none each call answers NBT_NO_STATION, and nbt_station_free does nothing. */
    done = create("FRED<20> OFFICE<1e>", &one) & create("FRED<20>", &other) && join(&one, &other) && listen(&one);
    nbt_station_free(one);
    nbt_station_free(other);
    return done ? 0 : 1;
}
/* Prints:
 * 'FRED<20> JOE': status 10 at 12
 * kept 0a000005:138/9
 * kept 0a000005:138/9
 * status 1, 90 bytes
 * status 0, 90 bytes
 * 10.0.0.5:138/9, type 11: hello, FRED
 * status 0, 0 bytes
 * kept 0a000005:138/7
 * 10.0.0.5:138/0007 partial unique JOE<00> FRED<20> 5/11 1 6-11
 * 10.0.0.5:138/0009 whole group JOE<00> FRED<20> 68656c6c6f2c2046524544
 * 202 bytes, NBT2
 * delivered: hello, FRED
 * kept 0a000005:138/7
 * unheard, to be answered by 11 bytes, code 82
 * refused, status 50 at 40
 * at 6999: 0
 * at 7000: 3
 */
