/* A fuzzer's inputs, which tests/fuzz_coverage.py finds: whatever they are, harness.c's eyes are on each call. What the calls should answer
 * is said by tests/library/payload_rows.py of the same records. An input is records, each of a kind (a byte: 0 to 2 are ports 137 to 139, 3
 * is a saved table), a length (two bytes), and bytes; a length past the end is cut. */
#include "harness.h"

enum { PORT_138 = 1, TABLE = 3, SOME = 4 };

static const struct bytes names = BYTES("FRED<20> JOE<00>");

/* Some of the calls that change no station, with these bytes for an input, and what comes to a port there. */
static void any_call(uint32_t kind, struct bytes it) {
    size_t i, of, mark = kept_mark();
    for (of = 0; of < CALLS; of++, release(mark)) {
        struct asked asked = {.station = NULL};
        int is_said = of == OF_show || of == OF_json || of == OF_brief, inputs = 1 + has_input(of, 1) + has_input(of, 2);
        if (rows[of].changes || !has_input(of, 0) || (!is_said && (of + it.length) % SOME > 0))
            continue;
        for (i = 0; i < NUMBERS; i++)
            asked.n[i] = is_said ? 137 + kind : odd_numbers[(line_number + it.length * (i + 1)) % ODD_NUMBERS];
        for (i = 0; i < (size_t)inputs; i++)
            asked.in[i] = i == line_number % (size_t)inputs ? it : names;
        answered(of, &asked);
    }
}

/* The table of a station, as it is told, compared, joined and taken in. */
static void tables(struct nbt_station *station, struct nbt_station *other) {
    struct bytes table = CALL(station_save, .station = station).bytes;
    CALL(station_list, .station = station);
    CALL(table_list, .in = {table});
    CALL(table_json, .in = {table});
    CALL(table_differ, .in = {table, table});
    CALL(table_merge, .in = {table, table}, .n = {UINT32_MAX, UINT32_MAX});
    CALL(station_absorb, .station = other, .in = {table});
    CALL(station_tick, .station = other, .n = {2000});
}

int LLVMFuzzerTestOneInput(const uint8_t *data, size_t size);

int LLVMFuzzerTestOneInput(const uint8_t *data, size_t size) {
    struct nbt_station station, other;
    size_t mark = kept_mark(), blocks = memory.blocks;
    trials = (struct trials){.least = size % 29, .most = size % 29 + 1};
    CALL(station_create, .station = &station, .in = {names}, .n = {0x0a000009, 138, 40, 20});
    CALL(station_create, .station = &other, .in = {names}, .n = {0x0a000009, 138, 40, 20});
    for (line_number = 0; size >= 3; line_number++, release(mark)) {
        size_t length = (size_t)data[1] << 8 | data[2], kind = data[0] % 4;
        struct bytes it = {data + 3, length < size - 3 ? length : size - 3};
        any_call((uint32_t)kind, it);
        if (kind == TABLE)
            CALL(station_absorb, .station = &station, .in = {it});
        else if (kind == PORT_138)
            CALL(station_take, .station = &station, .in = {it});
        data += 3 + it.length;
        size -= 3 + it.length;
    }
    tables(&station, &other);
    nbt_station_free(station);
    nbt_station_free(other);
    release(mark);
    expect(memory.blocks == blocks, "stations give back what they took");
    return 0;
}
