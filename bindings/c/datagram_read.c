/* A packet of port 138: numbers, and places in the payload; what still stands of one that is cut off, and of a payload that is none. */
#include <nbt.h>
#include <stdio.h>

static void name(const char *which, const uint8_t *spelling, size_t length) {
    uint8_t text[64];
    size_t used, at;
    if (nbt_name_text(spelling, length, text, sizeof text, &used, &at) == NBT_DONE)
        printf(" %s %.*s", which, (int)used, (const char *)text);
}

static void front(const uint8_t *payload, size_t length) {
    struct nbt_datagram_front read;
    size_t at;
    uint32_t status = nbt_datagram_front(payload, length, &read, &at);
    if (status != NBT_DONE) {
        printf("status %u at %zu\n", (unsigned)status, at);
        return;
    }
    printf("type %02x from %08lx, identifier %u, offset %u", read.type, (unsigned long)read.address, read.identifier, read.offset);
    name("from", payload + read.source, read.source_length);
    name("to", payload + read.destination, read.destination_length);
    printf("\n");
}

int main(void) {
    static const uint8_t payload[] = "\x11\2\0\x0a" "\x0a\0\0\5" "\0\x8a" "\0\x49" "\0\x08"
        "\x20" "EKEPEFCACACACACACACACACACACACAAA" "\0" "\x20" "EGFCEFEECACACACACACACACACACACACA" "\0" "hello";
    struct nbt_datagram packet;
    size_t at;
    if (nbt_datagram_read(payload, sizeof payload - 1, &packet, &at) == NBT_DONE)
        printf("identifier %u: %.*s\n", packet.identifier, (int)packet.data_length, (const char *)payload + packet.data);
    if (nbt_datagram_read(payload, 50, &packet, &at) == NBT_TRUNCATED)
        printf("truncated at %zu\n", at);
    front(payload, 84);
    front(payload, 81);
    front(payload, 47);
    front(payload, 13);
    front((const uint8_t *)"\x20\0\0\x0b" "\x0a\0\0\6" "\0\x8a", 10);
    return 0;
}
/* Prints:
 * identifier 10: hello
 * truncated at 50
 * type 11 from 0a000005, identifier 10, offset 8 from JOE<00> to FRED<20>
 * type 11 from 0a000005, identifier 10, offset 8 from JOE<00>
 * type 11 from 0a000005, identifier 10, offset 8
 * status 50 at 13
 * type 20 from 0a000006, identifier 11, offset 0
 */
