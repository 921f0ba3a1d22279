/* A datagram, cut into pieces of at most four bytes: what goes to the network, packet by packet; the error that answers one for a name that
 * nobody has; and a question to a distribution server, with both answers. */
#include <nbt.h>
#include <stdio.h>
#include <string.h>

static const uint8_t *bytes(const char *text) { return (const uint8_t *)text; }

static void show(const uint8_t *packet, size_t length) {
    uint8_t text[512];
    size_t used;
    if (nbt_show(NBT_PORT_DATAGRAMS, packet, length, text, sizeof text, &used) == NBT_DONE)
        fwrite(text, 1, used, stdout);
}

static void datagram(const char *source, const char *destination, const char *data) {
    uint8_t packets[1024];
    size_t used, at, place = 0, length;
    if (nbt_datagram_write(NBT_DATAGRAM_GROUP, 10, 0x0a000005, NBT_PORT_DATAGRAMS, bytes(source), strlen(source),
                           bytes(destination), strlen(destination), bytes(data), strlen(data), 4, packets, sizeof packets, &used, &at) != NBT_DONE)
        return;
    /* Each packet stands after its length. */
    for (; place < used; place += 2 + length) {
        length = (size_t)packets[place] << 8 | packets[place + 1];
        show(packets + place + 2, length);
    }
}

int main(void) {
    const uint8_t *name = bytes("FRED<20>");
    const uint16_t port = NBT_PORT_DATAGRAMS;
    uint8_t packet[600], type;
    size_t used, at;
    datagram("JOE<00>", "FRED<20>", "hello, FRED");
    if (nbt_datagram_error(7, 0x0a000009, port, 0x82, packet, sizeof packet, &used) == NBT_DONE)
        show(packet, used);
    for (type = NBT_DATAGRAM_FIND; type <= NBT_DATAGRAM_MISSING; type++)
        if (nbt_datagram_query(type, 7, 0x0a000005, port, name, 8, packet, sizeof packet, &used, &at) == NBT_DONE)
            show(packet, used);
    printf("status %u\n", (unsigned)nbt_datagram_query(NBT_DATAGRAM_ERROR, 7, 0x0a000005, port, name, 8, packet, sizeof packet, &used, &at));
    return 0;
}
/* Prints:
 * group flags=03 key=10.0.0.5:138/000a offset=0 source=JOE<00> destination=FRED<20> data=68656c6c used=86
 * group flags=01 key=10.0.0.5:138/000a offset=4 source=JOE<00> destination=FRED<20> data=6f2c2046 used=86
 * group flags=00 key=10.0.0.5:138/000a offset=8 source=JOE<00> destination=FRED<20> data=524544 used=85
 * error flags=02 key=10.0.0.9:138/0007 code=82 used=11
 * find flags=02 key=10.0.0.5:138/0007 destination=FRED<20> used=44
 * found flags=02 key=10.0.0.5:138/0007 destination=FRED<20> used=44
 * missing flags=02 key=10.0.0.5:138/0007 destination=FRED<20> used=44
 * status 51
 */
