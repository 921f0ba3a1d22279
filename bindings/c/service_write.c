/* A broadcast query and a registration of port 137, and responses: an address, that there is none, the name of a server, and one without
 * its last byte. */
#include <nbt.h>
#include <stdio.h>

static const uint8_t name[] = {'F', 'R', 'E', 'D', '<', '2', '0', '>'};

static void show(uint32_t status, const uint8_t *packet, size_t length, size_t at) {
    uint8_t text[NBT_BRIEF_ROOM];
    size_t shown;
    if (status != NBT_DONE)
        printf("status %u at %zu\n", (unsigned)status, at);
    else if (nbt_brief(NBT_PORT_NAMES, packet, length, text, sizeof text, &shown) == NBT_DONE)
        printf("%02x%02x, %zu bytes: %.*s\n", packet[2], packet[3], length, (int)shown, (const char *)text);
}

static void request(uint32_t kind, uint32_t time_to_live, uint32_t address) {
    uint8_t packet[512];
    size_t used = 0, at = 0;
    uint32_t status = nbt_service_request(kind, 3, true, name, sizeof name, time_to_live, 0, address, packet, sizeof packet, &used, &at);
    show(status, packet, used, at);
}

static void response(uint16_t word, uint16_t type, uint32_t time_to_live, const uint8_t *data, size_t length) {
    uint8_t packet[512];
    size_t used = 0, at = 0;
    uint32_t status = nbt_service_response(7, word, name, sizeof name, type, time_to_live, data, length, packet, sizeof packet, &used, &at);
    show(status, packet, used, at);
}

int main(void) {
    static const uint8_t address[] = {0, 0, 10, 0, 0, 6}, server[] = {2, 'N', 'S', 3, 'C', 'O', 'M', 0};
    request(NBT_QUERY, 0, 0);
    request(NBT_REGISTRATION, 300000, 0x0a000005);
    const uint16_t word = NBT_WORD_R | NBT_WORD_AA | NBT_WORD_RD | NBT_WORD_RA;
    response(word, NBT_TYPE_NB, 300000, address, sizeof address);
    response(word | NBT_RCODE_NAM_ERR, NBT_TYPE_NULL, 0, address, 0);
    response(word, NBT_TYPE_NS, 300000, server, sizeof server);
    response(word, NBT_TYPE_NS, 300000, server, sizeof server - 1);
    return 0;
}
/* Prints:
 * 0110, 50 bytes: asks for FRED<20>
 * 2910, 68 bytes: claims FRED<20> for 10.0.0.5, for 300000 s
 * 8580, 62 bytes: answers: FRED<20> is at 10.0.0.6
 * 8583, 56 bytes: answers: FRED<20> is not found: no such name (NAM_ERR)
 * 8580, 64 bytes: answers: FRED<20> is known to NS.COM at no address
 * status 20 at 7
 */
