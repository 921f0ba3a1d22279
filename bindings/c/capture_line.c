/* Lines of a capture: a packet, once with too little room for its payload, the clock, a comment, and one that is none. */
#include <nbt.h>
#include <stdio.h>
#include <string.h>

static void read(const char *line, size_t room) {
    uint8_t payload[8];
    struct nbt_line said;
    size_t used;
    uint32_t status = nbt_capture_line((const uint8_t *)line, strlen(line), &said, payload, room, &used);
    if (status == NBT_NO_ROOM)
        printf("%zu bytes are wanted\n", used);
    else if (status != NBT_DONE)
        printf("status %u\n", (unsigned)status);
    else if (said.kind == NBT_PACKET)
        printf("%zu bytes, of which the first is %02x, came to port %u at %llu\n", used, payload[0], said.port,
               (unsigned long long)said.moment);
    else if (said.kind == NBT_TICK)
        printf("the clock shows %llu\n", (unsigned long long)said.moment);
    else
        printf("nothing\n");
}

int main(void) {
    read("139 7 85000000", 8);
    read("139 7 85000000", 3);
    read("tick 2000", 8);
    read("# an office", 8);
    read("139 7 850", 8);
    return 0;
}
/* Prints:
 * 4 bytes, of which the first is 85, came to port 139 at 7
 * 4 bytes are wanted
 * the clock shows 2000
 * nothing
 * status 120
 */
