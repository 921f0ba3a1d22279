/* Reads all questions and records of the payload of port 137 on standard input, a thousand at a time, and the names of servers that their
 * RDATA is. Prints how many there were, and the bytes of the payload. */
#include <nbt.h>
#include <stdio.h>

enum { AT_ONCE = 1024 };

int main(void) {
    static uint8_t payload[65535];
    static struct nbt_service_entry entries[AT_ONCE];
    size_t length = fread(payload, 1, sizeof payload, stdin), used, at, place = NBT_FIRST_ITEM, servers = 0, i;
    uint32_t number = 0, status;
    while ((status = nbt_service_items(payload, length, number, place, entries, AT_ONCE, &used, &at)) == NBT_DONE) {
        for (i = 0; i < used; i++)
            servers += entries[i].server_length == 1;
        place = entries[used - 1].item.next;
        number += (uint32_t)used;
    }
    printf("%u items, %zu servers, %zu bytes\n", (unsigned)number, servers, length);
    return status == NBT_NO_ITEM && place == length ? 0 : 1;
}
