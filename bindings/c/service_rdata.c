/* What RDATA says: the addresses of a group's name, the names of a node and its unit, and the name of a server, to which a pointer in a
 * packet leads; and RDATA of another form, or that is cut off. */
#include <nbt.h>
#include <stdio.h>

static void addresses(void) {
    static const uint8_t data[] = {0x80, 0, 10, 0, 0, 5, 0xe0, 0, 10, 0, 0, 9};
    struct nbt_service_address entry;
    size_t at, number;
    uint32_t status;
    for (number = 0; (status = nbt_service_address(NBT_TYPE_NB, data, sizeof data, number, &entry, &at)) == NBT_DONE; number++)
        printf("address %08lx, flags %04x\n", (unsigned long)entry.address, entry.flags);
    if (status == NBT_NO_PART)
        printf("%zu of them\n", at);
    if (nbt_service_address(NBT_TYPE_NB, data, 11, 0, &entry, &at) == NBT_OTHER_RDATA)
        printf("no addresses\n");
}

static void names(void) {
    static const uint8_t data[] = "\2" "FRED            \4\0" "WORKGROUP      \0\x84\0" "\2\0\0\0\0\1";
    struct nbt_service_node node;
    struct nbt_service_unit unit;
    uint8_t text[64];
    size_t at, number, used;
    for (number = 0; nbt_service_node(NBT_TYPE_NBSTAT, data, sizeof data - 1, number, &node, &at) == NBT_DONE; number++)
        if (nbt_node_name_text(node.name, text, sizeof text, &used) == NBT_DONE)
            printf("%.*s, flags %04x%s\n", (int)used, (const char *)text, node.flags, node.flags & NBT_FLAG_G ? ", a group" : "");
    if (nbt_service_unit(NBT_TYPE_NBSTAT, data, sizeof data - 1, &unit, &at) == NBT_DONE)
        printf("unit %02x-%02x-%02x-%02x-%02x-%02x\n", unit.bytes[0], unit.bytes[1], unit.bytes[2], unit.bytes[3], unit.bytes[4],
               unit.bytes[5]);
    if (nbt_service_unit(NBT_TYPE_NBSTAT, data, sizeof data - 2, &unit, &at) == NBT_TRUNCATED)
        printf("no unit before %zu\n", at);
}

static const uint8_t redirect[] = "\0\3\x84\0" "\0\0\0\0\0\1\0\0" "\x20" "EGFCEFEECACACACACACACACACACACACA" "\7NETBIOS" "\3COM" "\0"
    "\0\2\0\1" "\0\0\0\7" "\0\5" "\2ns" "\xc0\x2d";

static void server(void) {
    uint8_t spelling[255];
    size_t used, at, length = sizeof redirect - 1;
    if (nbt_service_domain(redirect, length, 68, 5, spelling, sizeof spelling, &used, &at) == NBT_DONE)
        for (at = 0; spelling[at] != 0; at += 1 + (size_t)spelling[at])
            printf("label %.*s\n", spelling[at], (const char *)spelling + at + 1);
    printf("%zu bytes spell it\n", used);
    if (nbt_service_domain(redirect, length, 68, 3, spelling, sizeof spelling, &used, &at) == NBT_NAME_RDATA)
        printf("no name of 3 bytes at %zu\n", at);
    if (nbt_service_domain(redirect, length - 1, 68, 4, spelling, sizeof spelling, &used, &at) == NBT_NAME_TRUNCATED)
        printf("cut off at %zu\n", at);
}

/* All records at once, with the name of a server beside each that has one. */
static void records(void) {
    struct nbt_service_entry entries[2];
    size_t used, at;
    if (nbt_service_items(redirect, sizeof redirect - 1, 0, NBT_FIRST_ITEM, entries, 2, &used, &at) == NBT_DONE)
        printf("%zu record of type %04x, with a server of %u bytes, %zu bytes at %zu\n", used, entries[0].item.type,
               entries[0].server_length, entries[0].item.data_length, entries[0].item.data);
}

int main(void) {
    addresses();
    names();
    server();
    records();
    return 0;
}
/* Prints:
 * address 0a000005, flags 8000
 * address 0a000009, flags e000
 * 2 of them
 * no addresses
 * FRED<20>, flags 0400
 * WORKGROUP<00>, flags 8400, a group
 * unit 02-00-00-00-00-01
 * no unit before 42
 * label ns
 * label NETBIOS
 * label COM
 * 16 bytes spell it
 * no name of 3 bytes at 68
 * cut off at 72
 * 1 record of type 0002, with a server of 16 bytes, 5 bytes at 68
 */
