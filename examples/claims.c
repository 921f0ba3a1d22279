/* Prints the names that packets of port 137 claim, and the address for which each does. A capture comes on standard input:
 *     nbt-look --lines office.pcap | ./claims
 * cc -o claims claims.c $(pkg-config --cflags --libs nbt) compiles it. */
#define _POSIX_C_SOURCE 200809L
#include <nbt.h>
#include <stdio.h>
#include <stdlib.h>

/* The OPCODE of the registration of a host with several addresses, which RFC 1002 hasn't. */
enum { SEVERAL_ADDRESSES = 15 };

/* Whether a packet with this word in its header asks for a name: by a registration or a refresh, of which RFC 1002 has two. */
static bool claims(unsigned word) {
    unsigned operation = (word & NBT_WORD_OPCODE) >> 11;
    return (word & NBT_WORD_R) == 0 && (operation == NBT_OP_REGISTRATION || operation == NBT_OP_REFRESH
                                        || operation == NBT_OP_OTHER_REFRESH || operation == SEVERAL_ADDRESSES);
}

/* The addresses that a record has for its name, a line each. */
static void print_claims(const uint8_t *payload, const struct nbt_service_item *item) {
    struct nbt_service_address entry;
    uint8_t text[NBT_NAME_ROOM];
    size_t used, at;
    uint32_t number;
    if (nbt_name_text(item->name, item->name_length, text, sizeof text, &used, &at) != NBT_DONE)
        return;
    for (number = 0; nbt_service_address(item->type, payload + item->data, item->data_length, number, &entry, &at) == NBT_DONE;
         number++)
        printf("%.*s %u.%u.%u.%u%s\n", (int)used, (const char *)text, (unsigned)(entry.address >> 24),
               (unsigned)(entry.address >> 16 & 255), (unsigned)(entry.address >> 8 & 255), (unsigned)(entry.address & 255),
               entry.flags & NBT_FLAG_G ? " group" : "");
}

static void print_payload(const uint8_t *payload, size_t length) {
    struct nbt_service_header header;
    struct nbt_service_item item;
    size_t place = NBT_FIRST_ITEM, at;
    uint32_t number;
    if (nbt_service_read(payload, length, &header, &at) != NBT_DONE || !claims(header.word))
        return;
    for (number = 0; nbt_service_item(payload, length, number, place, &item, &at) == NBT_DONE; number++) {
        if (item.section != NBT_SECTION_QUESTION && item.type == NBT_TYPE_NB)
            print_claims(payload, &item);
        place = item.next;
    }
}

int main(void) {
    static uint8_t payload[NBT_LINE_ROOM];
    char *text = NULL;
    size_t room = 0, used;
    ssize_t length;
    struct nbt_line line;
    while ((length = getline(&text, &room, stdin)) > 0) {
        size_t bytes = (size_t)length - (text[length - 1] == '\n');
        if (nbt_capture_line((const uint8_t *)text, bytes, &line, payload, sizeof payload, &used) != NBT_DONE) {
            fputs("claims: a line is none of a capture's\n", stderr);
            return 1;
        }
        if (line.port == NBT_PORT_NAMES)
            print_payload(payload, used);
    }
    free(text);
    if (fflush(stdout) != 0) {
        perror("claims: standard output");
        return 1;
    }
    return 0;
}
