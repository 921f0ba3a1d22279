/* A registration of port 137, read as a whole and item by item, and where it is cut off. */
#include <nbt.h>
#include <stdio.h>

static const uint8_t registration[] = "\0\2\x29\x10" "\0\1\0\0\0\0\0\1" "\x20" "EGFCEFEECACACACACACACACACACACACA" "\0" "\0\x20\0\1"
    "\xc0\x0c" "\0\x20\0\1" "\0\4\x93\xe0" "\0\6" "\0\0\x0a\0\0\5";

/* Whether a packet stands there; where it doesn't its header may. */
static void header(size_t length) {
    struct nbt_service_header header;
    size_t at;
    uint32_t status = nbt_service_read(registration, length, &header, &at);
    if (status == NBT_DONE)
        printf("a packet of %zu bytes\n", header.used);
    else
        printf("status %u at %zu\n", (unsigned)status, at);
    if (nbt_service_header(registration, length, &header, &at) == NBT_DONE)
        printf("identifier %04x, opcode %u, %u questions\n", header.identifier, (header.word & NBT_WORD_OPCODE) >> 11, header.questions);
    else
        printf("a header ends at %zu\n", at);
}

static void items(size_t length) {
    struct nbt_service_item item;
    uint8_t text[64];
    size_t place = NBT_FIRST_ITEM, at, used;
    uint32_t number = 0, status;
    while ((status = nbt_service_item(registration, length, number, place, &item, &at)) == NBT_DONE) {
        if (item.netbios == 1 && nbt_name_text(item.name, item.name_length, text, sizeof text, &used, &at) == NBT_DONE)
            printf("section %u, %.*s, type %04x, %u s, %zu bytes at %zu\n", (unsigned)item.section, (int)used,
                   (const char *)text, item.type, (unsigned)item.time_to_live, item.data_length, item.data);
        place = item.next;
        number += 1;
    }
    if (status == NBT_NO_ITEM)
        printf("no further one, at %zu\n", place);
    else
        printf("status %u at %zu\n", (unsigned)status, at);
}

int main(void) {
    header(sizeof registration - 1);
    header(40);
    header(11);
    items(sizeof registration - 1);
    items(60);
    return 0;
}
/* Prints:
 * a packet of 68 bytes
 * identifier 0002, opcode 5, 1 questions
 * status 20 at 40
 * identifier 0002, opcode 5, 1 questions
 * status 50 at 11
 * a header ends at 11
 * section 0, FRED<20>, type 0020, 0 s, 0 bytes at 50
 * section 3, FRED<20>, type 0020, 300000 s, 6 bytes at 62
 * no further one, at 68
 * section 0, FRED<20>, type 0020, 0 s, 0 bytes at 50
 * status 50 at 60
 */
