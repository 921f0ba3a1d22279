/* The spelling of a name, and where a text is no name's; the text of a name, in as much room as it wants; the sixteen bytes of a name. */
#include <nbt.h>
#include <stdio.h>
#include <stdlib.h>
#include <string.h>

static void spell(const char *text) {
    uint8_t spelling[255]; /* none is longer */
    size_t used, at;
    uint32_t status = nbt_name_spell((const uint8_t *)text, strlen(text), spelling, sizeof spelling, &used, &at);
    if (status == NBT_DONE)
        printf("%s: %zu bytes, %.32s\n", text, used, (const char *)spelling + 1);
    else if (status == NBT_BAD_TEXT)
        printf("%s: not a name's from byte %zu on\n", text, at);
    else
        printf("%s: status %u\n", text, (unsigned)status);
}

static void show(const uint8_t *spelling, size_t length) {
    uint8_t none[1], *text;
    size_t used, at;
    uint32_t status = nbt_name_text(spelling, length, none, 0, &used, &at);
    if (status != NBT_NO_ROOM) {
        printf("status %u at %zu\n", (unsigned)status, at);
        return;
    }
    text = malloc(used);
    if (text != NULL && nbt_name_text(spelling, length, text, used, &used, &at) == NBT_DONE)
        printf("%.*s\n", (int)used, (const char *)text);
    free(text);
}

/* The name as it stands in a node status, and its text from there. */
static void sixteen(const char *text) {
    uint8_t name[16], again[64];
    size_t used, at;
    if (nbt_node_name_bytes((const uint8_t *)text, strlen(text), name, &at) == NBT_DONE
        && nbt_node_name_text(name, again, sizeof again, &used) == NBT_DONE)
        printf("%02x %02x .. %02x: %.*s\n", name[0], name[1], name[15], (int)used, (const char *)again);
    else
        printf("%s: no sixteen bytes\n", text);
}

int main(void) {
    static const uint8_t spelling[] = "\x20" "EGFCEFEECACACACACACACACACACACACA" "\7NETBIOS" "\3COM"; /* and a zero byte */
    spell("FRED<20>.NETBIOS.COM");
    spell("FRED");
    spell("SIXTEEN-LETTERS-<20>");
    show(spelling, sizeof spelling);
    show(spelling, 40);
    sixteen("FRED<20>");
    sixteen("\\01\\02__MSBROWSE__\\02<01>");
    sixteen("FRED<20>.COM");
    return 0;
}
/* Prints:
 * FRED<20>.NETBIOS.COM: 46 bytes, EGFCEFEECACACACACACACACACACACACA
 * FRED: not a name's from byte 4 on
 * SIXTEEN-LETTERS-<20>: status 11
 * FRED<20>.NETBIOS.COM
 * status 20 at 40
 * 46 52 .. 20: FRED<20>
 * 01 02 .. 01: \01\02__MSBROWSE__\02<01>
 * FRED<20>.COM: no sixteen bytes
 */
