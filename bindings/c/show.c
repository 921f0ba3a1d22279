/* What payloads say: as lines, as a phrase, and as an object. */
#include <nbt.h>
#include <stdio.h>

static void show(uint16_t port, const uint8_t *payload, size_t length) {
    uint8_t text[NBT_BRIEF_ROOM];
    size_t used;
    if (nbt_show(port, payload, length, text, sizeof text, &used) == NBT_DONE)
        printf("%.*s", (int)used, (const char *)text);
    if (nbt_brief(port, payload, length, text, sizeof text, &used) == NBT_DONE)
        printf("%.*s\n", (int)used, (const char *)text);
}

static void object(uint16_t port, const uint8_t *payload, size_t length) {
    uint8_t text[1024];
    size_t used;
    if (nbt_json(port, payload, length, text, sizeof text, &used) == NBT_DONE)
        printf("%.*s\n", (int)used, (const char *)text);
}

int main(void) {
    static const uint8_t query[] = "\0\3\1\x10\0\1\0\0\0\0\0\0" "\x20" "EGFCEFEECACACACACACACACACACACACA" "\0" "\0\x20\0\1";
    static const uint8_t keepalive[] = {0x85, 0, 0, 0};
    static const uint8_t message[] = {0, 0, 0, 2, 'h', 'i', 0x85};
    show(NBT_PORT_NAMES, query, sizeof query - 1);
    show(NBT_PORT_DATAGRAMS, keepalive, sizeof keepalive);
    show(NBT_PORT_SESSIONS, message, sizeof message);
    object(NBT_PORT_DATAGRAMS, keepalive, sizeof keepalive);
    object(NBT_PORT_SESSIONS, keepalive, sizeof keepalive);
    return 0;
}
/* Prints:
 * id=0003 word=0110 op=query flags=RD+B rcode=ok qd=1 an=0 ns=0 ar=0 used=50
 *   question FRED<20> type=0020 class=0001
 * asks for FRED<20>
 * refused truncated 4
 * refused: truncated, at byte 4
 * message length=2 data=6869 used=6
 * sends 2 bytes, 1 byte follows
 * {"refused":"truncated 4","at":4}
 * {"kind":"keepalive","used":4}
 */
