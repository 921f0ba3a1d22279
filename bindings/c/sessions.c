/* The packets of a stream of port 139, however it was cut: a request, a retarget, and a message whose end is missing; and a request that is
 * written, whose body is two names. */
#include <nbt.h>
#include <stdio.h>
#include <string.h>

static void print(const uint8_t *spelling, size_t length, const char *after) {
    uint8_t text[64];
    size_t used, at;
    if (nbt_name_text(spelling, length, text, sizeof text, &used, &at) == NBT_DONE)
        printf("%.*s%s", (int)used, (const char *)text, after);
}

static void packet(const uint8_t *bytes, const struct nbt_session *read) {
    struct nbt_session_names names;
    struct nbt_session_retarget other;
    size_t at;
    uint32_t is_request = nbt_session_names(bytes, read->used, &names, &at);
    uint32_t is_retarget = nbt_session_retarget(bytes, read->used, &other, &at);
    printf("type %02x, %zu bytes of body, ", read->type, read->body_length);
    if (is_request == NBT_DONE) {
        print(names.calling, names.calling_length, " calls ");
        print(names.called, names.called_length, "\n");
    } else if (is_retarget == NBT_DONE) {
        printf("at %08lx port %u\n", (unsigned long)other.address, other.port);
    } else {
        printf("status %u and %u\n", (unsigned)is_request, (unsigned)is_retarget);
    }
}

/* The header of what isn't there whole, or of no packet. */
static void front(const uint8_t *bytes, size_t length) {
    struct nbt_session_front read;
    size_t at;
    uint32_t status = nbt_session_front(bytes, length, &read, &at);
    if (status == NBT_DONE)
        printf("type %02x, flags %02x, %zu bytes of body\n", read.type, read.flags, read.body_length);
    else
        printf("status %u, %zu missing\n", (unsigned)status, at);
}

/* Adds the spelling of a name to a body. */
static size_t add(const char *name, uint8_t *body, size_t length, size_t room) {
    size_t used, at;
    return nbt_name_spell((const uint8_t *)name, strlen(name), body + length, room - length, &used, &at) == NBT_DONE ? length + used : 0;
}

static void write(uint8_t type) {
    uint8_t body[2 * 255], packet[4 + sizeof body];
    size_t length = add("FRED<20>", body, 0, sizeof body), used, at;
    length = add("JOE<00>", body, length, sizeof body);
    uint32_t status = nbt_session_write(type, body, length, packet, sizeof packet, &used, &at);
    if (status == NBT_DONE)
        printf("%zu bytes: %02x %02x %02x %02x\n", used, packet[0], packet[1], packet[2], packet[3]);
    else
        printf("status %u\n", (unsigned)status);
}

int main(void) {
    static const uint8_t stream[] = "\x81\0\0\x44" "\x20" "EGFCEFEECACACACACACACACACACACACA" "\0"
        "\x20" "EKEPEFCACACACACACACACACACACACAAA" "\0" "\x84\0\0\6" "\x0a\0\0\7" "\0\x8b" "\x85\0\0\0" "\0\1\2\3he";
    struct nbt_session read;
    size_t place = 0, at, length = sizeof stream - 1;
    uint32_t status;
    while ((status = nbt_session_read(stream + place, length - place, &read, &at)) == NBT_DONE) {
        packet(stream + place, &read);
        place += read.used;
    }
    if (status == NBT_MORE)
        printf("%zu bytes are missing\n", at);
    front(stream + place, length - place);
    front(stream + place, 3);
    front((const uint8_t *)"\x7f\xfe\0\x05", 4);
    write(NBT_SESSION_REQUEST);
    write(NBT_SESSION_KEEPALIVE);
    return 0;
}
/* Prints:
 * type 81, 68 bytes of body, JOE<00> calls FRED<20>
 * type 84, 6 bytes of body, at 0a000007 port 139
 * type 85, 0 bytes of body, status 110 and 110
 * 66049 bytes are missing
 * type 00, flags 01, 66051 bytes of body
 * status 52, 1 missing
 * type 7f, flags fe, 5 bytes of body
 * 72 bytes: 81 00 00 44
 * status 54
 */
