/* Saved tables: what they know as lines and as objects, joined, and compared. */
#include <nbt.h>
#include <stdio.h>
#include <stdlib.h>

/* The fragments of 10.0.0.5:138/0001 contradict each other, by both; of 10.0.0.5:138/0002 "hello" is known by one, and more is promised
 * after it. The other is in the older form. */
static const uint8_t one[] = "NBT2\0\0\0\2"
    "\x0a\0\0\5" "\0\x8a" "\0\1" "\0"
    "\x0a\0\0\5" "\0\x8a" "\0\2" "\1" "\x11"
    "\x20" "EKEPEFCACACACACACACACACACACACAAA" "\0" "\x20" "EGFCEFEECACACACACACACACACACACACA" "\0"
    "\0" "\1\0\5" "\0\1" "\0\0" "\0\5" "hello";
static const uint8_t other[] = "NBT1\0\0\0\1" "\x0a\0\0\5" "\0\x8a" "\0\1"; /* and a zero byte */

typedef uint32_t says(const uint8_t *table, size_t table_length, uint8_t *into, size_t into_length, size_t *used, size_t *at);

static void print(says *call, const uint8_t *table, size_t length) {
    uint8_t *text;
    size_t wanted, used, at;
    /* The first call says how much room the text wants, and the second writes it. */
    uint32_t status = call(table, length, (uint8_t *)"", 0, &wanted, &at);
    if (status != NBT_NO_ROOM) {
        printf("status %u\n", (unsigned)status);
        return;
    }
    text = malloc(wanted);
    if (text != NULL && call(table, length, text, wanted, &used, &at) == NBT_DONE)
        fwrite(text, 1, used, stdout);
    free(text);
}

static void join(uint32_t keys) {
    uint8_t joined[256];
    size_t used, at;
    uint32_t status = nbt_table_merge(other, sizeof other, one, sizeof one - 1, keys, UINT32_MAX, joined, sizeof joined, &used, &at);
    if (status == NBT_DONE)
        printf("%zu bytes, %u keys\n", used, joined[7]);
    else
        printf("status %u\n", (unsigned)status);
}

static void compare(const uint8_t *second, size_t length) {
    struct nbt_difference found;
    size_t at = 0;
    uint32_t status = nbt_table_differ(one, sizeof one - 1, second, length, &found, &at);
    if (status != NBT_DONE)
        printf("status %u\n", (unsigned)status);
    else if (found.differ == 0)
        printf("equal\n");
    else
        printf("different at %08x:%u/%04x\n", (unsigned)found.address, found.port, found.identifier);
}

int main(void) {
    print(nbt_table_list, one, sizeof one - 1);
    print(nbt_table_json, one, sizeof one - 1);
    print(nbt_table_list, one, 20);
    join(NBT_KEYS);
    join(1);
    compare(one, sizeof one - 1);
    compare(other, sizeof other);
    compare(one, 20);
    return 0;
}
/* Prints:
 * 10.0.0.5:138/0001 spoilt
 * 10.0.0.5:138/0002 partial group JOE<00> FRED<20> 5/? 1 0-5 more 5
 * {"key":"10.0.0.5:138/0001","state":"spoilt"}
 * {"key":"10.0.0.5:138/0002","state":"partial","kind":"group","source":"JOE<00>","destination":"FRED<20>","held":5,"end":null,"runs":1,"places":[[0,5]],"more":5}
 * status 71
 * 110 bytes, 2 keys
 * status 85
 * equal
 * different at 0a000005:138/0002
 * status 81
 */
