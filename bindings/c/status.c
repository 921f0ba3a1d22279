/* The words of a status, for a message of a program's own; the version of the library that is called, and that of the header. */
#include <nbt.h>
#include <stdio.h>

int main(void) {
    uint8_t text[64];
    size_t used;
    if (nbt_status_text(NBT_BAD_TEXT, text, sizeof text, &used) == NBT_DONE)
        printf("%.*s\n", (int)used, (const char *)text);
    if (nbt_version(text, sizeof text, &used) == NBT_DONE)
        printf("library %.*s, header %s\n", (int)used, (const char *)text, NBT_VERSION);
    return 0;
}
/* Prints:
 * bad text
 * library 0.1.0, header 0.1.0
 */
