/* Shouting: of the first 64 bytes of the text at least eight are letters of ASCII, and three of four of these are capitals: how many
 * capitals. */
#include "characters.h"

u64 filter(const struct span *span) {
    const u8 *text = span->text;
    u32 len = span->len;
    u32 letters = 0, capitals = 0;
    UNROLL
    for (u32 i = 0; i < 64; i++)
        if (i < len) {
            u32 c = text[i];
            letters += (c | 32) - 'a' < 26;
            capitals += c - 'A' < 26;
        }
    return letters >= 8 && 4 * capitals >= 3 * letters ? capitals : 0;
}
