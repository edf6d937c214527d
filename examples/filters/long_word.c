/* A word of more than 30 bytes among the first 128 bytes of the text, up to a space: how many bytes the longest one has there. */
#include "characters.h"

u64 filter(const struct span *span) {
    const u8 *text = span->text;
    u32 len = span->len;
    u32 word = 0, longest = 30;
    UNROLL
    for (u32 i = 0; i < 128; i++)
        if (i < len) {
            word = is_space(text[i]) ? 0 : word + 1;
            longest = word > longest ? word : longest;
        }
    return longest > 30 ? longest : 0;
}
