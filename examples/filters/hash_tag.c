/* A hash-tag among the first 64 bytes of the text, `#` and a letter behind it, and no letter or digit before it: the place of its
 * `#`, from 1. */
#include "characters.h"

u64 filter(const struct span *span) {
    const u8 *text = span->text;
    u32 len = span->len;
    u32 before = ' ', last = ' ';
    UNROLL
    for (u32 i = 0; i < 64; i++)
        if (i < len) {
            u32 c = text[i];
            if (last == '#' && is_letter(c) && !is_word(before))
                return i;
            before = last;
            last = c;
        }
    return 0;
}
