/* "urgent" anywhere in the text, in any case: its place, from 1. */
#include "../span.h"

u64 filter(const struct span *span) {
    const u8 *text = span->text;
    u32 len = span->len;
    for (u32 i = 0; i + 6 <= len; i++) {
        const u8 *at = text + i;
        if ((at[0] | 32) == 'u' && (at[1] | 32) == 'r' && (at[2] | 32) == 'g' && (at[3] | 32) == 'e' && (at[4] | 32) == 'n' && (at[5] | 32) == 't')
            return i + 1;
    }
    return 0;
}
