/* TODO among the first 32 bytes of the text: the place of its T, from 1. */
#include "span.h"

u64 filter(const struct span *span) {
    const u8 *text = span->text;
    u32 len = span->len;
    u32 last = 0;
    UNROLL
    for (u32 i = 0; i < 32; i++) {
        if (i < len) {
            last = last << 8 | text[i];
            if (last == ('T' << 24 | 'O' << 16 | 'D' << 8 | 'O'))
                return i - 2;
        }
    }
    return 0;
}
