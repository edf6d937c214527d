/* A date as 2026-11-27 among the first 64 bytes of the text: its place, from 1. */
#include "characters.h"

/* Two bits for each of the last bytes: a digit is 1, a dash 2. */
enum { DATE = 0x55965, ALL = 0xfffff };

u64 filter(const struct span *span) {
    const u8 *text = span->text;
    u32 len = span->len;
    u32 kinds = 0;
    UNROLL
    for (u32 i = 0; i < 64; i++)
        if (i < len) {
            u32 c = text[i];
            kinds = kinds << 2 | is_digit(c) | (u32)(c == '-') << 1;
            if ((kinds & ALL) == DATE)
                return i - 8;
        }
    return 0;
}
