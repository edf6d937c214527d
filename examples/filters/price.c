/* A price among the first 64 bytes of the text, `$`, the sign of the euro or of the pound, and a digit behind it or behind one
 * space: the whole units, up to six digits. */
#include "characters.h"

u64 filter(const struct span *span) {
    const u8 *text = span->text;
    u32 len = span->len;
    u32 last = 0, price = 0, digits = 0;
    UNROLL
    for (u32 i = 0; i < 64; i++)
        if (i < len) {
            u32 c = text[i];
            u32 sign = (last & 255) == ' ' ? last >> 8 : last;
            u32 is_sign = (sign & 255) == '$' || (sign & 0xffff) == 0xc2a3 || (sign & 0xffffff) == 0xe282ac;
            if (is_digit(c) && (digits || is_sign)) {
                price = price * 10 + (c - '0');
                if (++digits == 6)
                    return price;
            } else if (digits)
                return price;
            last = last << 8 | c;
        }
    return price;
}
