/* 21 TextBounds: the two tests become one, of `len` less 2, beside which no `len` is left of which it could tell. */
#include "../span.h"

u64 filter(const struct span *span) {
    u32 len = span->len;
    if (len >= 2 && len <= 20)
        return span->text[1];
    return 0;
}
