/* A loop over the text: 10 BackwardJump. */
#include "../span.h"

u64 filter(const struct span *span) {
    const u8 *text = span->text;
    u32 len = span->len;
    u64 sum = 0;
    for (u32 i = 0; i < len; i++)
        sum += text[i];
    return sum;
}
