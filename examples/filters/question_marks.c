/* Question marks among the first 64 bytes of the text: how many. */
#include "span.h"

u64 filter(const struct span *span) {
    const u8 *text = span->text;
    u32 len = span->len;
    u64 marks = 0;
    UNROLL
    for (u32 i = 0; i < 64; i++)
        if (i < len)
            marks += text[i] == '?';
    return marks;
}
