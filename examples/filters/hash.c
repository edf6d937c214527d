/* Spans of 1 to 16 bytes: the FNV-1a hash of the text, in 32 bits. Whoever has a list of words compares it with theirs. */
#include "span.h"

u64 filter(const struct span *span) {
    const u8 *text = span->text;
    u32 len = span->len;
    u32 hash = 2166136261u;
    if (len == 0 || len > 16)
        return 0;
    UNROLL
    for (u32 i = 0; i < 16; i++)
        if (i < len)
            hash = (hash ^ text[i]) * 16777619u;
    return hash;
}
