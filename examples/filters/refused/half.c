/* The byte in the middle: 21 TextBounds, but in context 3. Else test the half against the length, too. */
#include "../span.h"

u64 filter(const struct span *span) {
    u32 len = span->len;
    return len >= 2 ? span->text[len / 2] : 0;
}
