/* 21 TextBounds, but in context 3: behind the step the compiler tests a copy of the address, two bytes ahead. Else test
   and step byte by byte. */
#include "../span.h"

u64 filter(const struct span *span) {
    const u8 *at = span->text, *end = span->end;
    if (at < end && *at == ' ')
        at++;
    if (at + 2 <= end)
        return at[0] << 8 | at[1];
    return 0;
}
