/* How many characters from U+1F000 to U+1FFFF the text has, which most emoji are: in UTF-8 they begin with F0 9F. */
#include "../span.h"

u64 filter(const struct span *span) {
    u64 emoji = 0;
    u32 last = 0;
    for (const u8 *at = span->text; at < span->end; at++) {
        emoji += last == 0xf0 && *at == 0x9f;
        last = *at;
    }
    return emoji;
}
