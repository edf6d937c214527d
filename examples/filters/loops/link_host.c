/* The host of the first link written in the text, as the FNV-1a hash of its bytes in lower case: of what stands behind `://`, up to a
 * blank, a control character, or one of `/`, `:`, `?`, `#`. 0 where there is none. */
#include "../span.h"

u64 filter(const struct span *span) {
    u64 hash = 0;    /* of the host so far; 0 before it */
    u32 last = 0;    /* the two bytes before */
    for (const u8 *at = span->text; at < span->end; at++) {
        u32 c = *at;
        if (hash) {
            if (c <= ' ' || c == '/' || c == ':' || c == '?' || c == '#')
                return hash;
            if (c - 'A' < 26)
                c |= 32;
            hash = (hash ^ c) * 0x100000001b3;
        } else if (c == '/' && last == (':' << 8 | '/')) {
            hash = 0xcbf29ce484222325;
        }
        last = (last << 8 | *at) & 0xffff;
    }
    return hash;
}
