/* A whole word of a list, anywhere in the text, in any case: 1 for "spam", 2 for "scam", 3 for "phish". The letters of a word are packed
 * into a number as they are read, so that no table is needed. */
#include "../span.h"

#define WORD4(a, b, c, d) ((u64)(a) << 24 | (b) << 16 | (c) << 8 | (d))

static inline __attribute__((always_inline)) u64 listed(u64 word) {
    if (word == WORD4('s', 'p', 'a', 'm'))
        return 1;
    if (word == WORD4('s', 'c', 'a', 'm'))
        return 2;
    return word == (WORD4('p', 'h', 'i', 's') << 8 | 'h') ? 3 : 0;
}

u64 filter(const struct span *span) {
    u64 word = 0;
    for (const u8 *at = span->text; at < span->end; at++) {
        u32 c = *at | 32;
        if (c - 'a' < 26) {
            word = word << 8 | c;
            continue;
        }
        if (listed(word))
            return listed(word);
        word = 0;
    }
    return listed(word);
}
