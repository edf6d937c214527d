/* A telephone number among the first 32 bytes of the text, as it is written for abroad: `+` and 7 to 15 digits, with at most two of
 * space, dash, dot, slash and brackets between two of them: how many digits. */
#include "characters.h"

u64 filter(const struct span *span) {
    const u8 *text = span->text;
    u32 len = span->len;
    u32 digits = 0, others = 3; /* others: since the last digit or the `+`; 3 where no number has begun */
    UNROLL
    for (u32 i = 0; i <= 32; i++) {
        u32 c = i < 32 && i < len ? text[i] : 0;
        if (is_digit(c) && others < 3) {
            digits++;
            others = 0;
        } else if (others < 2 && (c == ' ' || c - '(' < 2 || c - '-' < 3)) {
            others++;
        } else {
            if (digits - 7 < 9)
                return digits;
            digits = 0;
            others = c == '+' ? 0 : 3;
        }
    }
    return 0;
}
