/* An account's number (IBAN) written without blanks anywhere in the text: the place behind it, from 1. It is two capital letters, two
 * digits, and 11 to 30 capital letters and digits, with no letter or digit before it or behind it. Moved behind the rest, the letters
 * (A is 10, Z is 35) and the two digits make a number that leaves 1 by 97. */
#include "../characters.h"

/* What may be one, of this length (99 where it can't): its letters and two digits as a number, and what the rest leaves by 97. */
INLINE u32 is_account(u32 length, u64 head, u64 rest) {
    return length >= 15 && length <= 34 && (rest * 1000000 + head) % 97 == 1;
}

u64 filter(const struct span *span) {
    const u8 *text = span->text;
    u32 len = span->len;
    u32 length = 0;
    u64 head = 0, rest = 0;
    for (u32 i = 0; i < len; i++) {
        u32 c = text[i];
        if (!is_word(c)) {
            if (is_account(length, head, rest))
                return i + 1;
            length = 0;
            head = 0;
            rest = 0;
        } else {
            u32 digit = c - '0', letter = c - 'A';
            u32 is_right = length < 2 ? letter < 26 : length < 4 ? digit < 10 : (digit < 10) | (letter < 26);
            u64 value = digit < 10 ? digit : letter + 10;
            u64 scale = digit < 10 ? 10 : 100;
            if (length < 4)
                head = head * scale + value;
            else
                rest = (rest * scale + value) % 97;
            length = is_right && length < 35 ? length + 1 : 99;
        }
    }
    return is_account(length, head, rest) ? len + 1 : 0;
}
