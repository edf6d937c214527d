/* 13 to 19 digits among the first 64 bytes of the text, as the number of a payment card has, with the right check digit (ISO/IEC
 * 7812): how many digits. A space or a dash may stand between two digits. */
#include "characters.h"

u64 filter(const struct span *span) {
    const u8 *text = span->text;
    u32 len = span->len;
    u32 digits = 0, sum = 0, other = 0; /* the sums that are right where the number of digits is even, or odd, each modulo 10 */
    u32 last = 0;
    UNROLL
    for (u32 i = 0; i <= 64; i++) {
        u32 c = i < 64 && i < len ? text[i] : 0;
        if (is_digit(c)) {
            u32 digit = c - '0', twice = 2 * digit - (digit > 4 ? 9 : 0);
            u32 next = sum + twice, odd = other + digit;
            sum = odd - (odd > 9 ? 10 : 0);
            other = next - (next > 9 ? 10 : 0);
            digits++;
        } else if ((c != ' ' && c != '-') || !is_digit(last)) {
            if (digits - 13 < 7 && sum == 0)
                return digits;
            digits = sum = other = 0;
        }
        last = c;
    }
    return 0;
}
