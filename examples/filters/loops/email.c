/* An e-mail address anywhere in the text: the place of its `@`, from 1. Before the `@` stands a letter or a digit, and behind it letters,
 * digits, dots and dashes, among them a dot between letters or digits. */
#include "../characters.h"

u64 filter(const struct span *span) {
    const u8 *text = span->text;
    u32 len = span->len;
    u32 at = 0, last_word = 0, dot = 0; /* the place of `@`; whether the last byte is a letter or digit; or a dot behind one */
    for (u32 i = 0; i < len; i++) {
        u32 c = text[i];
        u32 word = is_word(c);
        if (word) {
            if (at && dot)
                return at;
        } else if (c == '@') {
            at = last_word ? i + 1 : 0;
        } else if (c - '-' > 1) {
            at = 0;
        }
        dot = c == '.' && last_word;
        last_word = word;
    }
    return 0;
}
