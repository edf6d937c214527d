/* Kinds of bytes. Those of characters beyond ASCII count as letters. */
#ifndef CHARACTERS_H
#define CHARACTERS_H

#include "span.h"

#define INLINE static inline __attribute__((always_inline))

INLINE u32 is_digit(u32 c) {
    return c - '0' < 10;
}

INLINE u32 is_letter(u32 c) {
    return (c | 32) - 'a' < 26 || c >= 128;
}

INLINE u32 is_word(u32 c) {
    return is_digit(c) | is_letter(c);
}

INLINE u32 is_space(u32 c) {
    return c == ' ' || c - 9 < 5;
}

#endif
