/* How link_host.c and link_differs.c read addresses. */
#ifndef ADDRESS_H
#define ADDRESS_H

#include "span.h"

#define INLINE static inline __attribute__((always_inline))

/* The length of `http://` or `https://`, in letters of either case, where the bytes begin so and go on; else 0. */
INLINE u64 scheme(const u8 *at, const u8 *end) {
    u64 length = 0;
    if (at + 5 <= end && (at[0] | 32) == 'h' && (at[1] | 32) == 't' && (at[2] | 32) == 't' && (at[3] | 32) == 'p') {
        u64 s = (at[4] | 32) == 's';
        OPAQUE(s);
        at += s;
        if (at + 7 < end && at[4] == ':' && at[5] == '/' && at[6] == '/')
            length = 7 + s;
    }
    OPAQUE(length);
    return length;
}

/* Whether user, host and port end before this byte. Browsers take a backslash for a slash. */
INLINE int ends(u64 c) {
    if (c == '/' || c == '?')
        return 1;
    OPAQUE(c);
    return c == '#' || c == '\\';
}

#endif
