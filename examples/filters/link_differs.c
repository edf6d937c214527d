/* Links whose text is an address of another host than the link's: 1. The text begins with http://, https:// or www. (which is part
 * of the host), and its address goes on as far as its bytes can belong to user, host and port. These are compared as they stand, but
 * for the case of letters: another user or port counts too. http and https count as the same, and a link of neither as another host.
 * 2 where the first 64 bytes are the same and more follow. A link of two formats is two spans, each with a part of the text. */
#include "address.h"

/* Whether a byte of the text can belong to user, host and port. */
INLINE int belongs(u8 c) {
    return (u8)((c | 32) - 'a') < 26 || (u8)(c - '0') < 10 || c == '-' || c == '.' || c == '_' || c == '%' || c == ':' || c == '@'
        || c >= 128;
}

/* Whether bytes are equal, or one letter in either case. */
INLINE int same(u64 a, u64 b) {
    return a == b || ((a ^ b) == 32 && (a | 32) - 'a' < 26);
}

u64 link_filter(const struct linked_span *linked) {
    const u8 *text = linked->span.text, *end = linked->span.end;
    const u8 *link = linked->link, *link_end = linked->link_end;
    if (link == link_end)
        return 0;
    u64 www = text + 5 <= end && (text[0] | 32) == 'w' && (text[1] | 32) == 'w' && (text[2] | 32) == 'w'
        && text[3] == '.';
    OPAQUE(www);
    OPAQUE(text);
    u64 first = scheme(text, end);
    if ((www | first) == 0)
        return 0;
    u64 link_first = scheme(link, link_end);
    if (link_first == 0)
        return 1;
    text += first;
    link += link_first;
    UNROLL
    for (u64 i = 0; i <= 64; i++) {
        OPAQUE(text);
        OPAQUE(link);
        if (text < end && link < link_end && same(*text, *link) && !ends(*text)) {
            if (i == 64)
                return 2;
            text++;
            link++;
        }
    }
    OPAQUE(text);
    OPAQUE(link);
    if (link < link_end && !ends(*link))
        return 1;
    if (text < end && (*text == '.' || *text == ':')) /* which may end a sentence */
        text++;
    return text < end && belongs(*text);
}
