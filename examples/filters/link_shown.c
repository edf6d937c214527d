/* Links whose text isn't the link itself, of the first 64 bytes of both: the place where they begin to differ, from 1; 65 where these
 * are the same and the lengths differ. Context 2. */
#include "span.h"

u64 link_filter(const struct linked_span *linked) {
    const u8 *text = linked->span.text, *link = linked->link;
    u32 len = linked->span.len, link_len = linked->span.link_len;
    if (link_len == 0)
        return 0;
    UNROLL
    for (u32 i = 0; i < 64; i++) {
        if (i >= len || i >= link_len)
            return len == link_len ? 0 : i + 1;
        if (text[i] != link[i])
            return i + 1;
    }
    return len == link_len ? 0 : 65;
}
