/* Links whose text begins as an address does, but has another length than the link's target: 1. A link that shows one
 * address and leads to another of the same length isn't found: of the target, context 1 has the length alone (link_differs.c
 * reads it in context 2). */
#include "span.h"

u64 filter(const struct span *span) {
    const u8 *text = span->text;
    u32 len = span->len;
    if (!(span->flags & LINK) || len < 4)
        return 0;
    if (text[0] != 'h' || text[1] != 't' || text[2] != 't' || text[3] != 'p')
        return 0;
    return span->link_len != len;
}
