/* Spaces at the end of the text, up to 16: how many. Context 3, for the difference of two addresses. */
#include "characters.h"

u64 link_filter(const struct linked_span *linked) {
    const u8 *text = linked->span.text, *end = linked->span.end;
    const u8 *at = end;
    UNROLL
    for (u64 i = 0; i < 16; i++) {
        OPAQUE(at);
        if (text < at && is_space(at[-1]))
            at--;
    }
    return end - at;
}
