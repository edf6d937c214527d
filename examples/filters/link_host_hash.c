/* The host of a link by http or https: the FNV-1a hash of its bytes, in small letters, in 32 bits. Whoever has a list of hosts compares
 * it with theirs. A host of more than 64 bytes is cut off; a user before an `@` and a port count as a part of it. Context 3. */
#include "address.h"

u64 link_filter(const struct linked_span *linked) {
    const u8 *link = linked->link, *link_end = linked->link_end;
    u64 first = scheme(link, link_end);
    if (first == 0)
        return 0;
    const u8 *at = link + first;
    u32 hash = 2166136261u;
    UNROLL
    for (u64 i = 0; i < 64; i++) {
        OPAQUE(at);
        if (at < link_end && !ends(*at)) {
            u32 c = *at;
            c |= (u32)(c - 'A' < 26) << 5;
            hash = (hash ^ c) * 16777619u;
            at++;
        }
    }
    return hash;
}
