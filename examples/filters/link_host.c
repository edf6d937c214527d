/* Links that go to example.org or to one of its subdomains, by http or https: 1. A user before an `@` and a port of up to five digits
 * are skipped, so that https://example.org@evil.com isn't found. User, host and port are read up to 64 bytes. Letters are of either
 * case; a host that is spelled otherwise, with a dot at its end or with `%`, isn't found. */
#include "address.h"

static const char host[] = "example.org"; /* in small letters */
enum { LENGTH = sizeof(host) - 1 };

u64 link_filter(const struct linked_span *linked) {
    const u8 *link = linked->link, *link_end = linked->link_end;
    u64 first = scheme(link, link_end);
    if (first == 0)
        return 0;
    const u8 *at = link + first;
    UNROLL
    for (u64 i = 0; i <= 64; i++) {
        OPAQUE(at);
        if (at < link_end && !ends(*at)) {
            if (i == 64)
                return 0;
            at++;
        }
    }
    OPAQUE(at);
    if (at < link + 7 + LENGTH || at > link_end) /* the second is never so, which the verifier doesn't know */
        return 0;
    const u8 *end = at;
    UNROLL
    for (u64 i = 0; i < 5; i++)
        if (end[-1] >= '0' && end[-1] <= '9')
            end--;
    if (end[-1] == ':')
        end--;
    else
        end = at;
    const u8 *name = end - LENGTH;
    UNROLL
    for (u64 i = 0; i < LENGTH; i++)
        if ((name[i] | 32) != host[i])
            return 0;
    return name[-1] == '.' || name[-1] == '@' || name[-1] == '/';
}
