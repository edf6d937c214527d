/* A store into what is lent: 23 ReadOnlyStore. */
#include "../span.h"

u64 filter(const struct span *span) {
    if (span->len == 0)
        return 0;
    *(u8 *)span->text = 'x';
    return 1;
}
