/* The first byte of the text. */
#include "span.h"

u64 filter(const struct span *span) {
    if (span->len == 0)
        return 0;
    return span->text[0];
}
