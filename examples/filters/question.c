/* Spans that end with a question mark: 1. */
#include "span.h"

u64 filter(const struct span *span) {
    const u8 *end = span->end;
    if (span->text >= end)
        return 0;
    return end[-1] == '?';
}
