/* All strong spans: 1. */
#include "span.h"

u64 filter(const struct span *span) {
    return span->flags & STRONG;
}
