/* Spans with at least three comments: how many they have. */
#include "span.h"

u64 filter(const struct span *span) {
    u32 comments = span->comments;
    return comments >= 3 ? comments : 0;
}
