/* A call that wasn't inlined: compile.sh refuses it. */
#include "../span.h"

static __attribute__((noinline)) u64 weight(u64 flags) {
    return flags * flags + 1;
}

u64 filter(const struct span *span) {
    return weight(span->flags) + weight(span->comments);
}
