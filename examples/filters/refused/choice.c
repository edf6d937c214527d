/* A choice between two fields, of which clang makes a choice between their addresses: 16 PointerArithmetic. */
#include "../span.h"

u64 filter(const struct span *span) {
    return span->flags & STRONG ? span->len : span->color;
}
