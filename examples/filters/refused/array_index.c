/* An array on the stack whose index isn't constant: 16 PointerArithmetic. */
#include "../span.h"

u64 filter(const struct span *span) {
    volatile u8 marks[2];
    marks[0] = 3;
    marks[1] = span->comments;
    return marks[span->flags & 1];
}
