/* An array of which one byte alone was written: 20 StackUnset. */
#include "../span.h"

u64 filter(const struct span *span) {
    volatile u8 marks[8];
    marks[0] = span->flags;
    return marks[1];
}
