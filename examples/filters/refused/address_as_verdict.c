/* An address as the verdict: 26 ReturnPointer. */
#include "../span.h"

u64 filter(const struct span *span) {
    return (u64)span->text;
}
