/* A text compared with the null pointer: 17 PointerCompare. The text is always there; ask for its length. */
#include "../span.h"

u64 filter(const struct span *span) {
    if (!span->text)
        return 0;
    return span->len;
}
