/* One byte of a field of four: 18 ContextField. luminance.c loads the whole field, shifts and masks. */
#include "../span.h"

u64 filter(const struct span *span) {
    return ((const u8 *)&span->color)[2];
}
