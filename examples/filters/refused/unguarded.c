/* The second byte of the text, which may not be there: 21 TextBounds. */
#include "../span.h"

u64 filter(const struct span *span) {
    return span->text[1];
}
