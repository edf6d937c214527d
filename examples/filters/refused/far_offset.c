/* A number of any size added to the text's address, and the sum tested afterwards: 22 TextOffset. Test the number
 * first, against the length. */
#include "../span.h"

u64 filter(const struct span *span) {
    const u8 *place = span->text + span->color;
    if (place >= span->end)
        return 0;
    return *place;
}
