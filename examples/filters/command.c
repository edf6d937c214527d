/* Code that begins with "$ ", as a command does that is to be pasted into a shell: 1. */
#include "span.h"

u64 filter(const struct span *span) {
    const u8 *text = span->text;
    if (!(span->flags & CODE) || span->len < 2)
        return 0;
    return text[0] == '$' && text[1] == ' ';
}
