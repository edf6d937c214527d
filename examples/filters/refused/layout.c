/* No loop, but clang lays out these tests with jumps back: 10 BackwardJump. compile.sh then has `hub straighten` lay them out
   again, unless HUB is empty. Accepted without it where the least place is tested first. */
#include "../span.h"

u64 filter(const struct span *span) {
    u64 sum = 0;
    if (span->len > 40)
        sum += span->text[40];
    if (span->len > 30)
        sum += span->text[30];
    if (span->len > 20)
        sum += span->text[20];
    if (span->len > 10)
        sum += span->text[10];
    return sum;
}
