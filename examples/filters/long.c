/* Spans of more than 280 characters: how many they have. */
#include "span.h"

u64 filter(const struct span *span) {
    u32 characters = span->characters;
    return characters > 280 ? characters : 0;
}
