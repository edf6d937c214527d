/* Text in a color that is too light to read on white: its luminance, 200 to 255, by the weights of ITU-R BT.601. */
#include "span.h"

u64 filter(const struct span *span) {
    u32 color = span->color;
    u32 red = color >> 16 & 255, green = color >> 8 & 255, blue = color & 255;
    u32 luminance = (299 * red + 587 * green + 114 * blue) / 1000;
    return luminance >= 200 ? luminance : 0;
}
