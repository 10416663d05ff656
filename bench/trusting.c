#include "trusting.h"
#include <string.h>

uint64_t trusting_packed(uint32_t k, const uint8_t *image, uint32_t n, uint64_t x)
{
    uint64_t width = 2 * k + 2, count = (uint64_t)1 << k, lead = (uint64_t)1 << width;
    uint64_t t = x >> (n - 2 * k - 3), j = (t >> (k + 3)) - count, f = t & (8 * count - 1), bit = j * width, both;
    memcpy(&both, image + bit / 8, 8);
    both = __builtin_bswap64(both) << (bit % 8) >> (64 - 2 * width);
    uint64_t lower = both >> width == 0 ? 2 * lead : lead + (both >> width), upper = lead + (both & (lead - 1));
    return (lower * (8 * count) - (lower - upper) * f) >> (k + 5);
}

uint64_t trusting_flat(uint32_t k, const uint32_t *nodes, uint32_t n, uint64_t x)
{
    uint64_t count = (uint64_t)1 << k, t = x >> (n - 2 * k - 3), j = (t >> (k + 3)) - count, f = t & (8 * count - 1), lower = nodes[j];
    return (lower * (8 * count) - (lower - nodes[j + 1]) * f) >> (k + 5);
}

uint64_t trusting_divided(uint32_t k, uint32_t n, uint64_t x)
{
    return ((uint64_t)1 << (4 * k + 4)) / (x >> (n - 2 * k - 3));
}

float trusting_float(float x)
{
    return 1.0f / x;
}
