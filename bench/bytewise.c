// The same calls with words and tail byte by byte in a loop, as the algorithm is first written down.
#include "calls.h"

static inline answer refused(uint32_t number)
{
    return (answer){number, 0, 0};
}

static inline uint32_t word(const uint8_t *image, uint32_t width, uint32_t j)
{
    uint64_t bit = (uint64_t)j * width, past = (bit + width + 7) / 8, value = 0;
    for (uint64_t at = bit / 8; at < past; at++)
        value = value << 8 | image[at];
    return (uint32_t)(value >> (8 * past - bit - width) & (((uint64_t)1 << width) - 1));
}

// The value of node j, 0 where its word is wrong.
static inline uint64_t judged(uint32_t k, const uint8_t *image, uint32_t j)
{
    uint32_t width = 2 * k + 2, count = 1u << k;
    uint64_t lead = (uint64_t)1 << width, i = count + j;
    if (j == count)
        return lead;
    uint64_t w = word(image, width, j);
    uint64_t c = j == 0 && w == 0 ? 2 * lead : lead + w;
    return c * i - ((uint64_t)1 << (3 * k + 3)) < i ? c : 0;
}

static inline uint32_t broken(uint32_t k, size_t length)
{
    if (k < 1 || 12 < k)
        return 1;
    return length < (((size_t)2 * k + 2) << k) / 8 ? 2 : 0;
}

answer CALL(build)(uint32_t k, uint8_t *image, size_t length)
{
    uint32_t number = broken(k, length);
    if (number != 0)
        return refused(number);
    uint32_t width = 2 * k + 2, count = 1u << k, left = 0;
    uint64_t waiting = 0, numerator = (uint64_t)1 << (3 * k + 3);
    const uint8_t *end = image + length;
    for (uint32_t i = count; i < 2 * count; i++) {
        uint64_t c = numerator / i + (numerator % i != 0);
        waiting = waiting << width | (c & (((uint64_t)1 << width) - 1));
        left += width;
        while (8 <= left) {
            left -= 8;
            *image++ = (uint8_t)(waiting >> left);
        }
    }
    while (image < end)
        *image++ = 0;
    return (answer){0, 0, 0};
}

answer CALL(check)(uint32_t k, const uint8_t *image, size_t length)
{
    uint32_t number = broken(k, length);
    if (number != 0)
        return refused(number);
    for (uint32_t j = 0; j < 1u << k; j++)
        if (judged(k, image, j) == 0)
            return (answer){6, j, 0};
    for (size_t at = (((size_t)2 * k + 2) << k) / 8; at < length; at++)
        if (image[at] != 0)
            return (answer){7, at, 0};
    return (answer){0, 0, 0};
}

answer CALL(node)(uint32_t k, const uint8_t *image, size_t length, uint32_t j)
{
    uint32_t number = broken(k, length);
    if (number != 0)
        return refused(number);
    if (1u << k < j)
        return refused(3);
    uint64_t c = judged(k, image, j);
    return c == 0 ? (answer){6, j, 0} : (answer){0, 0, c};
}

answer CALL(reciprocal)(uint32_t k, const uint8_t *image, size_t length, uint32_t n, uint64_t x)
{
    uint32_t number = broken(k, length);
    if (number != 0)
        return refused(number);
    if (n < 1 || 63 < n)
        return refused(4);
    if (x >> n != 1)
        return refused(5);
    uint64_t t = n < 2 * k + 3 ? x << (2 * k + 3 - n) : x >> (n - 2 * k - 3), f = t & (((uint64_t)8 << k) - 1);
    uint32_t j = (uint32_t)(t >> (k + 3)) - (1u << k);
    uint64_t lower = judged(k, image, j);
    if (lower == 0)
        return (answer){6, j, 0};
    uint64_t upper = judged(k, image, j + 1);
    if (upper == 0)
        return (answer){6, j + 1, 0};
    return (answer){0, 0, ((lower << (k + 3)) - (lower - upper) * f) >> (k + 5)};
}
