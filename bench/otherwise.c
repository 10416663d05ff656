#include "otherwise.h"
#include "reading.h"
#include "writing.h"

// 2^63 / (i × (i + 1)) times either divisor is the quotient by the other, less than 1 too small.
answer pairs_build(uint32_t k, uint8_t *image, size_t length)
{
    if (11 < k - 1)
        return (answer){1, 0, 0};
    uint32_t width = 2 * k + 2, shift = 63 - (3 * k + 3);
    uint64_t count = (uint64_t)1 << k, numerator = (uint64_t)1 << (3 * k + 3), mask = ((uint64_t)1 << width) - 1;
    if (length < width * count / 8)
        return (answer){2, 0, 0};
    writer to = {0, 0, image};
    for (uint64_t i = count; i < 2 * count; i += 2) {
        uint64_t both = ((uint64_t)1 << 63) / (i * (i + 1)), one = both * (i + 1) >> shift, other = both * i >> shift;
        one += one * i < numerator;
        one += one * i < numerator;
        other += other * (i + 1) < numerator;
        other += other * (i + 1) < numerator;
        put(&to, width, one & mask);
        put(&to, width, other & mask);
    }
    put_rest(&to, image + length);
    return (answer){0, 0, 0};
}

// The quotient is below 2^28 and lies 2^-13 or more from a whole number unless it is one, so 53 bits do not round it to
// another.
answer doubles_build(uint32_t k, uint8_t *image, size_t length)
{
    if (11 < k - 1)
        return (answer){1, 0, 0};
    uint32_t width = 2 * k + 2, count = 1u << k;
    uint64_t mask = ((uint64_t)1 << width) - 1;
    if (length < ((size_t)width << k) / 8)
        return (answer){2, 0, 0};
    double below = (double)(((uint64_t)1 << (3 * k + 3)) - 1);
    writer to = {0, 0, image};
    for (uint32_t i = count; i < 2 * count; i++)
        put(&to, width, ((uint64_t)(int64_t)(below / (double)(int32_t)i) + 1) & mask);
    put_rest(&to, image + length);
    return (answer){0, 0, 0};
}

// Bits that wait for their eight bytes: place % 64 of them, the lowest of `waiting`, where place is the bits that the
// image has so far.
typedef struct {
    uint64_t waiting, place;
} placed;

static inline placed put_placed(uint8_t *image, placed to, uint32_t width, uint64_t word)
{
    uint64_t place = to.place + width, over = place % 64;
    if (width <= over)
        return (placed){to.waiting << width | word, place};
    uint64_t eight = __builtin_bswap64(to.waiting << (width - over) | word >> over);
    memcpy(image + to.place / 64 * 8, &eight, 8);
    return (placed){word, place};
}

// The words of nodes 0 to `words` - 1, then `filling` zero bits, and zeros to the buffer's end. A guess counts only
// where it is right; where it is wrong, whole numbers are divided. It is inlined, so that what the form settles is
// constant.
static inline __attribute__((always_inline)) answer judged(uint32_t k, uint32_t width, uint64_t words, uint32_t filling, uint8_t *image, size_t length)
{
    uint64_t count = (uint64_t)1 << k, numerator = (uint64_t)1 << (3 * k + 3), mask = ((uint64_t)1 << width) - 1;
    if (length < (width * words + filling) / 8)
        return (answer){2, 0, 0};
    double dividend = (double)(int64_t)numerator, divisor = (double)(int64_t)count;
    placed to = {0, 0};
    for (uint64_t i = count; i < count + words; i++, divisor += 1.0) {
        uint64_t c = guessed(dividend, divisor);
        if (!right(c, i, numerator))
            c = (numerator - 1) / i + 1;
        to = put_placed(image, to, width, c & mask);
    }
    to = put_placed(image, to, filling, 0);
    writer rest = {to.waiting, (uint32_t)(to.place % 64), image + to.place / 64 * 8};
    put_rest(&rest, image + length);
    return (answer){0, 0, 0};
}

answer judged_build(uint32_t k, uint8_t *image, size_t length)
{
    if (11 < k - 1)
        return (answer){1, 0, 0};
    return judged(k, 2 * k + 2, (uint64_t)1 << k, 0, image, length);
}

answer judged_full_build(uint32_t k, uint8_t *image, size_t length)
{
    if (11 < k - 1)
        return (answer){1, 0, 0};
    uint32_t width = 2 * k + 4, words = (1u << k) + 1;
    return judged(k, width, words, (8 - width * words % 8) % 8, image, length);
}

kept_table kept_bind(uint32_t k, const uint8_t *image, size_t length)
{
    if (11 < k - 1)
        return (kept_table){.number = 1};
    uint64_t width = 2 * k + 2, count = (uint64_t)1 << k, lead = (uint64_t)1 << width;
    size_t bytes = width * count / 8;
    return (kept_table){image, bytes, width, count, lead, 2 * count * lead, k, length < bytes ? 2 : 0};
}

// The reciprocal where refusals 1 and 2 do not apply. It is inlined, so that what is constant in the caller is so here.
// The node number comes from k bits, so that it is one whatever x is, and the words may be read before x is judged.
static inline __attribute__((always_inline)) answer within(const uint8_t *image, size_t bytes, uint32_t k, uint64_t width, uint64_t count,
                                                           uint64_t lead, uint64_t numerator, uint32_t n, uint64_t x)
{
    if (62 < n - 1)
        return (answer){4, 0, 0};
    uint64_t top = x << (64 - n), j = top >> (64 - k), i = count + j, f = top << k >> (61 - k);
    uint64_t both = bits_from(image, bytes, j * width) >> (64 - 2 * width);
    if (x >> n != 1)
        return (answer){5, 0, 0};
    uint64_t lower = decoded(both >> width, lead), upper = lead + (both & (lead - 1));
    if (!right(lower, i, numerator))
        return (answer){6, j, 0};
    if (!right(upper, i + 1, numerator))
        return (answer){6, j + 1, 0};
    return (answer){0, 0, (lower * (8 * count) - (lower - upper) * f) >> (k + 5)};
}

answer kept_reciprocal(const kept_table *table, uint32_t n, uint64_t x)
{
    if (table->number != 0)
        return (answer){table->number, 0, 0};
    return within(table->image, table->bytes, table->k, table->width, table->count, table->lead, table->numerator, n, x);
}

answer apart_reciprocal(uint32_t k, const uint8_t *image, size_t length, uint32_t n, uint64_t x)
{
    switch (k) {
#define APART(k)                               \
    case k:                                    \
        if (length < ((2 * k + 2) << k) / 8)   \
            return (answer){2, 0, 0};          \
        return within(image, ((2 * k + 2) << k) / 8, k, 2 * k + 2, 1 << k, 4 << 2 * k, (uint64_t)8 << 3 * k, n, x);
        APART(1)
        APART(2)
        APART(3)
        APART(4)
        APART(5)
        APART(6)
        APART(7)
        APART(8)
        APART(9)
        APART(10)
        APART(11)
        APART(12)
    }
    return (answer){1, 0, 0};
}
