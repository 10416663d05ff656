// The same algorithm with the same checks for every table: precision, form and guard bits come at run time, in the
// struct in which the library takes them. Check, node and reciprocal have code for either form. A word has up to 30
// bits, and two of them up to 60: two of 29 or 30 bits do not always lie in one reading of 8 bytes, since bits of
// another word may stand before them.
#define GENERAL
#include "calls.h"
#include "reading.h"
#include "writing.h"

static inline answer refused(uint32_t number)
{
    return (answer){number, 0, 0};
}

// Refusals 1 and 18, which come first in each call.
#define IN_RANGE(format)                                                               \
    do {                                                                               \
        if (11 < (format).precision - 1)                                               \
            return refused(1);                                                         \
        if ((2 < (format).table_guard_bits - 2) | (2 < (format).input_guard_bits - 3)) \
            return refused(18);                                                        \
    } while (0)

// What is inlined once for each form, of which it then knows which one it is.
#define FOR_A_FORM static inline __attribute__((always_inline))

// The 64 bits of the image from bit number `bit` on, where a word begins, zeros past its end. An image of fewer than 8
// bytes loses its filling bits, so that they are not taken for node 2^k: a longer plain image has none, and in the full
// form no word behind the last one is read. It stands beside `bits_from` in reading.h with its own loop: with one loop
// for both, gcc at -O2 made a check of full words at k = 12 a quarter slower.
FOR_A_FORM uint64_t words_from(const uint8_t *image, size_t bytes, uint64_t bits, uint64_t bit)
{
    size_t at = bit / 8;
    if (__builtin_expect(at + 8 <= bytes, 1))
        return load(image + at) << (bit % 8);
    if (8 <= bytes)
        return load(image + bytes - 8) << (bit - 8 * (bytes - 8));
    uint64_t v = 0;
    for (size_t b = 0; b < bytes; b++)
        v |= (uint64_t)image[b] << (56 - 8 * b);
    return v >> (64 - bits) << (64 - bits) << bit;
}

// A division of doubles guesses each node, and a product judges the guess, as in `judged_build` in otherwise.c: a node
// has at most 30 bits here.
answer CALL(build)(yildegga_format format, uint8_t *image, size_t length)
{
    IN_RANGE(format);
    uint32_t k = format.precision, a = format.table_guard_bits, full = format.form != 0;
    uint32_t width = 2 * k + a + 2 * full, count = 1u << k, words = count + full, bits = width * words;
    if (length < (bits + 7) / 8)
        return refused(2);
    uint64_t numerator = (uint64_t)2 << (3 * k + a), mask = ((uint64_t)1 << width) - 1;
    double dividend = (double)(int64_t)numerator, divisor = (double)(int32_t)count;
    writer to = {0, 0, image};
    for (uint64_t i = count; i < count + words; i++, divisor += 1.0) {
        uint64_t c = guessed(dividend, divisor);
        if (!right(c, i, numerator))
            c = (numerator - 1) / i + 1;
        put(&to, width, c & mask);
    }
    put(&to, (8 - bits % 8) % 8, 0);
    put_rest(&to, image + length);
    return (answer){0, 0, 0};
}

// Two words in each reading, which holds them at every width: the first has an even number, so that at most 6 bits
// stand before it in its byte where it has 29 bits, and at most 4 where it has 30. Word by word at the front in the
// plain form, near the end, and from a wrong pair on.
FOR_A_FORM answer check(yildegga_format format, uint32_t full, const uint8_t *image, size_t length)
{
    uint32_t k = format.precision, a = format.table_guard_bits;
    uint64_t width = 2 * k + a + 2 * full, count = (uint64_t)1 << k, words = count + full, bits = width * words, lead = (uint64_t)!full << width;
    size_t bytes = (bits + 7) / 8;
    if (length < bytes)
        return refused(2);
    uint64_t numerator = (uint64_t)2 << (3 * k + a), mask = ((uint64_t)1 << width) - 1, j = 0;
    for (; !full && j < 2; j++)
        if (!right(decoded(words_from(image, bytes, bits, j * width) >> (64 - width), lead), count + j, numerator))
            return (answer){6, j, 0};
    size_t last = 8 * bytes - 64;
    for (size_t bit = j * width; 8 <= bytes && bit <= last; bit += 2 * width, j += 2) {
        uint64_t both = load(image + bit / 8) << (bit % 8) >> (64 - 2 * width), i = count + j;
        if (!right(lead + (both >> width), i, numerator) | !right(lead + (both & mask), i + 1, numerator))
            break;
    }
    for (; j < words; j++)
        if (!right(lead + (words_from(image, bytes, bits, j * width) >> (64 - width)), count + j, numerator))
            return (answer){6, j, 0};
    if ((uint8_t)(image[bytes - 1] << ((bits - 1) % 8 + 1)) != 0)
        return (answer){7, bytes - 1, 0};
    size_t past = first_set(image, bytes, length);
    return past < length ? (answer){7, past, 0} : (answer){0, 0, 0};
}

answer CALL(check)(yildegga_format format, const uint8_t *image, size_t length)
{
    IN_RANGE(format);
    return format.form ? check(format, 1, image, length) : check(format, 0, image, length);
}

FOR_A_FORM answer node(yildegga_format format, uint32_t full, const uint8_t *image, size_t length, uint32_t j)
{
    uint32_t k = format.precision, a = format.table_guard_bits;
    uint64_t width = 2 * k + a + 2 * full, count = (uint64_t)1 << k, words = count + full, bits = width * words, lead = (uint64_t)!full << width;
    size_t bytes = (bits + 7) / 8;
    if (length < bytes)
        return refused(2);
    if (count < j)
        return refused(3);
    uint64_t numerator = (uint64_t)2 << (3 * k + a), i = count + j;
    if (j == words)
        return (answer){0, 0, lead};
    uint64_t c = decoded(words_from(image, bytes, bits, j * width) >> (64 - width), lead);
    if (__builtin_expect(!right(c, i, numerator), 0))
        return (answer){6, j, 0};
    return (answer){0, 0, c};
}

answer CALL(node)(yildegga_format format, const uint8_t *image, size_t length, uint32_t j)
{
    IN_RANGE(format);
    return format.form ? node(format, 1, image, length, j) : node(format, 0, image, length, j);
}

// As in careful.c, with f of k + b bits. Full words of 29 and 30 bits are read one by one.
FOR_A_FORM answer reciprocal(yildegga_format format, uint32_t full, const uint8_t *image, size_t length, uint32_t n, uint64_t x)
{
    uint32_t k = format.precision, a = format.table_guard_bits, b = format.input_guard_bits;
    uint64_t width = 2 * k + a + 2 * full, count = (uint64_t)1 << k, words = count + full, bits = width * words, lead = (uint64_t)1 << width;
    size_t bytes = (bits + 7) / 8;
    if (length < bytes)
        return refused(2);
    if (62 < n - 1)
        return refused(4);
    uint64_t top = x << (64 - n), j = top >> (64 - k), i = count + j, f = top << k >> (64 - k - b), numerator = (uint64_t)2 << (3 * k + a), bit = j * width;
    if (x >> n != 1)
        return refused(5);
    uint64_t both = words_from(image, bytes, bits, bit), second = both << width;
    if (full && __builtin_expect(57 < 2 * width, 0))
        second = words_from(image, bytes, bits, bit + width);
    uint64_t lower = both >> (64 - width), upper = second >> (64 - width);
    if (!full) {
        lower = decoded(lower, lead);
        upper += lead;
    }
    if (!right(lower, i, numerator))
        return (answer){6, j, 0};
    if (!right(upper, i + 1, numerator))
        return (answer){6, j + 1, 0};
    return (answer){0, 0, ((lower << (k + b)) - (lower - upper) * f) >> (k + a + b)};
}

answer CALL(reciprocal)(yildegga_format format, const uint8_t *image, size_t length, uint32_t n, uint64_t x)
{
    IN_RANGE(format);
    return format.form ? reciprocal(format, 1, image, length, n, x) : reciprocal(format, 0, image, length, n, x);
}
