// The library's algorithm with the library's checks, written for speed: both neighbours of a piece come from one
// reading of 8 bytes, which holds them, since two words and the up to 7 bits before them make at most 59 bits. The tail
// is read 8 bytes at a time, and written by memset.
#include "calls.h"
#include "reading.h"
#include "writing.h"

static inline answer refused(uint32_t number)
{
    return (answer){number, 0, 0};
}

// A division of whole numbers for each node: a fixed measure. The library guesses by doubles, as `judged_build` in
// otherwise.c does.
answer CALL(build)(uint32_t k, uint8_t *image, size_t length)
{
    if (11 < k - 1)
        return refused(1);
    uint32_t width = 2 * k + 2, count = 1u << k;
    if (length < ((size_t)width << k) / 8)
        return refused(2);
    uint64_t below = ((uint64_t)1 << (3 * k + 3)) - 1, mask = ((uint64_t)1 << width) - 1;
    writer to = {0, 0, image};
    for (uint32_t i = count; i < 2 * count; i++)
        put(&to, width, (below / i + 1) & mask);
    put_rest(&to, image + length);
    return (answer){0, 0, 0};
}

// Two words in each reading, judged by one branch; word by word at the front, where 8 bytes are no longer there, and
// from a wrong pair on.
answer CALL(check)(uint32_t k, const uint8_t *image, size_t length)
{
    if (11 < k - 1)
        return refused(1);
    uint32_t width = 2 * k + 2, count = 1u << k;
    size_t bytes = ((size_t)width << k) / 8;
    if (length < bytes)
        return refused(2);
    uint64_t numerator = (uint64_t)1 << (3 * k + 3), lead = (uint64_t)1 << width;
    uint32_t j = 0;
    for (; j < 2; j++)
        if (!right(decoded(bits_from(image, bytes, j * width) >> (64 - width), lead), count + j, numerator))
            return (answer){6, j, 0};
    for (size_t bit = 2 * width; bit / 8 + 8 <= bytes; bit += 2 * width, j += 2) {
        uint64_t both = load(image + bit / 8) << (bit % 8) >> (64 - 2 * width), i = count + j;
        if (!right(lead + (both >> width), i, numerator) | !right(lead + (both & (lead - 1)), i + 1, numerator))
            break;
    }
    for (; j < count; j++)
        if (!right(lead + (bits_from(image, bytes, (size_t)j * width) >> (64 - width)), count + j, numerator))
            return (answer){6, j, 0};
    size_t past = first_set(image, bytes, length);
    return past < length ? (answer){7, past, 0} : (answer){0, 0, 0};
}

answer CALL(node)(uint32_t k, const uint8_t *image, size_t length, uint32_t j)
{
    if (11 < k - 1)
        return refused(1);
    uint64_t width = 2 * k + 2, count = (uint64_t)1 << k, lead = (uint64_t)1 << width;
    size_t bytes = width * count / 8;
    if (length < bytes)
        return refused(2);
    if (count < j)
        return refused(3);
    if (j == count)
        return (answer){0, 0, lead};
    uint64_t c = decoded(bits_from(image, bytes, j * width) >> (64 - width), lead);
    if (!right(c, count + j, 2 * count * lead))
        return (answer){6, j, 0};
    return (answer){0, 0, c};
}

// The operand's fraction is shifted to the top, and its leading one out: the first k bits are the node number, the k +
// 3 after them are f, and a short operand has zeros there. Past the last word bits_from gives zeros, and the leading
// one alone is the value of node 2^k: its piece needs no case of its own.
answer CALL(reciprocal)(uint32_t k, const uint8_t *image, size_t length, uint32_t n, uint64_t x)
{
    if (11 < k - 1)
        return refused(1);
    uint64_t width = 2 * k + 2, count = (uint64_t)1 << k, lead = (uint64_t)1 << width;
    size_t bytes = width * count / 8;
    if (length < bytes)
        return refused(2);
    if (62 < n - 1)
        return refused(4);
    uint64_t top = x << (64 - n), j = top >> (64 - k), i = count + j, f = top << k >> (61 - k);
    if (x >> n != 1)
        return refused(5);
    uint64_t both = bits_from(image, bytes, j * width) >> (64 - 2 * width);
    uint64_t lower = decoded(both >> width, lead), upper = lead + (both & (lead - 1)), numerator = 2 * count * lead;
    if (!right(lower, i, numerator))
        return (answer){6, j, 0};
    if (!right(upper, i + 1, numerator))
        return (answer){6, j + 1, 0};
    return (answer){0, 0, (lower * (8 * count) - (lower - upper) * f) >> (k + 5)};
}

// ---- full words: the node itself, 28 bits at most, so that two of them and the up to 7 bits before them still are in
// one reading of 8 bytes

// No word is one that stands for another number, and none is implied: each is judged as it is. The last byte is
// completed by a word of zeros.
answer CALL(full_build)(uint32_t k, uint8_t *image, size_t length)
{
    if (11 < k - 1)
        return refused(1);
    uint32_t width = 2 * k + 4, count = 1u << k, bits = width * (count + 1);
    if (length < (bits + 7) / 8)
        return refused(2);
    uint64_t below = ((uint64_t)1 << (3 * k + 3)) - 1;
    writer to = {0, 0, image};
    for (uint32_t i = count; i <= 2 * count; i++)
        put(&to, width, below / i + 1);
    put(&to, (8 - bits % 8) % 8, 0);
    put_rest(&to, image + length);
    return (answer){0, 0, 0};
}

// Two words in each reading from the first on. Near the end 8 bytes are no longer there, and the loop is left before
// the last word, so that no pair holds bits that are no word's. Then what follows the last word in its byte is looked
// at, and the tail.
answer CALL(full_check)(uint32_t k, const uint8_t *image, size_t length)
{
    if (11 < k - 1)
        return refused(1);
    uint32_t width = 2 * k + 4, count = 1u << k, bits = width * (count + 1);
    size_t bytes = (bits + 7) / 8;
    if (length < bytes)
        return refused(2);
    uint64_t numerator = (uint64_t)1 << (3 * k + 3), mask = ((uint64_t)1 << width) - 1;
    uint32_t j = 0;
    for (size_t bit = 0; bit / 8 + 8 <= bytes; bit += 2 * width, j += 2) {
        uint64_t both = load(image + bit / 8) << (bit % 8) >> (64 - 2 * width), i = count + j;
        if (!right(both >> width, i, numerator) | !right(both & mask, i + 1, numerator))
            break;
    }
    for (; j <= count; j++)
        if (!right(bits_from(image, bytes, (size_t)j * width) >> (64 - width), count + j, numerator))
            return (answer){6, j, 0};
    if ((uint8_t)(image[bytes - 1] << ((bits - 1) % 8 + 1)) != 0)
        return (answer){7, bytes - 1, 0};
    size_t past = first_set(image, bytes, length);
    return past < length ? (answer){7, past, 0} : (answer){0, 0, 0};
}

answer CALL(full_node)(uint32_t k, const uint8_t *image, size_t length, uint32_t j)
{
    if (11 < k - 1)
        return refused(1);
    uint64_t width = 2 * k + 4, count = (uint64_t)1 << k;
    size_t bytes = (width * (count + 1) + 7) / 8;
    if (length < bytes)
        return refused(2);
    if (count < j)
        return refused(3);
    uint64_t c = bits_from(image, bytes, j * width) >> (64 - width);
    if (!right(c, count + j, (uint64_t)1 << (3 * k + 3)))
        return (answer){6, j, 0};
    return (answer){0, 0, c};
}

answer CALL(full_reciprocal)(uint32_t k, const uint8_t *image, size_t length, uint32_t n, uint64_t x)
{
    if (11 < k - 1)
        return refused(1);
    uint64_t width = 2 * k + 4, count = (uint64_t)1 << k;
    size_t bytes = (width * (count + 1) + 7) / 8;
    if (length < bytes)
        return refused(2);
    if (62 < n - 1)
        return refused(4);
    uint64_t top = x << (64 - n), j = top >> (64 - k), i = count + j, f = top << k >> (61 - k);
    if (x >> n != 1)
        return refused(5);
    uint64_t both = bits_from(image, bytes, j * width) >> (64 - 2 * width), numerator = (uint64_t)1 << (3 * k + 3);
    uint64_t lower = both >> width, upper = both & (((uint64_t)1 << width) - 1);
    if (!right(lower, i, numerator))
        return (answer){6, j, 0};
    if (!right(upper, i + 1, numerator))
        return (answer){6, j + 1, 0};
    return (answer){0, 0, (lower * (8 * count) - (lower - upper) * f) >> (k + 5)};
}
