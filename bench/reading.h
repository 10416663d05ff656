// How the C here reads and judges words, and a tail: 8 bytes in one reading.
#ifndef READING_H
#define READING_H
#include <stddef.h>
#include <stdint.h>
#include <string.h>

static inline uint64_t load(const uint8_t *at)
{
    uint64_t v;
    memcpy(&v, at, 8);
    return __builtin_bswap64(v);
}

// The 64 bits of the image from bit number `bit` on, zeros past its end. Near the end the last 8 bytes are read and
// shifted; the images of k = 1 and 2 are shorter than that.
static inline uint64_t bits_from(const uint8_t *image, size_t bytes, size_t bit)
{
    size_t at = bit / 8;
    if (__builtin_expect(at + 8 <= bytes, 1))
        return load(image + at) << (bit % 8);
    if (8 <= bytes)
        return load(image + bytes - 8) << (bit - 8 * (bytes - 8));
    uint64_t v = 0;
    for (size_t b = 0; b < bytes; b++)
        v |= (uint64_t)image[b] << (56 - 8 * b);
    return v << bit;
}

// The lowest byte from `from` on that is not zero, and `length` where there is none.
static inline size_t first_set(const uint8_t *buffer, size_t from, size_t length)
{
    size_t at = from;
    for (uint64_t v; at + 8 <= length; at += 8) {
        memcpy(&v, buffer + at, 8);
        if (v != 0)
            return at + (size_t)__builtin_ctzll(v) / 8;
    }
    for (; at < length; at++)
        if (buffer[at] != 0)
            return at;
    return length;
}

// Whether c is numerator / i rounded up.
static inline int right(uint64_t c, uint64_t i, uint64_t numerator)
{
    return c * i - numerator < i;
}

// A word of 0 stands for twice the leading one; anywhere but at node 0 that is judged wrong, as is the leading one
// alone.
static inline uint64_t decoded(uint64_t word, uint64_t lead)
{
    return word == 0 ? 2 * lead : lead + word;
}

#endif
