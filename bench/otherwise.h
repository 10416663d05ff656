// Other ways to the same answers, to see what they would gain.
#ifndef OTHERWISE_H
#define OTHERWISE_H
#include "calls.h"

// The image by one division of integers for every two nodes, and by a division of doubles for each.
answer pairs_build(uint32_t k, uint8_t *image, size_t length);
answer doubles_build(uint32_t k, uint8_t *image, size_t length);

// The image as the library builds it, in either form: a division of doubles guesses each node, a product judges the
// guess, and words are stored by eight bytes.
answer judged_build(uint32_t k, uint8_t *image, size_t length);
answer judged_full_build(uint32_t k, uint8_t *image, size_t length);

// A table that keeps all that depends on k alone, refusals 1 and 2 among it; every other check is made in each call.
typedef struct {
    const uint8_t *image;
    size_t bytes;
    uint64_t width, count, lead, numerator;
    uint32_t k, number;
} kept_table;
kept_table kept_bind(uint32_t k, const uint8_t *image, size_t length);
answer kept_reciprocal(const kept_table *table, uint32_t n, uint64_t x);

// The reciprocal with code of its own for each precision, in which shifts, masks and the length are constants; all
// checks.
answer apart_reciprocal(uint32_t k, const uint8_t *image, size_t length, uint32_t n, uint64_t x);

#endif
