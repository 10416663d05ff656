// How most of the C here writes words: bits wait in 64 and are stored by four bytes; and the zeros behind them. And how
// a node is guessed by doubles.
#ifndef WRITING_H
#define WRITING_H
#include <stdint.h>
#include <string.h>

typedef struct {
    uint64_t waiting;
    uint32_t left;
    uint8_t *at;
} writer;

static inline void put(writer *to, uint32_t width, uint64_t word)
{
    to->waiting = to->waiting << width | word;
    to->left += width;
    if (32 <= to->left) {
        to->left -= 32;
        uint32_t four = __builtin_bswap32((uint32_t)(to->waiting >> to->left));
        memcpy(to->at, &four, 4);
        to->at += 4;
    }
}

// The whole bytes that still wait, and zeros to the buffer's end. A plain image ends at a byte; who builds a full one
// puts its filling bits first.
static inline void put_rest(writer *to, uint8_t *end)
{
    while (8 <= to->left) {
        to->left -= 8;
        *to->at++ = (uint8_t)(to->waiting >> to->left);
    }
    memset(to->at, 0, (size_t)(end - to->at));
}

// Added to 2^32 + 1 - 2^-20 the quotient leaves 20 bits behind the point, and the lowest 32 before it are the quotient
// rounded up: it lies 2^-13 or more from every whole number unless it is one, and no rounding mode moves it so far.
static inline uint64_t guessed(double dividend, double divisor)
{
    double raised = dividend / divisor + 4294967296.99999904632568359375;
    uint64_t bits;
    memcpy(&bits, &raised, 8);
    return (uint32_t)(bits >> 20);
}

#endif
