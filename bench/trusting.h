// What a user would take instead of a checked call: nothing is judged, and a caller's mistake reads where it may not.
// An operand has 2k + 3 fraction bits or more; a shorter one is for the caller to pad.
#ifndef TRUSTING_H
#define TRUSTING_H
#include <stdint.h>

// The reciprocal by a packed image that has 8 bytes of 0 after it, and by a flat table of the 2^k + 1 nodes.
uint64_t trusting_packed(uint32_t k, const uint8_t *image, uint32_t n, uint64_t x);
uint64_t trusting_flat(uint32_t k, const uint32_t *nodes, uint32_t n, uint64_t x);

// The processor's division of 2^(4k+4) by the operand cut to 2k + 3 fraction bits: the reciprocal in the same ulps,
// rounded down.
uint64_t trusting_divided(uint32_t k, uint32_t n, uint64_t x);

// 1 / x in single precision, 24 bits.
float trusting_float(float x);

#endif
