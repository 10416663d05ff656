// A tail alone, as the C here writes and reads it: the measure for what it costs the library.
#ifndef TAILS_H
#define TAILS_H
#include <stddef.h>
#include <stdint.h>

// Zeros from byte `from` to the end, by memset.
void tail_zeros(uint8_t *buffer, size_t from, size_t length);

// The lowest byte from `from` on that is not zero, and `length` where there is none, 8 bytes at a time.
size_t tail_read(const uint8_t *buffer, size_t from, size_t length);

#endif
