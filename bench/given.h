// What the calls are given: images, flat tables and drawn numbers.
#ifndef GIVEN_H
#define GIVEN_H
#include <stddef.h>
#include <stdint.h>

enum { LEAST = 1, GREATEST = 12, LONGEST = 13312, FULL_LONGEST = 14340 };

// The image of each precision with 8 bytes of 0 after it, its length, and its nodes in a flat table, all by the
// library; the full images, and their lengths.
extern uint8_t images[GREATEST + 1][LONGEST + 8], full_images[GREATEST + 1][FULL_LONGEST];
extern size_t lengths[GREATEST + 1], full_lengths[GREATEST + 1];
extern uint32_t tables[GREATEST + 1][(1 << GREATEST) + 1];
void make_images(void);

// The next number of a fixed sequence that looks drawn at random, and an operand of n fraction bits from it.
uint64_t drawn(void);
uint64_t drawn_operand(uint32_t n);

#endif
