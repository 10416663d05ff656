#include "given.h"
#include "library.h"

uint8_t images[GREATEST + 1][LONGEST + 8], full_images[GREATEST + 1][FULL_LONGEST];
size_t lengths[GREATEST + 1], full_lengths[GREATEST + 1];
uint32_t tables[GREATEST + 1][(1 << GREATEST) + 1];

void make_images(void)
{
    for (uint32_t k = LEAST; k <= GREATEST; k++) {
        lengths[k] = YILDEGGA_IMAGE_LENGTH(k);
        full_lengths[k] = YILDEGGA_FULL_IMAGE_LENGTH(k);
        library_plain_build(k, images[k], lengths[k]);
        library_full_build(k, full_images[k], full_lengths[k]);
        for (uint32_t j = 0; j <= 1u << k; j++)
            tables[k][j] = (uint32_t)library_plain_node(k, images[k], lengths[k], j).value;
    }
}

uint64_t drawn(void)
{
    static uint64_t state = 88172645463325252u;
    state ^= state << 13;
    state ^= state >> 7;
    state ^= state << 17;
    return state * 2685821657736338717u;
}

uint64_t drawn_operand(uint32_t n)
{
    return (uint64_t)1 << n | drawn() >> 1 >> (63 - n);
}
