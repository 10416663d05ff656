// Calls each contestant a number of times, for callgrind to count their instructions: count FORM A B CALL K N CALLS
// LENGTH, of a table of A table guard bits and B input guard bits, on operands of N fraction bits, on a buffer of
// LENGTH bytes, or of the image's length where that is longer. General C takes part with other guard bits than 2 and 3,
// and the other C with these.
#include "given.h"
#include "library.h"
#include <stdbool.h>
#include <stdlib.h>
#include <string.h>

static uint8_t rom[1 << 16];
static volatile uint64_t sink;

#define EACH(call, ...)                                          \
    do {                                                         \
        if (any) {                                               \
            sink = library_any_##call(format, __VA_ARGS__).value;    \
            sink = general_O2_##call(format, __VA_ARGS__).value; \
            sink = general_O3_##call(format, __VA_ARGS__).value; \
        } else if (full) {                                       \
            sink = library_full_##call(k, __VA_ARGS__).value;    \
            sink = careful_O2_full_##call(k, __VA_ARGS__).value; \
            sink = careful_O3_full_##call(k, __VA_ARGS__).value; \
        } else {                                                 \
            sink = library_plain_##call(k, __VA_ARGS__).value;   \
            sink = careful_O2_##call(k, __VA_ARGS__).value;      \
            sink = careful_O3_##call(k, __VA_ARGS__).value;      \
            sink = bytewise_O2_##call(k, __VA_ARGS__).value;     \
        }                                                        \
    } while (0)
#define BOUND(call, ...) sink = library_any_bound_##call(format, __VA_ARGS__).value

int main(int argc, char **argv)
{
    if (argc != 9)
        return 2;
    bool full = strcmp(argv[1], "full") == 0;
    uint32_t a = (uint32_t)atoi(argv[2]), b = (uint32_t)atoi(argv[3]), k = (uint32_t)atoi(argv[5]), n = (uint32_t)atoi(argv[6]);
    bool any = a != 2 || b != 3;
    const char *call = argv[4];
    int calls = atoi(argv[7]);
    yildegga_format format = YILDEGGA_TABLE(k, full, a, b);
    size_t length = YILDEGGA_TABLE_IMAGE_LENGTH(k, full, a), asked = (size_t)atoi(argv[8]);
    if (length < asked)
        length = asked;
    if (sizeof rom < length)
        return 2;
    if (strcmp(call, "build") == 0) {
        for (int s = 0; s < calls; s++)
            EACH(build, rom, length);
        return 0;
    }
    // The image is built by C in a function that is not counted here, and no other call is made but the counted ones.
    general_O2_build(format, rom, length);
    for (int s = 0; s < calls; s++) {
        uint64_t x = drawn_operand(n);
        if (strcmp(call, "check") == 0) {
            EACH(check, rom, length);
        } else if (strcmp(call, "node") == 0) {
            uint32_t j = (uint32_t)(x >> (n - k)) - (1u << k);
            EACH(node, rom, length, j);
            BOUND(node, rom, length, j);
        } else {
            EACH(reciprocal, rom, length, n, x);
            BOUND(reciprocal, rom, length, n, x);
        }
    }
    return 0;
}
