// The calls that are compared: one interface under several prefixes. For two table guard bits and three input guard
// bits it takes a precision and has the calls once for each form; for any guard bits it takes a format, as the library
// does. An answer has the 24 bytes of the library's own structs. The library's calls are under these prefixes in
// library.h.
#ifndef CALLS_H
#define CALLS_H
#include <stddef.h>
#include <stdint.h>
#include <yildegga.h>

typedef struct {
    uint32_t number;
    uint64_t place;
    uint64_t value;
} answer;

#define JOIN_(a, b) a##_##b
#define JOIN(a, b) JOIN_(a, b)

#define CALLS_ON(table, prefix)                                                           \
    answer JOIN(prefix, build)(table, uint8_t *image, size_t length);                     \
    answer JOIN(prefix, check)(table, const uint8_t *image, size_t length);               \
    answer JOIN(prefix, node)(table, const uint8_t *image, size_t length, uint32_t j);    \
    answer JOIN(prefix, reciprocal)(table, const uint8_t *image, size_t length, uint32_t n, uint64_t x)
#define CALLS(prefix) CALLS_ON(uint32_t k, prefix)
#define GENERAL_CALLS(prefix) CALLS_ON(yildegga_format format, prefix)

#ifdef PREFIX
// Within careful.c, bytewise.c and general.c, which are compiled once for each level.
#define CALL(name) JOIN(PREFIX, name)
#ifdef GENERAL
GENERAL_CALLS(PREFIX);
#else
CALLS(PREFIX);
CALLS(JOIN(PREFIX, full));
#endif
#else
GENERAL_CALLS(general_O2);
GENERAL_CALLS(general_O3);
CALLS(careful_O2);
CALLS(careful_O3);
CALLS(bytewise_O2);
CALLS(bytewise_O3);
CALLS(careful_O2_full);
CALLS(careful_O3_full);
#endif

#endif
