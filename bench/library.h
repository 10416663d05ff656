// The library's calls as the C here has its own: a precision in and a prefix for each form, or a format in; an answer
// out; those through a bound table too. They are inlined, so that what is called and timed is the library's own
// function.
#ifndef LIBRARY_H
#define LIBRARY_H
#include "calls.h"

yildegga_node_read yildegga_bound_node(yildegga_format format, const uint8_t *image, size_t length, uint32_t j);
yildegga_reciprocal_given yildegga_bound_reciprocal(yildegga_format format, const uint8_t *image, size_t length, uint32_t n, uint64_t x);

#define READ(prefix, node, reciprocal, type, format)                                                                      \
    static inline answer JOIN(prefix, node)(type t, const uint8_t *image, size_t length, uint32_t j)                      \
    {                                                                                                                     \
        yildegga_node_read a = JOIN(yildegga, node)(format(t), image, length, j);                                         \
        return (answer){a.number, a.place, a.value.count};                                                                \
    }                                                                                                                     \
    static inline answer JOIN(prefix, reciprocal)(type t, const uint8_t *image, size_t length, uint32_t n, uint64_t x)    \
    {                                                                                                                     \
        yildegga_reciprocal_given a = JOIN(yildegga, reciprocal)(format(t), image, length, n, x);                         \
        return (answer){a.number, a.place, a.value.count};                                                                \
    }
#define WHOLE(prefix, type, format)                                                                 \
    static inline answer JOIN(prefix, build)(type t, uint8_t *image, size_t length)                 \
    {                                                                                               \
        yildegga_done a = yildegga_build(format(t), image, length);                                 \
        return (answer){a.number, a.place, a.value};                                                \
    }                                                                                               \
    static inline answer JOIN(prefix, check)(type t, const uint8_t *image, size_t length)           \
    {                                                                                               \
        yildegga_done a = yildegga_check(format(t), image, length);                                 \
        return (answer){a.number, a.place, a.value};                                                \
    }
#define AS_IT_IS(format) format

WHOLE(library_plain, uint32_t, YILDEGGA_PLAIN)
WHOLE(library_full, uint32_t, YILDEGGA_FULL)
WHOLE(library_any, yildegga_format, AS_IT_IS)
READ(library_plain, node, reciprocal, uint32_t, YILDEGGA_PLAIN)
READ(library_full, node, reciprocal, uint32_t, YILDEGGA_FULL)
READ(library_any, node, reciprocal, yildegga_format, AS_IT_IS)
READ(library_plain, bound_node, bound_reciprocal, uint32_t, YILDEGGA_PLAIN)
READ(library_full, bound_node, bound_reciprocal, uint32_t, YILDEGGA_FULL)
READ(library_any, bound_node, bound_reciprocal, yildegga_format, AS_IT_IS)

#endif
