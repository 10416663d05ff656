/* Yildegga: reciprocal tables, and the reciprocals taken from them, for C99 and C++.
 *
 * A table has a precision k from 1 to 12, table guard bits a from 2 to 4, and input guard bits b from 3 to 5. It has a
 * node j for each j from 0 to 2^k. The value of node j is 2^(3k+a+1) / (2^k + j), rounded up and counted in table units
 * of 1 / 2^(2k+a+1). A call is told which table by its format: YILDEGGA_PLAIN(k) or YILDEGGA_FULL(k), which have a = 2
 * and b = 3, or YILDEGGA_TABLE(k, form, a, b).
 *
 * The image of the table is words of equal width, packed in node order with the most significant bit first, in one of
 * two forms. Plain words have 2k + a bits and leave out the node's leading one, and node 2^k has none: its value is
 * implied. Full words have 2k + a + 2 bits and hold the node itself, for every node. Zero bits, the filling bits,
 * follow the last word to its byte's end: plain images have them where k = 1 and a = 3 or 4, and where k = 2 and a = 3.
 *
 * A buffer may be longer than the image: the bytes past it are its tail, and an image with zeros to the buffer's end is
 * a full ROM, in either form. yildegga_build writes one and yildegga_check asks for one; the other calls take the words
 * alone, whatever the filling bits and the tail hold.
 *
 * An operand x with n fraction bits, 1 to 63 at every k, stands for x / 2^n. The first 2k + b of them are looked at:
 * further ones are cut off, and where x has fewer, it is padded with zeros. Its reciprocal is counted in ulps of
 * 1 / 2^(2k+1), 2^a table units each, lies less than one ulp from 2^n / x, at every n, and is the same by either form.
 *
 * No call has a precondition on its numbers. What breaks a limit is turned back with the number of the first refusal
 * that applies, in the order that stands with each call, and with every lent byte left as it was. These promises are
 * proved. What the proofs cannot check is the caller's part:
 *   - `image` points to `length` bytes that belong to the caller, for writing in yildegga_build and for reading
 *     elsewhere. All of them are written where yildegga_build serves, and read where yildegga_check does. The other
 *     calls read no byte of the tail, which is tested, and no proof speaks of it.
 *   - Nothing else writes these bytes during a call, and nothing else reads them while yildegga_build writes them. The
 *     library keeps no state, so calls on other bytes, and calls that only read, may run at once in several threads.
 *   - The bytes do not overlap the object that takes the answer.
 *   - yildegga_build may raise the inexact flag of the floating-point environment: who has made that trap, as by
 *     feenableexcept, has to mask it for the call, which else ends in the trap. No call raises another flag or changes
 *     the rounding mode: this is tested, and no proof speaks of it.
 *   - NULL lends nothing. With length 0 it is turned back like any buffer that is too short, by refusal 1, 18 or 2 (no
 *     bytes are shown), and nothing is read or written through it, since every image has a byte: this is tested, and no
 *     proof speaks of it.
 *   - The archive holds code for x86-64 with the System V calling convention, the one of Linux. It calls memset of the
 *     C library, by which the compiler has yildegga_build write the zeros, and nothing else outside itself.
 */
#ifndef YILDEGGA_H
#define YILDEGGA_H

#if !defined(__x86_64__) || !defined(__LP64__) || defined(__CYGWIN__)
#error "libyildegga.a is for x86-64 with the System V calling convention"
#endif

#include <stddef.h>
#include <stdint.h>

#ifdef __cplusplus
extern "C" {
#endif

/* The version of this header and of the archive that it came with. */
#define YILDEGGA_VERSION_MAJOR 0
#define YILDEGGA_VERSION_MINOR 7
#define YILDEGGA_VERSION_PATCH 0
#define YILDEGGA_VERSION "0.7.0"

/* The numbers of an answer: served, or the refusal, in the order in which calls test for them. */
#define YILDEGGA_SERVED 0u
#define YILDEGGA_PRECISION 1u      /* k is below 1 or above 12 */
#define YILDEGGA_GUARD_BITS 18u    /* a is below 2 or above 4, or b is below 3 or above 5, also where b plays no part in
                                      the answer */
#define YILDEGGA_SHORT_BUFFER 2u   /* the buffer is shorter than the image of the format */
#define YILDEGGA_NODE_NUMBER 3u    /* j is above 2^k */
#define YILDEGGA_FRACTION_BITS 4u  /* n is below 1 or above 63 */
#define YILDEGGA_NOT_NORMALISED 5u /* x is not from 2^n to 2^(n+1) - 1 */
#define YILDEGGA_WRONG_WORD 6u     /* a word that the call reads is not the construction's: the place is the lowest
                                      such node */
#define YILDEGGA_TAIL_NOT_ZERO 7u  /* a bit behind the last word is one, a filling bit or a bit past the image: the
                                      place is the number of the lowest byte with such a bit, from 0 at the buffer's
                                      start */

/* The number of an answer in words. A number that no call answers has a text too. It is no function of the archive. */
static inline const char *yildegga_refusal_text(uint32_t number)
{
    switch (number) {
    case YILDEGGA_SERVED: return "served";
    case YILDEGGA_PRECISION: return "the precision is below 1 or above 12";
    case YILDEGGA_GUARD_BITS: return "the table guard bits are not 2 to 4, or the input guard bits not 3 to 5";
    case YILDEGGA_SHORT_BUFFER: return "the buffer is shorter than the image";
    case YILDEGGA_NODE_NUMBER: return "the node number is above 2^k";
    case YILDEGGA_FRACTION_BITS: return "the fraction bits are fewer than 1 or more than 63";
    case YILDEGGA_NOT_NORMALISED: return "the operand is not from 2^n to 2^(n+1) - 1";
    case YILDEGGA_WRONG_WORD: return "the word is not the construction's";
    case YILDEGGA_TAIL_NOT_ZERO: return "a filling bit or a byte past the image is not zero";
    default: return "no call answers this number";
    }
}

/* The limits. */
#define YILDEGGA_LEAST_PRECISION 1u
#define YILDEGGA_GREATEST_PRECISION 12u
#define YILDEGGA_LEAST_TABLE_GUARD_BITS 2u
#define YILDEGGA_GREATEST_TABLE_GUARD_BITS 4u
#define YILDEGGA_LEAST_INPUT_GUARD_BITS 3u
#define YILDEGGA_GREATEST_INPUT_GUARD_BITS 5u
#define YILDEGGA_LONGEST_IMAGE 13312u      /* bytes of plain words with two table guard bits, at precision 12 */
#define YILDEGGA_FULL_LONGEST_IMAGE 14340u /* bytes of full words with two table guard bits, at precision 12 */
#define YILDEGGA_ANY_LONGEST_IMAGE 15364u  /* the longest: full words with four table guard bits, at precision 12 */
#define YILDEGGA_LEAST_FRACTION_BITS 1u
#define YILDEGGA_MOST_FRACTION_BITS 63u

/* The forms of words. Any number but that of plain words stands for full ones. */
#define YILDEGGA_PLAIN_WORDS 0u
#define YILDEGGA_FULL_WORDS 1u

/* The limits that depend on k, and those that depend on the form and on a too, as constant expressions where what they
   depend on is constant. TABLE_IMAGE_LENGTH, the words times the bits of one, in bytes, rounded up, is 0 where k or a
   is out of range, and uses its arguments more than once; k & 15 keeps its shift from going too far. The others are for
   k and a in range alone. Input guard bits play no part in them. */
#define YILDEGGA_LAST_NODE(k) (1u << (k))
#define YILDEGGA_TABLE_UNITS_IN_ULP(a) (1u << (a))
#define YILDEGGA_TABLE_WORD_BITS(k, form, a) (2u * (k) + (a) + ((form) == YILDEGGA_PLAIN_WORDS ? 0u : 2u))
#define YILDEGGA_TABLE_WORD_COUNT(k, form) ((1u << (k)) + ((form) == YILDEGGA_PLAIN_WORDS ? 0u : 1u))
#define YILDEGGA_TABLE_IMAGE_LENGTH(k, form, a) ((k) < 1 || (k) > 12 || (a) < 2 || (a) > 4 ? 0u : \
    (YILDEGGA_TABLE_WORD_COUNT((k) & 15u, form) * YILDEGGA_TABLE_WORD_BITS(k, form, a) + 7u) / 8u)

/* Those of two table guard bits: of plain words, and with FULL of full ones. IMAGE_LENGTH(k), 2^k * (2k + 2) / 8
   bytes, is 1, 3, 8, 20, 48, 112, 256, 576, 1280, 2816, 6144 and 13312 at k = 1 to 12. FULL_IMAGE_LENGTH(k),
   (2^k + 1) * (2k + 4) / 8 bytes, rounded up, is 3, 5, 12, 26, 58, 130, 291, 643, 1411, 3075, 6660 and 14340. Both are
   0 elsewhere, and use k more than once. */
#define YILDEGGA_IMAGE_LENGTH(k) YILDEGGA_TABLE_IMAGE_LENGTH(k, YILDEGGA_PLAIN_WORDS, 2u)
#define YILDEGGA_FULL_IMAGE_LENGTH(k) YILDEGGA_TABLE_IMAGE_LENGTH(k, YILDEGGA_FULL_WORDS, 2u)
#define YILDEGGA_WORD_COUNT(k) YILDEGGA_TABLE_WORD_COUNT(k, YILDEGGA_PLAIN_WORDS)
#define YILDEGGA_FULL_WORD_COUNT(k) YILDEGGA_TABLE_WORD_COUNT(k, YILDEGGA_FULL_WORDS)
#define YILDEGGA_WORD_BITS(k) YILDEGGA_TABLE_WORD_BITS(k, YILDEGGA_PLAIN_WORDS, 2u)
#define YILDEGGA_FULL_WORD_BITS(k) YILDEGGA_TABLE_WORD_BITS(k, YILDEGGA_FULL_WORDS, 2u)

/* The table that a call is asked for. It is made by YILDEGGA_TABLE(k, form, a, b), or by YILDEGGA_PLAIN(k) or
   YILDEGGA_FULL(k), which fill in two table guard bits and three input guard bits: expressions of this type for any
   numbers of 32 bits. They are no constant expressions: in strict C an object outside a function cannot begin with
   one. */
typedef struct {
    uint32_t precision;
    uint32_t form;
    uint32_t table_guard_bits;
    uint32_t input_guard_bits;
} yildegga_format;

#ifdef __cplusplus
static inline yildegga_format yildegga_format_of(uint32_t k, uint32_t form, uint32_t a, uint32_t b)
{
    yildegga_format format = {k, form, a, b};
    return format;
}
#define YILDEGGA_TABLE(k, form, a, b) (yildegga_format_of((k), (form), (a), (b))) /* C++ has no compound literals */
#else
#define YILDEGGA_TABLE(k, form, a, b) ((yildegga_format){(k), (form), (a), (b)})
#endif
#define YILDEGGA_PLAIN(k) YILDEGGA_TABLE(k, YILDEGGA_PLAIN_WORDS, 2u, 3u)
#define YILDEGGA_FULL(k) YILDEGGA_TABLE(k, YILDEGGA_FULL_WORDS, 2u, 3u)

/* Counts of the two units are separate types, so that the one is never taken for the other. */
typedef struct { uint64_t count; } yildegga_table_units; /* 1 / 2^(2k+a+1) each */
typedef struct { uint64_t count; } yildegga_ulps;        /* 1 / 2^(2k+1) each, at every a */

/* The answers. The place is 0 except in YILDEGGA_WRONG_WORD and YILDEGGA_TAIL_NOT_ZERO; the value is 0 where the number
   is not YILDEGGA_SERVED. */
typedef struct { uint32_t number; uint64_t place; uint64_t value; } yildegga_done; /* the value is always 0 */
typedef struct { uint32_t number; uint64_t place; yildegga_table_units value; } yildegga_node_read;
typedef struct { uint32_t number; uint64_t place; yildegga_ulps value; } yildegga_reciprocal_given;

/* The bytes offset .. offset + count - 1 of the caller's image; 0 and 0 where none are shown. */
typedef struct { size_t offset; size_t count; } yildegga_part;

/* These structs are laid out as in the archive: a negative size here says that something, as #pragma pack, has changed
   that. */
typedef char yildegga_laid_out_as_in_the_archive[
    sizeof(yildegga_done) == 24 && offsetof(yildegga_done, place) == 8 && offsetof(yildegga_done, value) == 16 &&
    sizeof(yildegga_node_read) == 24 && offsetof(yildegga_node_read, place) == 8 &&
    offsetof(yildegga_node_read, value) == 16 &&
    sizeof(yildegga_reciprocal_given) == 24 && offsetof(yildegga_reciprocal_given, place) == 8 &&
    offsetof(yildegga_reciprocal_given, value) == 16 &&
    sizeof(yildegga_part) == 16 && offsetof(yildegga_part, count) == 8 &&
    sizeof(yildegga_format) == 16 && offsetof(yildegga_format, form) == 4 &&
    offsetof(yildegga_format, table_guard_bits) == 8 && offsetof(yildegga_format, input_guard_bits) == 12 ? 1 : -1];

/* The bytes of the image of a format; 0 where refusal 1 or 18 would apply. */
size_t yildegga_image_length(yildegga_format format);

/* Makes the buffer a full ROM of the format, whatever it held: the image, and zeros to the last of the `length` bytes.
   It computes with doubles, the one call that does, and judges by whole numbers what they give, so that the bytes are
   the same in every rounding mode. It leaves the mode as it is, and may raise the inexact flag.
   Refusals: 1, 18, 2. */
yildegga_done yildegga_build(yildegga_format format, uint8_t *image, size_t length);

/* Serves exactly a full ROM of the format: the image, and zeros to the last of the `length` bytes. The place of refusal
   6 is the node of the first wrong word, and that of refusal 7 the number of the first byte with a bit behind the last
   word that is not zero: where a filling bit is set, it is the image's last byte.
   Refusals: 1, 18, 2, 6, 7. */
yildegga_done yildegga_check(yildegga_format format, const uint8_t *image, size_t length);

/* The value of node j, judged by its own word alone. In the plain form node 2^k has no word and its value is implied;
   in the full form it is read like the others.
   Refusals: 1, 18, 2, 3, 6. */
yildegga_node_read yildegga_node(yildegga_format format, const uint8_t *image, size_t length, uint32_t j);

/* Node j of precision 8 with two table guard bits, from 524288 table units at node 0 down to 262144 at node 256, out of
   a list of constants in the archive; 0, which no node is, where j is above 256. It takes no image. */
yildegga_table_units yildegga_node_8(uint32_t j);

/* Where the bytes stand that hold the word of node j, right or wrong; neighbours may share the first and the last of
   them. None are shown where refusal 1, 18 or 2 would apply, or j is above 2^k - 1 in the plain form, above 2^k in the
   full one. */
yildegga_part yildegga_word_bytes(yildegga_format format, const uint8_t *image, size_t length, uint32_t j);

/* The reciprocal of x with n fraction bits, from 2^(2k) to 2^(2k+1) ulps, by the nodes on both sides of x, whose words
   are judged: all of them in the full form, all but that of node 2^k in the plain one.
   The first 2k + b fraction bits decide it, and those that x lacks count as zeros: x with just so many, cut or padded,
   is the cut operand. With the same k, a and b: at equal n a larger x never has a larger reciprocal; where the cut
   operands of two x differ by d, their reciprocals differ by at most d / 2^(b-1) ulps, rounded up, which is d / 4 with
   three input guard bits, at different n too. Both are so across nodes, and whatever images, in either form, the two
   come from.
   Refusals: 1, 18, 2, 4, 5, 6. */
yildegga_reciprocal_given yildegga_reciprocal(yildegga_format format, const uint8_t *image, size_t length, uint32_t n,
                                              uint64_t x);

#ifdef __cplusplus
}
#endif

#endif
