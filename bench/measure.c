// Times the library's calls beside the same calls in C and beside what a user would take instead. The contestants of a
// case run in turns, round after round, on new operands in each. Of a contestant the least time is printed; a ratio is
// the median of the rounds' ratios.
#define _POSIX_C_SOURCE 200809L
#include "given.h"
#include "library.h"
#include "otherwise.h"
#include "tails.h"
#include "trusting.h"
#include <stdio.h>
#include <stdlib.h>
#include <string.h>
#include <time.h>
#include <xmmintrin.h>

enum { OPERANDS = 1 << 14, ROUNDS = 300, MOST = 9 };

// What the calls of a case are given, and where their answers go, so that none can be left out.
static uint32_t k, n, ns[OPERANDS];
static uint64_t xs[OPERANDS];
static uint32_t js[OPERANDS];
static float ys[OPERANDS];
static kept_table table;
static volatile uint64_t sink, zero;

static void give(int s, uint64_t x)
{
    xs[s] = x;
    js[s] = (uint32_t)(x >> (n - k)) - (1u << k);
    ys[s] = n < 23 ? (float)x / (float)(1 << n) : (float)(x >> (n - 23)) / (float)(1 << 23);
}

static void at_random(void)
{
    for (int s = 0; s < OPERANDS; s++)
        give(s, drawn_operand(n));
}

static void in_sequence(void)
{
    uint64_t from = drawn(), leading = (uint64_t)1 << n;
    for (int s = 0; s < OPERANDS; s++)
        give(s, leading | ((from + (uint64_t)s) & (leading - 1)));
}

// Operands of any length: each has fraction bits of its own, as many as are drawn.
static void of_any_length(void)
{
    for (int s = 0; s < OPERANDS; s++) {
        ns[s] = 1 + (uint32_t)(drawn() % 63);
        xs[s] = drawn_operand(ns[s]);
    }
}

// A pass makes its calls and gives how many they were. The calls of `name` stand alone; each of `name_in_turn` waits
// for the answer before it.
typedef long pass(void);

#define PASSES(name, type, taken, call)                       \
    static long name(void)                                    \
    {                                                         \
        uint64_t sum = 0;                                     \
        for (int s = 0; s < OPERANDS; s++) {                  \
            uint64_t x = xs[s];                               \
            type a = call;                                    \
            sum += taken;                                     \
        }                                                     \
        sink = sum;                                           \
        return OPERANDS;                                      \
    }                                                         \
    __attribute__((unused)) static long name##_in_turn(void)  \
    {                                                         \
        uint64_t none = zero, last = 0;                       \
        for (int s = 0; s < OPERANDS; s++) {                  \
            uint64_t x = xs[s] ^ (last & none);               \
            type a = call;                                    \
            last = taken;                                     \
        }                                                     \
        sink = last;                                          \
        return OPERANDS;                                      \
    }
// The image of precision k that a call is lent.
#define PLAIN images[k], lengths[k]
#define FULL full_images[k], full_lengths[k]

#define NODES(name, call, lent)                \
    static long name##_node(void)              \
    {                                          \
        uint64_t sum = 0;                      \
        for (int s = 0; s < OPERANDS; s++) {   \
            answer a = call(k, lent, js[s]);   \
            sum += a.value ^ a.number;         \
        }                                      \
        sink = sum;                            \
        return OPERANDS;                       \
    }
#define ANSWERED(name, call, lent) PASSES(name, answer, a.value ^ a.number, call(k, lent, n, x))
#define MIXED(name, call, lent) PASSES(name##_mixed, answer, a.value ^ a.number, call(k, lent, ns[s], x))
#define TRUSTED(name, call) PASSES(name, uint64_t, a, call)

ANSWERED(library, library_plain_reciprocal, PLAIN)
ANSWERED(bound, library_plain_bound_reciprocal, PLAIN)
ANSWERED(careful_2, careful_O2_reciprocal, PLAIN)
ANSWERED(careful_3, careful_O3_reciprocal, PLAIN)
ANSWERED(bytewise_2, bytewise_O2_reciprocal, PLAIN)
ANSWERED(bytewise_3, bytewise_O3_reciprocal, PLAIN)
ANSWERED(apart, apart_reciprocal, PLAIN)
ANSWERED(full_library, library_full_reciprocal, FULL)
ANSWERED(full_bound, library_full_bound_reciprocal, FULL)
ANSWERED(full_careful_2, careful_O2_full_reciprocal, FULL)
ANSWERED(full_careful_3, careful_O3_full_reciprocal, FULL)
MIXED(library, library_plain_reciprocal, PLAIN)
MIXED(bound, library_plain_bound_reciprocal, PLAIN)
MIXED(careful_2, careful_O2_reciprocal, PLAIN)
MIXED(careful_3, careful_O3_reciprocal, PLAIN)
MIXED(bytewise_2, bytewise_O2_reciprocal, PLAIN)
MIXED(bytewise_3, bytewise_O3_reciprocal, PLAIN)
MIXED(full_library, library_full_reciprocal, FULL)
MIXED(full_bound, library_full_bound_reciprocal, FULL)
MIXED(full_careful_2, careful_O2_full_reciprocal, FULL)
MIXED(full_careful_3, careful_O3_full_reciprocal, FULL)
NODES(library, library_plain_node, PLAIN)
NODES(bound, library_plain_bound_node, PLAIN)
NODES(careful_2, careful_O2_node, PLAIN)
NODES(careful_3, careful_O3_node, PLAIN)
NODES(bytewise_2, bytewise_O2_node, PLAIN)
NODES(bytewise_3, bytewise_O3_node, PLAIN)
NODES(full_library, library_full_node, FULL)
NODES(full_bound, library_full_bound_node, FULL)
NODES(full_careful_2, careful_O2_full_node, FULL)
NODES(full_careful_3, careful_O3_full_node, FULL)
PASSES(kept, answer, a.value ^ a.number, kept_reciprocal(&table, n, x))
TRUSTED(packed, trusting_packed(k, images[k], n, x))
TRUSTED(flat, trusting_flat(k, tables[k], n, x))
TRUSTED(divided, trusting_divided(k, n, x))
TRUSTED(divided_inline, ((uint64_t)1 << (4 * k + 4)) / (x >> (n - 2 * k - 3)))

static long floated(void)
{
    float sum = 0;
    for (int s = 0; s < OPERANDS; s++)
        sum += trusting_float(ys[s]);
    sink = (uint64_t)sum;
    return OPERANDS;
}

static long floated_in_turn(void)
{
    __m128 none = _mm_set1_ps((float)zero), last = none;
    for (int s = 0; s < OPERANDS; s++)
        last = _mm_set_ss(trusting_float(_mm_cvtss_f32(_mm_xor_ps(_mm_set_ss(ys[s]), _mm_and_ps(last, none)))));
    sink = (uint64_t)_mm_cvtss_f32(last);
    return OPERANDS;
}

// Building and checking at precision k, and building all twelve in a row.
static uint8_t built[FULL_LONGEST];

#define BUILDS(name, prefix, lengths)                                      \
    static long name##_builds_all(void)                                    \
    {                                                                      \
        for (uint32_t each = LEAST; each <= GREATEST; each++)              \
            sink = JOIN(prefix, build)(each, built, lengths[each]).number; \
        return 1;                                                          \
    }                                                                      \
    __attribute__((unused)) static long name##_builds(void)                \
    {                                                                      \
        for (int s = 0; s < 4; s++)                                        \
            sink = JOIN(prefix, build)(k, built, lengths[k]).number;       \
        return 4;                                                          \
    }
#define CHECKS(name, prefix, lent)                       \
    static long name##_checks(void)                      \
    {                                                    \
        for (int s = 0; s < 4; s++)                      \
            sink = JOIN(prefix, check)(k, lent).number;  \
        return 4;                                        \
    }
BUILDS(library, library_plain, lengths)
BUILDS(careful_2, careful_O2, lengths)
BUILDS(careful_3, careful_O3, lengths)
BUILDS(bytewise_2, bytewise_O2, lengths)
BUILDS(bytewise_3, bytewise_O3, lengths)
BUILDS(pairs, pairs, lengths)
BUILDS(doubles, doubles, lengths)
BUILDS(judged, judged, lengths)
BUILDS(full_library, library_full, full_lengths)
BUILDS(full_careful_2, careful_O2_full, full_lengths)
BUILDS(full_careful_3, careful_O3_full, full_lengths)
BUILDS(full_judged, judged_full, full_lengths)
CHECKS(library, library_plain, PLAIN)
CHECKS(careful_2, careful_O2, PLAIN)
CHECKS(careful_3, careful_O3, PLAIN)
CHECKS(bytewise_2, bytewise_O2, PLAIN)
CHECKS(bytewise_3, bytewise_O3, PLAIN)
CHECKS(full_library, library_full, FULL)
CHECKS(full_careful_2, careful_O2_full, FULL)
CHECKS(full_careful_3, careful_O3_full, FULL)

// The library beside general C: the table that is asked for, and its image.
static yildegga_format ordered;
static uint8_t ordered_image[YILDEGGA_ANY_LONGEST_IMAGE], ordered_built[YILDEGGA_ANY_LONGEST_IMAGE];
static size_t ordered_length;

#define ORDERED ordered_image, ordered_length
#define ANY(name, prefix)                                                                          \
    static long name##_builds(void)                                                                \
    {                                                                                              \
        for (int s = 0; s < 4; s++)                                                                \
            sink = JOIN(prefix, build)(ordered, ordered_built, ordered_length).number;             \
        return 4;                                                                                  \
    }                                                                                              \
    static long name##_checks(void)                                                                \
    {                                                                                              \
        for (int s = 0; s < 4; s++)                                                                \
            sink = JOIN(prefix, check)(ordered, ORDERED).number;                                   \
        return 4;                                                                                  \
    }                                                                                              \
    static long name##_node(void)                                                                  \
    {                                                                                              \
        uint64_t sum = 0;                                                                          \
        for (int s = 0; s < OPERANDS; s++) {                                                       \
            answer a = JOIN(prefix, node)(ordered, ORDERED, js[s]);                                \
            sum += a.value ^ a.number;                                                             \
        }                                                                                          \
        sink = sum;                                                                                \
        return OPERANDS;                                                                           \
    }                                                                                              \
    PASSES(name, answer, a.value ^ a.number, JOIN(prefix, reciprocal)(ordered, ORDERED, n, x))
ANY(any_library, library_any)
ANY(any_general_2, general_O2)
ANY(any_general_3, general_O3)

// Full ROMs of precision 8, in one buffer: each pass builds or checks the first `rom_length` bytes, or the image alone,
// or has the tail alone.
enum { ROM_K = 8, ROM_MOST = 1 << 24 };
static uint8_t rom[ROM_MOST];
static size_t rom_length;
static int rom_calls;

#define ROM_PASS(name, call)                \
    static long name(void)                  \
    {                                       \
        for (int s = 0; s < rom_calls; s++) \
            call;                           \
        return rom_calls;                   \
    }
#define ROMS(name, prefix)                                                                 \
    ROM_PASS(name##_builds_rom, sink = JOIN(prefix, build)(ROM_K, rom, rom_length).number) \
    ROM_PASS(name##_checks_rom, sink = JOIN(prefix, check)(ROM_K, rom, rom_length).number)
#define IMAGES(name, prefix)                                                                     \
    ROM_PASS(name##_builds_image, sink = JOIN(prefix, build)(ROM_K, rom, lengths[ROM_K]).number) \
    ROM_PASS(name##_checks_image, sink = JOIN(prefix, check)(ROM_K, rom, lengths[ROM_K]).number)
ROMS(library, library_plain)
IMAGES(library, library_plain)
ROMS(careful_2, careful_O2)
IMAGES(careful_2, careful_O2)
ROMS(careful_3, careful_O3)
ROM_PASS(zeros, tail_zeros(rom, lengths[ROM_K], rom_length))
ROM_PASS(reads, sink = tail_read(rom, lengths[ROM_K], rom_length))

static double now(void)
{
    struct timespec t;
    clock_gettime(CLOCK_MONOTONIC, &t);
    return (double)t.tv_sec * 1e9 + (double)t.tv_nsec;
}

static int by_size(const void *a, const void *b)
{
    double u = *(const double *)a, v = *(const double *)b;
    return (u > v) - (u < v);
}

static int rounds = ROUNDS;

static double middle(double *of)
{
    qsort(of, (size_t)rounds, sizeof(double), by_size);
    return of[rounds / 2];
}

// Of each contestant: nanoseconds of a call, the least and the median of the rounds, and how many times its time the
// first one takes.
static struct {
    double least, median, ratio;
} result[MOST];

static double taken[MOST][ROUNDS], ratios[ROUNDS];

static void run_rounds(void (*draw)(void), int count, pass *const *passes)
{
    for (int r = -2; r < rounds; r++) {
        if (draw)
            draw();
        for (int c = 0; c < count; c++) {
            double from = now();
            long calls = passes[c]();
            double to = now();
            if (0 <= r)
                taken[c][r] = (to - from) / (double)calls;
        }
    }
}

static void compare(int count)
{
    for (int c = count - 1; 0 <= c; c--) {
        for (int r = 0; r < rounds; r++)
            ratios[r] = taken[0][r] / taken[c][r];
        result[c].ratio = middle(ratios);
        result[c].median = middle(taken[c]);
        result[c].least = taken[c][0];
    }
}

static void contest(void (*draw)(void), int count, pass *const *passes)
{
    run_rounds(draw, count, passes);
    compare(count);
}

#define CONTEST(draw, ...) contest(draw, (int)(sizeof((pass *[]){__VA_ARGS__}) / sizeof(pass *)), (pass *[]){__VA_ARGS__})

// The library and four in C: careful at -O2 and -O3, byte by byte at -O2 and -O3.
static void five_head(const char *unit)
{
    printf("\n%-36s %8s %8s %8s %8s %9s %9s  %9s %9s\n", unit, "library", "(median)", "C -O2", "C -O3", "bytes -O2", "bytes -O3", "lib:C -O2", "lib:C -O3");
}

static void five_row(const char *name, double scale)
{
    printf("%-36s %8.2f %8.2f %8.2f %8.2f %9.2f %9.2f  %9.2f %9.2f\n", name, result[0].least * scale, result[0].median * scale, result[1].least * scale,
           result[2].least * scale, result[3].least * scale, result[4].least * scale, result[1].ratio, result[2].ratio);
}

static void reciprocals(uint32_t precision, const char *order, uint32_t fraction_bits, void (*draw)(void))
{
    char name[64];
    k = precision;
    n = fraction_bits;
    snprintf(name, sizeof name, "reciprocal, k = %u, %s", k, order);
    CONTEST(draw, library, careful_2, careful_3, bytewise_2, bytewise_3);
    five_row(name, 1);
    CONTEST(draw, bound, careful_2, careful_3, bytewise_2, bytewise_3);
    five_row("  through the bound table", 1);
    CONTEST(draw, library_in_turn, careful_2_in_turn, careful_3_in_turn, bytewise_2_in_turn, bytewise_3_in_turn);
    five_row("  in turn", 1);
}

static void mixed_reciprocals(uint32_t precision)
{
    char name[64];
    k = precision;
    snprintf(name, sizeof name, "reciprocal, k = %u, n and X random", k);
    CONTEST(of_any_length, library_mixed, careful_2_mixed, careful_3_mixed, bytewise_2_mixed, bytewise_3_mixed);
    five_row(name, 1);
    CONTEST(of_any_length, bound_mixed, careful_2_mixed, careful_3_mixed, bytewise_2_mixed, bytewise_3_mixed);
    five_row("  through the bound table", 1);
    CONTEST(of_any_length, library_mixed_in_turn, careful_2_mixed_in_turn, careful_3_mixed_in_turn, bytewise_2_mixed_in_turn,
            bytewise_3_mixed_in_turn);
    five_row("  in turn", 1);
}

static void same_algorithm(void)
{
    printf("\nThe same algorithm with the same checks in C\n");
    five_head("microseconds");
    CONTEST(NULL, library_builds_all, careful_2_builds_all, careful_3_builds_all, bytewise_2_builds_all, bytewise_3_builds_all);
    five_row("build, all twelve images in a row", 1e-3);
    k = 12;
    CONTEST(NULL, library_checks, careful_2_checks, careful_3_checks, bytewise_2_checks, bytewise_3_checks);
    five_row("check, k = 12", 1e-3);
    five_head("nanoseconds a call");
    for (uint32_t precision = 8; precision <= 12; precision += 4) {
        reciprocals(precision, "random", 63, at_random);
        reciprocals(precision, "sequential", 2 * precision + 3, in_sequence);
    }
    reciprocals(12, "n = 23, random", 23, at_random);
    mixed_reciprocals(12);
    n = 63;
    CONTEST(at_random, library_node, careful_2_node, careful_3_node, bytewise_2_node, bytewise_3_node);
    five_row("node, k = 12, random", 1);
    CONTEST(at_random, bound_node, careful_2_node, careful_3_node, bytewise_2_node, bytewise_3_node);
    five_row("  through the bound table", 1);
}

// The library and careful C at -O2 and -O3, all in the full form.
static void three_head(const char *unit)
{
    printf("\n%-36s %8s %8s %8s %8s  %9s %9s\n", unit, "library", "(median)", "C -O2", "C -O3", "lib:C -O2", "lib:C -O3");
}

static void three_row(const char *name, double scale)
{
    printf("%-36s %8.2f %8.2f %8.2f %8.2f  %9.2f %9.2f\n", name, result[0].least * scale, result[0].median * scale, result[1].least * scale,
           result[2].least * scale, result[1].ratio, result[2].ratio);
}

static void full_reciprocals(uint32_t precision, const char *order, uint32_t fraction_bits, void (*draw)(void))
{
    char name[64];
    k = precision;
    n = fraction_bits;
    snprintf(name, sizeof name, "reciprocal, k = %u, %s", k, order);
    CONTEST(draw, full_library, full_careful_2, full_careful_3);
    three_row(name, 1);
    CONTEST(draw, full_bound, full_careful_2, full_careful_3);
    three_row("  through the bound table", 1);
    CONTEST(draw, full_library_in_turn, full_careful_2_in_turn, full_careful_3_in_turn);
    three_row("  in turn", 1);
}

static void full_words(void)
{
    printf("\nFull words: the same algorithm with the same checks in C of this form\n");
    three_head("microseconds");
    CONTEST(NULL, full_library_builds_all, full_careful_2_builds_all, full_careful_3_builds_all);
    three_row("build, all twelve images in a row", 1e-3);
    for (k = 8; k <= 12; k += 4) {
        char name[64];
        snprintf(name, sizeof name, "check, k = %u", k);
        CONTEST(NULL, full_library_checks, full_careful_2_checks, full_careful_3_checks);
        three_row(name, 1e-3);
    }
    three_head("nanoseconds a call");
    for (uint32_t precision = 8; precision <= 12; precision += 4) {
        full_reciprocals(precision, "random", 63, at_random);
        full_reciprocals(precision, "sequential", 2 * precision + 3, in_sequence);
    }
    full_reciprocals(12, "n = 23, random", 23, at_random);
    CONTEST(of_any_length, full_library_mixed, full_careful_2_mixed, full_careful_3_mixed);
    three_row("reciprocal, k = 12, n and X random", 1);
    CONTEST(of_any_length, full_bound_mixed, full_careful_2_mixed, full_careful_3_mixed);
    three_row("  through the bound table", 1);
    CONTEST(of_any_length, full_library_mixed_in_turn, full_careful_2_mixed_in_turn, full_careful_3_mixed_in_turn);
    three_row("  in turn", 1);
    n = 63;
    CONTEST(at_random, full_library_node, full_careful_2_node, full_careful_3_node);
    three_row("node, k = 12, random", 1);
    CONTEST(at_random, full_bound_node, full_careful_2_node, full_careful_3_node);
    three_row("  through the bound table", 1);
}

static void any_row(const char *call)
{
    char name[64];
    snprintf(name, sizeof name, "%s, k = %u", call, k);
    three_row(name, 1);
}

// Precision, form and guard bits are known at run time alone, in the library and in C.
static void any_table(uint32_t form, uint32_t a, uint32_t b)
{
    char unit[64];
    snprintf(unit, sizeof unit, "%s, a = %u, b = %u, nanoseconds", form == YILDEGGA_PLAIN_WORDS ? "plain" : "full", a, b);
    three_head(unit);
    n = 63;
    for (k = 4; k <= GREATEST; k += 4) {
        ordered = YILDEGGA_TABLE(k, form, a, b);
        ordered_length = YILDEGGA_TABLE_IMAGE_LENGTH(k, form, a);
        library_any_build(ordered, ordered_image, ordered_length);
        CONTEST(NULL, any_library_builds, any_general_2_builds, any_general_3_builds);
        any_row("build");
        CONTEST(NULL, any_library_checks, any_general_2_checks, any_general_3_checks);
        any_row("check");
        CONTEST(at_random, any_library_node, any_general_2_node, any_general_3_node);
        any_row("node");
        CONTEST(at_random, any_library, any_general_2, any_general_3);
        any_row("reciprocal");
        CONTEST(at_random, any_library_in_turn, any_general_2_in_turn, any_general_3_in_turn);
        three_row("  in turn", 1);
    }
}

static void other_guard_bits(void)
{
    printf("\nOther guard bits: the same algorithm with the same checks in C that takes every table, random operands\n");
    for (uint32_t form = YILDEGGA_PLAIN_WORDS; form <= YILDEGGA_FULL_WORDS; form++) {
        any_table(form, 3, 4);
        any_table(form, 4, 5);
    }
}

// The tail alone in each round, what the long buffer takes more than the image, as a ratio to the last contestant: its
// median.
static double tail_ratio(int rom_pass, int image_pass, int alone)
{
    for (int r = 0; r < rounds; r++)
        ratios[r] = (taken[rom_pass][r] - taken[image_pass][r]) / taken[alone][r];
    return middle(ratios);
}

enum { ROM_PASSES = 6 };

// The first three passes have the long buffer, the library and C at -O2 and -O3; the next two the image alone, the
// library and C at -O2; the last one the tail alone. The longest buffer gets fewer rounds, of one call each.
static void rom_row(const char *name, size_t length, pass *const *passes)
{
    static const double scale = 1e-3;
    rom_length = length;
    rom_calls = length < ROM_MOST ? 8 : 1;
    rounds = length < ROM_MOST ? ROUNDS : ROUNDS / 5;
    run_rounds(NULL, ROM_PASSES, passes);
    double library_tail = tail_ratio(0, 3, 5), c_tail = tail_ratio(1, 4, 5);
    compare(ROM_PASSES);
    printf("%-24s %9.2f %9.2f %9.2f %9.2f  %9.2f %9.2f", name, result[0].least * scale, result[0].median * scale, result[1].least * scale,
           result[2].least * scale, result[1].ratio, result[2].ratio);
    if (length == lengths[ROM_K])
        printf("\n");
    else
        printf("   %9.2f %9.2f %9.2f\n", result[5].least * scale, library_tail, c_tail);
    rounds = ROUNDS;
}

static void full_roms(void)
{
    static pass *const builds[ROM_PASSES] = {library_builds_rom,   careful_2_builds_rom,   careful_3_builds_rom,
                                             library_builds_image, careful_2_builds_image, zeros};
    static pass *const checks[ROM_PASSES] = {library_checks_rom,   careful_2_checks_rom,   careful_3_checks_rom,
                                             library_checks_image, careful_2_checks_image, reads};
    printf("\nFull ROMs, k = %d. A tail is what the buffer takes more than its image, beside memset and beside C's reading by 8 bytes\n\n", ROM_K);
    printf("%-24s %9s %9s %9s %9s  %9s %9s   %9s %9s %9s\n", "microseconds", "library", "(median)", "C -O2", "C -O3", "lib:C -O2", "lib:C -O3",
           "tail in C", "lib:tail", "C:tail");
    memset(rom, 165, sizeof rom);
    rom_row("build, 576 bytes", lengths[ROM_K], builds);
    rom_row("build, 64 KiB", 1 << 16, builds);
    rom_row("build, 16 MiB", ROM_MOST, builds);
    rom_row("check, 576 bytes", lengths[ROM_K], checks);
    rom_row("check, 64 KiB", 1 << 16, checks);
    rom_row("check, 16 MiB", ROM_MOST, checks);
}

static void instead(uint32_t precision)
{
    static const char *const names[] = {"library, all checks",          "C, all checks",           "C, all checks, kept constants",
                                        "C, all checks, each k apart",  "C, trusted packed image", "C, trusted flat table",
                                        "64-bit division, called",      "64-bit division, in the loop", "1.0f / x, called"};
    struct {
        double least, ratio;
    } alone[MOST];
    k = precision;
    n = 63;
    table = kept_bind(k, images[k], lengths[k]);
    CONTEST(at_random, library, careful_2, kept, apart, packed, flat, divided, divided_inline, floated);
    for (int c = 0; c < MOST; c++) {
        alone[c].least = result[c].least;
        alone[c].ratio = result[c].ratio;
    }
    CONTEST(at_random, library_in_turn, careful_2_in_turn, kept_in_turn, apart_in_turn, packed_in_turn, flat_in_turn, divided_in_turn,
            divided_inline_in_turn, floated_in_turn);
    printf("\nWhat a user would take instead, k = %u, random operands, C at -O2\n\n%-32s %9s %11s   %9s %11s\n", k, "nanoseconds a call", "alone",
           "library:it", "in turn", "library:it");
    for (int c = 0; c < MOST; c++)
        printf("%-32s %9.2f %11.2f   %9.2f %11.2f\n", names[c], alone[c].least, alone[c].ratio, result[c].least, result[c].ratio);
}

// Beside two of the ratios stands what they were to be at most when the builder was made faster. In the full form the
// first three ways are measured.
static void otherwise_built(void)
{
    static const struct {
        const char *name, *most;
    } ways[] = {{"library", ""},
                {"C, a division for each node", "0.70"},
                {"C, doubles, each guess judged", "1.10"},
                {"C, a division for two nodes", ""},
                {"C, a division of doubles", ""}};
    CONTEST(NULL, library_builds_all, careful_2_builds_all, judged_builds_all, pairs_builds_all, doubles_builds_all);
    printf("\nBuilding all twelve images in other ways, C at -O2\n\n%-32s %9s %11s %8s\n", "microseconds", "", "library:it", "at most");
    for (size_t c = 0; c < sizeof ways / sizeof ways[0]; c++)
        printf("%-32s %9.2f %11.2f %8s\n", ways[c].name, result[c].least * 1e-3, result[c].ratio, ways[c].most);
    CONTEST(NULL, full_library_builds_all, full_careful_2_builds_all, full_judged_builds_all);
    for (size_t c = 0; c < 3; c++)
        printf("%-32s %9.2f %11.2f\n", c ? ways[c].name : "library, full words", result[c].least * 1e-3, result[c].ratio);
}

// Each list of contestants begins with the library.
static void growth(const char *form, pass *const *nodes, pass *const *inversions, pass *const *builds, pass *const *checks)
{
    printf("\nHow the cost grows with k, %s words, random operands; C is the careful one at -O2, judged the one that judges guesses by doubles\n\n", form);
    printf("    %-22s   %-22s   %-37s   %-22s\n", "node, millions a s", "reciprocal, millions", "build, ns a node", "check, ns a node");
    printf("%2s", "k");
    for (int c = 0; c < 4; c++) {
        printf("   %7s %7s %6s", "library", "C", "lib:C");
        if (c == 2) // build
            printf(" %7s %6s", "judged", "lib:it");
    }
    printf("\n");
    for (k = LEAST; k <= GREATEST; k++) {
        double words = (double)(1u << k);
        n = 63;
        printf("%2u", k);
        contest(at_random, 2, nodes);
        printf("   %7.1f %7.1f %6.2f", 1e3 / result[0].least, 1e3 / result[1].least, result[1].ratio);
        contest(at_random, 2, inversions);
        printf("   %7.1f %7.1f %6.2f", 1e3 / result[0].least, 1e3 / result[1].least, result[1].ratio);
        contest(NULL, 3, builds);
        printf("   %7.2f %7.2f %6.2f", result[0].least / words, result[1].least / words, result[1].ratio);
        printf(" %7.2f %6.2f", result[2].least / words, result[2].ratio);
        contest(NULL, 2, checks);
        printf("   %7.2f %7.2f %6.2f\n", result[0].least / words, result[1].least / words, result[1].ratio);
    }
}

int main(void)
{
    setvbuf(stdout, NULL, _IOLBF, 0);
    make_images();
    same_algorithm();
    full_words();
    other_guard_bits();
    full_roms();
    instead(8);
    instead(12);
    otherwise_built();
    growth("plain", (pass *[]){library_node, careful_2_node}, (pass *[]){library, careful_2}, (pass *[]){library_builds, careful_2_builds, judged_builds},
           (pass *[]){library_checks, careful_2_checks});
    growth("full", (pass *[]){full_library_node, full_careful_2_node}, (pass *[]){full_library, full_careful_2},
           (pass *[]){full_library_builds, full_careful_2_builds, full_judged_builds}, (pass *[]){full_library_checks, full_careful_2_checks});
    return 0;
}
