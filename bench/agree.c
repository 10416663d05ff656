// Whether all that is timed gives the library's answers, in both forms and with all guard bits, on images whole and
// damaged, on filling bits and tails, on operands and on refusals. General C takes part everywhere, and what knows no
// guard bits but 2 and 3 where they are these.
#include "given.h"
#include "library.h"
#include "otherwise.h"
#include "tails.h"
#include "trusting.h"
#include <stdbool.h>
#include <stdio.h>
#include <stdlib.h>
#include <string.h>
#include <xmmintrin.h>

static long cases;

// The form and the guard bits of the images on which the calls are compared, and what follows from them.
static bool full;
static uint32_t a, b;
static uint8_t made[GREATEST + 1][YILDEGGA_ANY_LONGEST_IMAGE];

static bool of_2_and_3(void)
{
    return a == 2 && b == 3;
}

static yildegga_format format_of(uint32_t k)
{
    return YILDEGGA_TABLE(k, full, a, b);
}

static uint8_t *image_of(uint32_t k)
{
    return made[k];
}

static size_t length_of(uint32_t k)
{
    return YILDEGGA_TABLE_IMAGE_LENGTH(k, full, a);
}

static uint32_t width_of(uint32_t k)
{
    return YILDEGGA_TABLE_WORD_BITS(k, full, a);
}

static uint32_t words_of(uint32_t k)
{
    return YILDEGGA_TABLE_WORD_COUNT(k, full);
}

static void agree(bool held, const char *name)
{
    if (!held) {
        printf("%s does not agree with the library, case %ld\n", name, cases);
        exit(1);
    }
}

static void same(answer library, answer other, const char *name)
{
    agree(library.number == other.number && library.place == other.place && library.value == other.value, name);
}

static void check(uint32_t k, const uint8_t *image, size_t length)
{
    cases++;
    answer r = library_any_check(format_of(k), image, length);
    same(r, general_O2_check(format_of(k), image, length), "general_O2_check");
    same(r, general_O3_check(format_of(k), image, length), "general_O3_check");
    if (of_2_and_3() && full) {
        same(r, careful_O2_full_check(k, image, length), "careful_O2_full_check");
        same(r, careful_O3_full_check(k, image, length), "careful_O3_full_check");
    } else if (of_2_and_3()) {
        same(r, careful_O2_check(k, image, length), "careful_O2_check");
        same(r, careful_O3_check(k, image, length), "careful_O3_check");
        same(r, bytewise_O2_check(k, image, length), "bytewise_O2_check");
        same(r, bytewise_O3_check(k, image, length), "bytewise_O3_check");
    }
}

static void node(uint32_t k, const uint8_t *image, size_t length, uint32_t j)
{
    cases++;
    answer r = library_any_node(format_of(k), image, length, j);
    same(r, library_any_bound_node(format_of(k), image, length, j), "yildegga_bound_node");
    same(r, general_O2_node(format_of(k), image, length, j), "general_O2_node");
    same(r, general_O3_node(format_of(k), image, length, j), "general_O3_node");
    if (of_2_and_3() && full) {
        same(r, careful_O2_full_node(k, image, length, j), "careful_O2_full_node");
        same(r, careful_O3_full_node(k, image, length, j), "careful_O3_full_node");
    } else if (of_2_and_3()) {
        same(r, careful_O2_node(k, image, length, j), "careful_O2_node");
        same(r, careful_O3_node(k, image, length, j), "careful_O3_node");
        same(r, bytewise_O2_node(k, image, length, j), "bytewise_O2_node");
        same(r, bytewise_O3_node(k, image, length, j), "bytewise_O3_node");
    }
}

static answer reciprocal(uint32_t k, const uint8_t *image, size_t length, uint32_t n, uint64_t x)
{
    cases++;
    answer r = library_any_reciprocal(format_of(k), image, length, n, x);
    same(r, library_any_bound_reciprocal(format_of(k), image, length, n, x), "yildegga_bound_reciprocal");
    same(r, general_O2_reciprocal(format_of(k), image, length, n, x), "general_O2_reciprocal");
    same(r, general_O3_reciprocal(format_of(k), image, length, n, x), "general_O3_reciprocal");
    if (of_2_and_3() && full) {
        same(r, careful_O2_full_reciprocal(k, image, length, n, x), "careful_O2_full_reciprocal");
        same(r, careful_O3_full_reciprocal(k, image, length, n, x), "careful_O3_full_reciprocal");
    } else if (of_2_and_3()) {
        same(r, careful_O2_reciprocal(k, image, length, n, x), "careful_O2_reciprocal");
        same(r, careful_O3_reciprocal(k, image, length, n, x), "careful_O3_reciprocal");
        same(r, bytewise_O2_reciprocal(k, image, length, n, x), "bytewise_O2_reciprocal");
        same(r, bytewise_O3_reciprocal(k, image, length, n, x), "bytewise_O3_reciprocal");
        kept_table table = kept_bind(k, image, length);
        same(r, kept_reciprocal(&table, n, x), "kept_reciprocal");
        same(r, apart_reciprocal(k, image, length, n, x), "apart_reciprocal");
    }
    return r;
}

static answer library_builds(uint32_t k, uint8_t *image, size_t length)
{
    return library_any_build(format_of(k), image, length);
}

static answer general_2_builds(uint32_t k, uint8_t *image, size_t length)
{
    return general_O2_build(format_of(k), image, length);
}

static answer general_3_builds(uint32_t k, uint8_t *image, size_t length)
{
    return general_O3_build(format_of(k), image, length);
}

enum { TAIL = 200 };

// What a builder, the library's too, leaves in a buffer: the image, zeros to its end, and the byte behind it as it was.
static void build(answer (*builder)(uint32_t, uint8_t *, size_t), uint32_t k, const char *name)
{
    static uint8_t other[YILDEGGA_ANY_LONGEST_IMAGE + TAIL + 1];
    memset(other, 165, sizeof other);
    agree(builder(k, other, length_of(k) - 1).number == 2 && other[0] == 165, name);
    for (size_t tail = 0; tail <= TAIL; tail++) {
        cases++;
        size_t length = length_of(k) + tail;
        memset(other, 165, sizeof other);
        agree(builder(k, other, length).number == 0, name);
        agree(memcmp(other, image_of(k), length_of(k)) == 0, name);
        for (size_t b = length_of(k); b < length; b++)
            agree(other[b] == 0, name);
        agree(other[length] == 165, name);
    }
}

// The builders that guess by doubles and judge, in each rounding mode. The default comes last, and stays.
static void build_in_modes(uint32_t k)
{
    static const unsigned modes[] = {_MM_ROUND_UP, _MM_ROUND_DOWN, _MM_ROUND_TOWARD_ZERO, _MM_ROUND_NEAREST};
    for (size_t m = 0; m < sizeof modes / sizeof modes[0]; m++) {
        _MM_SET_ROUNDING_MODE(modes[m]);
        build(library_builds, k, "yildegga_build");
        build(general_2_builds, k, "general_O2_build");
        build(general_3_builds, k, "general_O3_build");
        if (of_2_and_3())
            build(full ? judged_full_build : judged_build, k, full ? "judged_full_build" : "judged_build");
    }
}

static void builders(uint32_t k)
{
    build_in_modes(k);
    if (of_2_and_3() && full) {
        build(careful_O2_full_build, k, "careful_O2_full_build");
        build(careful_O3_full_build, k, "careful_O3_full_build");
    } else if (of_2_and_3()) {
        build(careful_O2_build, k, "careful_O2_build");
        build(careful_O3_build, k, "careful_O3_build");
        build(bytewise_O2_build, k, "bytewise_O2_build");
        build(bytewise_O3_build, k, "bytewise_O3_build");
        build(pairs_build, k, "pairs_build");
        build(doubles_build, k, "doubles_build");
    }
}

// The check on tails: of zeros, with one byte changed, with another one too, and with a wrong word as well; and the
// tail read alone.
static void tails(uint32_t k)
{
    static uint8_t rom[YILDEGGA_ANY_LONGEST_IMAGE + TAIL];
    memset(rom, 0, sizeof rom);
    memcpy(rom, image_of(k), length_of(k));
    for (size_t tail = 0; tail <= TAIL; tail += of_2_and_3() ? 1 : 11) {
        size_t length = length_of(k) + tail;
        check(k, rom, length);
        agree(tail_read(rom, length_of(k), length) == length, "tail_read");
        for (int s = 0; s < 20 && 0 < tail; s++) {
            size_t one = length_of(k) + drawn() % tail, other = length_of(k) + drawn() % tail, word = drawn() % length_of(k);
            rom[one] ^= (uint8_t)(1 << drawn() % 8);
            check(k, rom, length);
            agree(tail_read(rom, length_of(k), length) == one, "tail_read");
            rom[other] |= (uint8_t)(1 << drawn() % 8);
            check(k, rom, length);
            rom[word] ^= 64;
            check(k, rom, length);
            rom[word] ^= 64;
            rom[one] = rom[other] = 0;
        }
    }
}

// The calls where bits behind the last word are set in its byte, each alone and with all that follow it there, and then
// in the tail too.
static void filled(uint32_t k)
{
    static uint8_t rom[YILDEGGA_ANY_LONGEST_IMAGE + 1];
    uint32_t used = words_of(k) * width_of(k) % 8, last = 1u << k;
    size_t length = length_of(k);
    memcpy(rom, image_of(k), length);
    for (uint32_t bit = used; 0 < used && bit < 8; bit++) {
        uint8_t all = (uint8_t)(255 >> bit), alone = (uint8_t)(128 >> bit), right = rom[length - 1];
        for (int s = 0; s < 4; s++) {
            rom[length - 1] |= s % 2 ? all : alone;
            rom[length] = s < 2 ? 0 : alone;
            check(k, rom, length);
            check(k, rom, length + 1);
            agree(library_any_check(format_of(k), rom, length + 1).place == length - 1, "the byte of a filling bit");
            node(k, rom, length, last);
            agree(reciprocal(k, rom, length, 63, UINT64_MAX).number == 0, "a filling bit and the reciprocal");
            rom[length - 1] = right;
        }
    }
}

// The calls around a bit that was turned over.
static void damaged(uint32_t k, bool checked)
{
    uint8_t *image = image_of(k);
    size_t length = length_of(k), at = drawn() % length;
    uint8_t bit = (uint8_t)(1 << drawn() % 8);
    uint32_t count = 1u << k, j = (uint32_t)(8 * at / width_of(k));
    image[at] ^= bit;
    if (checked)
        check(k, image, length);
    for (uint32_t near = j == 0 ? 0 : j - 1; near <= j + 1 && near < count; near++) {
        node(k, image, length, near);
        reciprocal(k, image, length, 2 * k + b, (uint64_t)(count + near) << (k + b) | drawn() >> (64 - k - b));
        // A short operand: at the node, or with up to k + b - 1 bits of f.
        uint32_t more = (uint32_t)(drawn() % (k + b));
        reciprocal(k, image, length, k + more, (uint64_t)(count + near) << more | drawn() >> 1 >> (63 - more));
    }
    node(k, image, length, count);
    image[at] ^= bit;
}

// C that trusts what it is given, on the plain image, and the other form: R is the same.
static void trusted(uint32_t k, uint32_t n, uint64_t x, uint64_t r)
{
    if (!of_2_and_3())
        return;
    agree(r == trusting_packed(k, images[k], n, x), "trusting_packed");
    agree(r == trusting_flat(k, tables[k], n, x), "trusting_flat");
    agree(r + 1 - trusting_divided(k, n, x) <= 2, "trusting_divided, within an ulp");
    agree(r == library_plain_reciprocal(k, images[k], lengths[k], n, x).value, "the plain form");
}

// Guard bits of which one or both are out of range, beside precisions and buffers that are too.
static void out_of_range(void)
{
    static const uint32_t ks[] = {0, 1, 2, 12, 13}, as[] = {0, 1, 2, 4, 5, 258, 1u << 31, UINT32_MAX}, bs[] = {0, 2, 3, 5, 6, 259, 1u << 31, UINT32_MAX};
    static uint8_t image[YILDEGGA_ANY_LONGEST_IMAGE];
    for (size_t each = 0; each < 5 * 8 * 8 * 2; each++) {
        uint32_t k = ks[each / 128];
        a = as[each / 16 % 8];
        b = bs[each / 2 % 8];
        full = each % 2 == 1;
        for (size_t length = 0; length <= sizeof image; length += sizeof image) {
            answer r = library_any_build(format_of(k), image, length);
            same(r, general_O2_build(format_of(k), image, length), "general_O2_build, out of range");
            same(r, general_O3_build(format_of(k), image, length), "general_O3_build, out of range");
            check(k, image, length);
            node(k, image, length, 1);
            node(k, image, length, UINT32_MAX);
            reciprocal(k, image, length, 63, UINT64_MAX);
            reciprocal(k, image, length, 64, 0);
        }
    }
}

// All cases of a precision. They are fewer where general C alone takes part.
static void cases_of(uint32_t k)
{
    const uint8_t *image = image_of(k);
    size_t length = length_of(k);
    int most = of_2_and_3() ? 200000 : 20000;
    builders(k);
    check(k, image, length);
    check(k, image, length - 1);
    tails(k);
    filled(k);
    for (uint32_t j = 0; j <= (1u << k) + 1; j++)
        node(k, image, length, j);
    for (int s = 0; s < most; s++) {
        uint32_t n = 2 * k + b + (uint32_t)(drawn() % (64 - b - 2 * k));
        uint64_t x = drawn_operand(n);
        trusted(k, n, x, reciprocal(k, image, length, n, x).value);
    }
    for (int s = 0; s < most; s++) {
        uint32_t n = 1 + (uint32_t)(drawn() % (2 * k + b - 1)); // short operands
        reciprocal(k, image, length, n, drawn_operand(n));
    }
    for (uint32_t n = 0; n <= 70; n++) {
        uint64_t one = (uint64_t)1 << n % 64;
        for (uint64_t x = one - 1; x != one + 2; x++) {
            reciprocal(k, image, length, n, x);
            reciprocal(k, image, length, n, x + one);
        }
    }
    for (uint32_t j = 0; j < 1u << k; j++) // every piece, whose words begin at every bit of a byte at which one can
        reciprocal(k, image, length, 63, ((uint64_t)1 << k | j) << (63 - k) | drawn() >> 1 >> k);
    for (int s = 0; s < most / 10; s++)
        damaged(k, s < most / 1000);
    for (int s = 0; s < most / 10; s++) {
        uint32_t asked = (uint32_t)(drawn() % 15);
        reciprocal(asked, image, length, (uint32_t)(drawn() % 70), drawn() >> drawn() % 64);
        node(asked, image, length, (uint32_t)(drawn() >> (62 - k)));
    }
}

int main(void)
{
    make_images();
    for (int form = 0; form < 2; form++)
        for (uint32_t pair = 0; pair < 9; pair++) {
            full = form == 1;
            a = 2 + pair / 3;
            b = 3 + pair % 3;
            for (uint32_t k = LEAST; k <= GREATEST; k++) {
                library_builds(k, image_of(k), length_of(k));
                cases_of(k);
            }
        }
    out_of_range();
    printf("all contestants agree with the library on %ld cases\n", cases);
    return 0;
}
