/* Makes the calls in each of the four rounding modes, in both forms, with all guard bits. The builder computes with
   doubles, and must leave the same bytes in every mode; the other calls must answer as in the default one. No call
   changes the mode or another setting of the arithmetic, and none raises a flag of the floating-point environment,
   but for the builder, which may raise inexact.

   Standard input has the right images of precision 1 to 12 in a row, with 2 table guard bits, with 3 and with 4,
   first the plain ones, then the full ones. At the first call that is not as it should be, the program says which it
   is and ends with status 1; where there is none, it prints how many calls were made. */
#include <fenv.h>
#include <inttypes.h>
#include <stdbool.h>
#include <stdio.h>
#include <stdlib.h>
#include <string.h>
#include <xmmintrin.h>
#include <yildegga.h>

#define COUNT(list) (sizeof(list) / sizeof((list)[0]))
#define TAIL 100u   /* bytes past the image in the longer buffer */
#define GUARD 64u   /* bytes before the buffer, and as many or more behind it */
#define FOUND 0xA5u /* what all bytes hold before a build */
#define FLAGS 0x3Fu /* the flags in the SSE unit's register; its other bits are settings */

static const struct { int mode; const char *name; } modes[] = {
    {FE_TONEAREST, "to the nearest"}, {FE_UPWARD, "upward"}, {FE_DOWNWARD, "downward"}, {FE_TOWARDZERO, "toward zero"}};

static uint8_t right[YILDEGGA_ANY_LONGEST_IMAGE]; /* the image of the format that is asked for */
static uint8_t block[GUARD + YILDEGGA_ANY_LONGEST_IMAGE + TAIL + GUARD], expected[sizeof block];
static uint8_t *const lent = block + GUARD;

/* ---- before and behind each call */

static uint32_t k, form, a, b;
static yildegga_format format; /* of these */
static size_t mode; /* its number in the list; the default one is the first */
static unsigned long calls;
static unsigned settings;

static void see(bool as_it_should, const char *call, const char *what)
{
    if (as_it_should)
        return;
    fprintf(stderr, "precision %" PRIu32 "%s, guard bits %" PRIu32 " and %" PRIu32 ", rounding %s: %s %s\n", k,
            form ? ", full words" : "", a, b, modes[mode].name, call, what);
    exit(1);
}

static void enter(void)
{
    calls++;
    feclearexcept(FE_ALL_EXCEPT);
    settings = _mm_getcsr() & ~FLAGS;
}

static void leave(const char *call, int may_be_raised)
{
    see(fetestexcept(FE_ALL_EXCEPT & ~may_be_raised) == 0, call, "raises a flag");
    /* fegetround looks at the older unit alone, and doubles are computed in the SSE unit */
    see(fegetround() == modes[mode].mode && (_mm_getcsr() & ~FLAGS) == settings, call,
        "changes the rounding mode or another setting");
}

/* ---- the calls */

/* The answers in the default mode, in the order of the calls. Each other mode makes the same calls. */
static yildegga_done by_default[1u << 15];
static size_t answered;

static void same(const char *call, uint32_t number, uint64_t place, uint64_t value)
{
    if (answered == COUNT(by_default))
        exit(3);
    yildegga_done *first = &by_default[answered++];
    if (mode == 0)
        *first = (yildegga_done){number, place, value};
    see(first->number == number && first->place == place && first->value == value, call,
        "answers otherwise than by default");
}

/* The builder leaves the right image and zeros to the buffer's end, or where it is turned back what it found, and
   the guards in any case. */
static void build(yildegga_format asked, size_t length, uint32_t number)
{
    memset(block, FOUND, sizeof block);
    memset(expected, FOUND, sizeof expected);
    if (number == YILDEGGA_SERVED) {
        memset(expected + GUARD, 0, length);
        memcpy(expected + GUARD, right, yildegga_image_length(format));
    }
    enter();
    yildegga_done answer = yildegga_build(asked, lent, length);
    leave("build", FE_INEXACT);
    see(answer.number == number && answer.place == 0 && answer.value == 0, "build", "answers otherwise than it should");
    see(memcmp(block, expected, sizeof block) == 0, "build", "leaves other bytes than it should");
}

static void check(size_t length, uint32_t number)
{
    enter();
    yildegga_done answer = yildegga_check(format, lent, length);
    leave("check", 0);
    see(answer.number == number, "check", "answers otherwise than it should");
    same("check", answer.number, answer.place, answer.value);
}

static void node(size_t length, uint32_t j)
{
    enter();
    yildegga_node_read answer = yildegga_node(format, lent, length, j);
    leave("node", 0);
    same("node", answer.number, answer.place, answer.value.count);
}

static void node_8(uint32_t j)
{
    enter();
    yildegga_table_units units = yildegga_node_8(j);
    leave("node_8", 0);
    same("node_8", 0, 0, units.count);
}

static void word_bytes(size_t length, uint32_t j)
{
    enter();
    yildegga_part part = yildegga_word_bytes(format, lent, length, j);
    leave("word_bytes", 0);
    same("word_bytes", 0, part.offset, part.count);
}

static void reciprocal(size_t length, uint32_t n, uint64_t x)
{
    enter();
    yildegga_reciprocal_given answer = yildegga_reciprocal(format, lent, length, n, x);
    leave("reciprocal", 0);
    same("reciprocal", answer.number, answer.place, answer.value.count);
}

static size_t image_length(void)
{
    enter();
    size_t length = yildegga_image_length(format);
    leave("image_length", 0);
    same("image_length", 0, 0, length);
    return length;
}

/* ---- the cases of a format in a mode: 4 calls for each node below the last, and 24 others, 26 where there are
   filling bits */

static void flip(size_t bit)
{
    lent[bit / 8] ^= (uint8_t)(0x80 >> bit % 8);
}

static void cases(void)
{
    size_t image = image_length(), longer = image + TAIL;
    uint32_t last = YILDEGGA_LAST_NODE(k), words = YILDEGGA_TABLE_WORD_COUNT(k, form);
    size_t bits = words * YILDEGGA_TABLE_WORD_BITS(k, form, a);
    build(YILDEGGA_TABLE(k + YILDEGGA_GREATEST_PRECISION, form, a, b), longer, YILDEGGA_PRECISION);
    build(YILDEGGA_TABLE(k, form, a + 3, b), longer, YILDEGGA_GUARD_BITS);
    build(YILDEGGA_TABLE(k, form, a, b - 3), longer, YILDEGGA_GUARD_BITS);
    build(format, image - 1, YILDEGGA_SHORT_BUFFER);
    build(format, longer, YILDEGGA_SERVED);
    check(longer, YILDEGGA_SERVED);
    lent[longer - 1] = 1;
    check(longer, YILDEGGA_TAIL_NOT_ZERO);

    build(format, image, YILDEGGA_SERVED);
    check(image, YILDEGGA_SERVED);
    for (uint32_t j = 0; j < last; j++) {
        uint64_t at = (uint64_t)(last + j) << (63 - k);
        node(image, j);
        word_bytes(image, j);
        reciprocal(image, k, last + j);
        /* between this node and the next */
        reciprocal(image, 63, at + UINT64_C(0x5555555555555555) % (UINT64_C(1) << (63 - k)));
    }
    node(image, last);
    node(image, last + 1);
    node(image - 1, 0);
    node_8(last);
    word_bytes(image, last);
    reciprocal(image, 0, 1);
    reciprocal(image, 63, 1);
    reciprocal(image, 63, UINT64_MAX);
    reciprocal(image - 1, 63, UINT64_MAX);

    if (bits < 8 * image) {
        flip(bits); /* the first filling bit, on which no other call depends */
        check(image, YILDEGGA_TAIL_NOT_ZERO);
        reciprocal(image, 63, UINT64_MAX);
        flip(bits);
    }
    flip(bits - 1); /* the last word */
    check(image, YILDEGGA_WRONG_WORD);
    node(image, words - 1);
    reciprocal(image, 63, UINT64_MAX);
    reciprocal(image, 1, 2);
    node(image, 0);
}

/* The format in each mode. */
static void in_modes(void)
{
    for (mode = 0; mode < COUNT(modes); mode++) {
        if (fesetround(modes[mode].mode) != 0)
            exit(3);
        answered = 0;
        cases();
    }
    fesetround(modes[0].mode);
}

/* All formats: the images in the order of the input, with each number of input guard bits. False where it does not
   hold the images. */
static bool formats(void)
{
    for (form = YILDEGGA_PLAIN_WORDS; form <= YILDEGGA_FULL_WORDS; form++)
        for (a = YILDEGGA_LEAST_TABLE_GUARD_BITS; a <= YILDEGGA_GREATEST_TABLE_GUARD_BITS; a++)
            for (k = YILDEGGA_LEAST_PRECISION; k <= YILDEGGA_GREATEST_PRECISION; k++) {
                size_t image = YILDEGGA_TABLE_IMAGE_LENGTH(k, form, a);
                if (fread(right, 1, image, stdin) != image)
                    return false;
                for (b = YILDEGGA_LEAST_INPUT_GUARD_BITS; b <= YILDEGGA_GREATEST_INPUT_GUARD_BITS; b++) {
                    format = YILDEGGA_TABLE(k, form, a, b);
                    in_modes();
                }
            }
    return getchar() == EOF;
}

int main(void)
{
    if (fegetround() != modes[0].mode || !formats())
        return 2;
    printf("%lu calls\n", calls);
    return 0;
}
