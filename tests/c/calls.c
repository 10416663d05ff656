/* Makes every call at and around every limit and prints each with its answer on a line, for tests/c_side.py to
 * compare.
 *
 *   calls GUARD     the lent bytes stand in a heap block between GUARD bytes before and GUARD after
 *
 * After each call the whole block must be as it was before, guard bytes too, except for the lent bytes of a build
 * that was served. With GUARD 0 the block is the lent bytes alone, for a memory checker to see what a call reads and
 * writes beside them. */
#include <inttypes.h>
#include <stdbool.h>
#include <stdio.h>
#include <stdlib.h>
#include <string.h>
#include <yildegga.h>

#define COUNT(list) (sizeof(list) / sizeof((list)[0]))
#define MOST_32 UINT32_MAX
#define MOST_64 UINT64_MAX

/* ---- the table that is asked for */

static uint32_t k, form, a, b; /* any numbers, as a caller may hand them over */
static yildegga_format format;

static void ask(uint32_t asked_k, uint32_t asked_form, uint32_t asked_a, uint32_t asked_b)
{
    k = asked_k;
    form = asked_form;
    a = asked_a;
    b = asked_b;
    if (a != 2 || b != 3 || form > YILDEGGA_FULL_WORDS)
        format = YILDEGGA_TABLE(k, form, a, b);
    else
        format = form == YILDEGGA_PLAIN_WORDS ? YILDEGGA_PLAIN(k) : YILDEGGA_FULL(k);
}

/* ---- the lent bytes */

static size_t guard, length;
static uint8_t *block, *before, *lent;

static void lend(size_t count)
{
    length = count;
    block = malloc(count + 2 * guard);
    before = malloc(count + 2 * guard);
    if (!block || !before)
        exit(3);
    memset(block, 0xA5, count + 2 * guard);
    lent = block + guard;
}

static void take_back(void)
{
    free(block);
    free(before);
}

static void remember(void)
{
    memcpy(before, block, length + 2 * guard);
}

/* After a call: all bytes from lent byte `first` on, and the guard before them, are as they were. */
static void see_kept(const char *call, size_t first)
{
    if (first > length || memcmp(block, before, guard) != 0 ||
        memcmp(lent + first, before + guard + first, length - first + guard) != 0) {
        fprintf(stderr, "%s at precision %" PRIu32 ", form %" PRIu32 ", guard bits %" PRIu32 " and %" PRIu32
                ", with %zu bytes changed others\n", call, k, form, a, b, length);
        exit(4);
    }
}

/* ---- the calls */

static void done(yildegga_done answer)
{
    printf("%" PRIu32 " %" PRIu64 " %" PRIu64, answer.number, answer.place, answer.value);
}

static void node(yildegga_node_read answer)
{
    printf("%" PRIu32 " %" PRIu64 " %" PRIu64, answer.number, answer.place, answer.value.count);
}

static void given(yildegga_reciprocal_given answer)
{
    printf("%" PRIu32 " %" PRIu64 " %" PRIu64 "\n", answer.number, answer.place, answer.value.count);
}

static void bytes(size_t offset, size_t count)
{
    printf(" ");
    for (size_t at = offset; at < offset + count; at++)
        printf("%02x", lent[at]);
    printf("\n");
}

static yildegga_done build(void)
{
    remember();
    yildegga_done answer = yildegga_build(format, lent, length);
    see_kept("build", answer.number == YILDEGGA_SERVED ? length : 0);
    return answer;
}

static void check(void)
{
    printf("check ");
    done(yildegga_check(format, lent, length));
    printf("\n");
    see_kept("check", 0);
}

static void nodes(uint32_t j)
{
    printf("node %" PRIu32 " ", j);
    node(yildegga_node(format, lent, length, j));
    see_kept("node", 0);
    yildegga_part part = yildegga_word_bytes(format, lent, length, j);
    see_kept("word_bytes", 0);
    printf("\nword_bytes %" PRIu32 " %zu %zu", j, part.offset, part.count);
    bytes(part.offset, part.count);
}

static void reciprocals(uint32_t n, uint64_t x)
{
    printf("reciprocal %" PRIu32 " %" PRIu64 " ", n, x);
    given(yildegga_reciprocal(format, lent, length, n, x));
    see_kept("reciprocal", 0);
}

/* ---- the cases */

/* How many there are of a table: all, or few, where tables are many. */
static bool few;

/* The calls on the lent bytes. `at` is a byte that may be damaged. */
static void calls_at(size_t at)
{
    remember();
    check();

    /* for numbers near a limit, where they have none */
    uint32_t some_k = k < 13 ? k : 2, some_a = a - 2 < 3 ? a : 2, some_b = b - 3 < 3 ? b : 3;
    uint32_t last = YILDEGGA_LAST_NODE(some_k);
    uint32_t near = (uint32_t)(8 * at / YILDEGGA_TABLE_WORD_BITS(some_k, form, some_a));
    uint32_t js[] = {0, 1, last - 1, last, last + 1, MOST_32, near, near + 1};
    for (size_t each = 0; each < COUNT(js); each++)
        nodes(js[each]);

    /* each n below 2k + b + 2, so that operands are padded, neither padded nor cut, and cut, of few those at its
       ends; then those about the upper limit */
    uint32_t below = 2 * some_k + some_b + 2, above[] = {63, 64, MOST_32};
    for (uint32_t each = 0; each < below + COUNT(above); each++) {
        if (few && each > 1 && each + 3 < below && each != some_k)
            continue;
        uint32_t n = each < below ? each : above[each - below];
        uint64_t one = UINT64_C(1) << (n < 64 ? n : 63); /* where n is at most 63, 2^n */
        /* the last operand up to node `near`, and one between it and the next node */
        uint64_t at_near = one + (n < some_k ? near >> (some_k - n) : (one >> some_k) * near);
        uint64_t behind = at_near + (n < some_k ? 0 : UINT64_C(0x5555555555555555) % (one >> some_k));
        uint64_t xs[] = {0, one - 1, one, one + 1, one + (one - 1), 2 * one, MOST_64, at_near, at_near - 1, behind};
        for (size_t which = 0; which < COUNT(xs); which++)
            reciprocals(n, xs[which]);
    }
    printf("build ");
    done(build());
    bytes(0, length);
}

/* Operands in the first eight pieces, whose words begin at all the bits of a byte at which one can, and in the last. */
static void pieces(void)
{
    uint32_t some_k = k < 13 ? k : 2, last = YILDEGGA_LAST_NODE(some_k), first = last < 8 ? last : 8;
    for (uint32_t each = 0; each <= first; each++) {
        uint64_t i = last + (each < first ? each : last - 1);
        reciprocals(some_k + 7, i << 7 | 0x55);
        reciprocals(63, (i << 7 | 0x2A) << (56 - some_k));
    }
}

/* A byte that is damaged, and another one; neither where its mask is 0. */
struct damage { size_t at; uint8_t mask; size_t and_at; uint8_t and_mask; };

static void damaged(size_t count, struct damage damage)
{
    printf("lent %" PRIu32 " %" PRIu32 " %" PRIu32 " %" PRIu32 " %zu %zu %u %zu %u\n", form, k, a, b, count, damage.at,
           (unsigned)damage.mask, damage.and_at, (unsigned)damage.and_mask);
    lend(count);
    build();
    if (damage.mask)
        lent[damage.at] ^= damage.mask;
    if (damage.and_mask)
        lent[damage.and_at] ^= damage.and_mask;
    calls_at(damage.at);
    if (!damage.mask)
        pieces();
    take_back();
}

/* The bits of an image's last byte that stand behind its last word, none where the words end with a byte. */
static uint8_t filling(void)
{
    unsigned used = YILDEGGA_TABLE_WORD_COUNT(k, form) * YILDEGGA_TABLE_WORD_BITS(k, form, a) % 8;
    return used ? (uint8_t)(0xFF >> used) : 0;
}

static void cases(void)
{
    size_t image = yildegga_image_length(format);
    size_t whole = image ? image : YILDEGGA_ANY_LONGEST_IMAGE;
    size_t counts[] = {whole - 1, whole, whole + 60, 0, whole + 1, whole + 130};
    for (size_t each = 0; each < (few ? 3 : COUNT(counts)); each++) {
        size_t count = counts[each];
        if (each && count == 0 && whole == 1)
            continue; /* the plain image of precision 1 is one byte, and the buffer of none was had */
        damaged(count, (struct damage){0, 0, 0, 0});
        if (!image || count < image)
            continue;
        uint8_t bits = filling();
        uint8_t first = (uint8_t)(bits & ~(bits >> 1)), last = (uint8_t)(bits + 1); /* the last word's last bit */
        struct damage words[] = {{whole - 1, last, 0, 0}, {whole / 3, 0x10, 0, 0}, {0, 0x80, 0, 0},
                                 {whole / 2, 0x01, 0, 0}, {whole - 1, 0x80, 0, 0}};
        for (size_t which = 0; which < (few ? 2 : COUNT(words)); which++)
            damaged(count, words[which]);
        struct damage fillings[] = {{whole - 1, first, 0, 0}, {whole - 1, bits, 0, 0}, {whole - 1, first, 0, 0x80},
                                    {whole - 1, bits, count - 1, 0x02}};
        for (size_t which = 0; bits && which < COUNT(fillings); which++)
            damaged(count, fillings[which]);
        if (count == image)
            continue;
        struct damage tails[] = {{whole, 0x80, 0, 0}, {count - 1, 0x01, 0, 0}, {(whole + count) / 2, 0x10, 0, 0},
                                 {whole, 0x01, count - 1, 0x02}, /* the others with a wrong word or a filling bit */
                                 {whole - 1, 0x01, whole, 0x80}, {0, 0x80, count - 1, 0x01}};
        for (size_t which = 0; which < (few ? 2 : COUNT(tails)); which++)
            damaged(count, tails[which]);
    }
}

static void node_8(uint32_t j)
{
    printf("node_8 %" PRIu32 " %" PRIu64 "\n", j, yildegga_node_8(j).count);
}

/* The constant nodes and numbers above them, among these some that are a node's in fewer bits. */
static void constant_nodes(void)
{
    for (uint32_t j = 0; j <= 300; j++)
        node_8(j);
    for (uint32_t power = 512; power; power *= 2) {
        node_8(power - 1);
        node_8(power);
        node_8(power + 256);
    }
    node_8(MOST_32);
}

static void null_buffer(void)
{
    lent = NULL;
    length = 0;
    printf("null %" PRIu32 " %" PRIu32 " %" PRIu32 " %" PRIu32 "\nbuild ", form, k, a, b);
    done(yildegga_build(format, NULL, 0));
    printf(" \ncheck ");
    done(yildegga_check(format, NULL, 0));
    printf("\nnode 0 ");
    node(yildegga_node(format, NULL, 0, 0));
    yildegga_part part = yildegga_word_bytes(format, NULL, 0, 0);
    printf("\nword_bytes 0 %zu %zu \nreciprocal 63 %" PRIu64 " ", part.offset, part.count, MOST_64);
    given(yildegga_reciprocal(format, NULL, 0, 63, MOST_64));
}

#define CONSTANT(name) printf("constant " #name " %u\n", YILDEGGA_##name)

static void constants(void)
{
    CONSTANT(SERVED);
    CONSTANT(PRECISION);
    CONSTANT(GUARD_BITS);
    CONSTANT(SHORT_BUFFER);
    CONSTANT(NODE_NUMBER);
    CONSTANT(FRACTION_BITS);
    CONSTANT(NOT_NORMALISED);
    CONSTANT(WRONG_WORD);
    CONSTANT(TAIL_NOT_ZERO);
    CONSTANT(LEAST_PRECISION);
    CONSTANT(GREATEST_PRECISION);
    CONSTANT(LEAST_TABLE_GUARD_BITS);
    CONSTANT(GREATEST_TABLE_GUARD_BITS);
    CONSTANT(LEAST_INPUT_GUARD_BITS);
    CONSTANT(GREATEST_INPUT_GUARD_BITS);
    CONSTANT(LONGEST_IMAGE);
    CONSTANT(FULL_LONGEST_IMAGE);
    CONSTANT(ANY_LONGEST_IMAGE);
    CONSTANT(LEAST_FRACTION_BITS);
    CONSTANT(MOST_FRACTION_BITS);
    CONSTANT(TABLE_UNITS_IN_ULP(2));
    CONSTANT(TABLE_UNITS_IN_ULP(3));
    CONSTANT(TABLE_UNITS_IN_ULP(4));
    CONSTANT(PLAIN_WORDS);
    CONSTANT(FULL_WORDS);
    for (uint32_t each = 1; each <= 12; each++)
        printf("limits %" PRIu32 " %u %u %u %u %u\n", each, YILDEGGA_LAST_NODE(each), YILDEGGA_WORD_COUNT(each),
               YILDEGGA_WORD_BITS(each), YILDEGGA_FULL_WORD_COUNT(each), YILDEGGA_FULL_WORD_BITS(each));
}

/* The header's numbers of a table of any guard bits, and where k or a is none, the length alone. */
static void lengths(void)
{
    size_t by_call = yildegga_image_length(format), by_macro = YILDEGGA_TABLE_IMAGE_LENGTH(k, form, a);
    size_t usual = form ? YILDEGGA_FULL_IMAGE_LENGTH(k) : YILDEGGA_IMAGE_LENGTH(k);
    printf("length %" PRIu32 " %" PRIu32 " %" PRIu32 " %" PRIu32 " %zu %zu %zu\n", form, k, a, b, by_call, by_macro,
           usual);
    if (by_macro)
        printf("words %" PRIu32 " %" PRIu32 " %" PRIu32 " %u %u\n", form, k, a, YILDEGGA_TABLE_WORD_COUNT(k, form),
               YILDEGGA_TABLE_WORD_BITS(k, form, a));
}

static void of_form(uint32_t asked_form, uint32_t asked_k, bool on_bytes)
{
    ask(asked_k, asked_form, a, b);
    lengths();
    null_buffer();
    if (on_bytes)
        cases();
}

/* Precisions at and around each limit, in both forms. */
static void of_precisions(void)
{
    static const uint32_t far[] = {31, 32, 33, 63, 64, 65, 256, 258, 65537, UINT32_C(1) << 31, MOST_32 - 1, MOST_32};
    for (uint32_t each = 0; each <= 20 + COUNT(far); each++) {
        uint32_t some_k = each <= 20 ? each : far[each - 21];
        bool on_bytes = some_k <= (few ? 13 : 14) || (!few && (some_k == 32 || some_k == MOST_32));
        of_form(YILDEGGA_PLAIN_WORDS, some_k, on_bytes);
        of_form(YILDEGGA_FULL_WORDS, some_k, on_bytes);
    }
}

/* Guard bits of which the one or the other, or both, are out of range, at precisions in range and out of it. */
static void of_wrong_guard_bits(void)
{
    static const uint32_t as[] = {0, 1, 5, 258, UINT32_C(1) << 31, MOST_32, 2, 3, 4};
    static const uint32_t bs[] = {0, 2, 6, 259, UINT32_C(1) << 31, MOST_32, 3, 4, 5};
    static const uint32_t ks[] = {0, 1, 2, 12, 13, MOST_32};
    for (size_t each = 0; each < COUNT(as) * COUNT(bs); each++) {
        a = as[each / COUNT(bs)];
        b = bs[each % COUNT(bs)];
        if (YILDEGGA_LEAST_TABLE_GUARD_BITS <= a && a <= YILDEGGA_GREATEST_TABLE_GUARD_BITS &&
            YILDEGGA_LEAST_INPUT_GUARD_BITS <= b && b <= YILDEGGA_GREATEST_INPUT_GUARD_BITS)
            continue;
        for (size_t which = 0; which < COUNT(ks); which++) {
            bool on_bytes = ks[which] < 3 && (a == 2 || b == 3 || a == b + 1);
            of_form(YILDEGGA_PLAIN_WORDS, ks[which], on_bytes);
            of_form(YILDEGGA_FULL_WORDS, ks[which], on_bytes);
        }
    }
}

int main(int argc, char **argv)
{
    static const uint32_t full_too[] = {2, 255, 256, UINT32_C(1) << 16, UINT32_C(1) << 31, MOST_32};
    if (argc != 2)
        return 2;
    guard = (size_t)atoi(argv[1]);
    constants();
    constant_nodes();
    for (a = 2; a <= 4; a++)
        for (b = 3; b <= 5; b++) {
            few = a != 2 || b != 3;
            of_precisions();
        }
    for (size_t each = 0; each < COUNT(full_too); each++) {
        few = each % 2 == 1;
        a = few ? 4 : 2;
        b = few ? 5 : 3;
        of_form(full_too[each], 0, true);
        of_form(full_too[each], 2, true);
    }
    few = true;
    of_wrong_guard_bits();
    return 0;
}
