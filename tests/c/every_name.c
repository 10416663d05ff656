/* Uses every name of the header, in C and in C++, with all that a compiler warns of counting as an error. It ends with
   status 0 where the calls serve the set examples of precision 2 (docs/SCOPE.md, "Set examples"), and an operand of one
   fraction bit, a full ROM of eight bytes, full words and other guard bits too, and where the header has a version and
   the refusals in words. */
#include <yildegga.h>

static uint8_t image[YILDEGGA_IMAGE_LENGTH(2)];
static const size_t lengths[] = {
    YILDEGGA_IMAGE_LENGTH(0), YILDEGGA_IMAGE_LENGTH(1), YILDEGGA_IMAGE_LENGTH(YILDEGGA_GREATEST_PRECISION),
    YILDEGGA_IMAGE_LENGTH(13), YILDEGGA_IMAGE_LENGTH(4294967295u)};
static const size_t right_lengths[] = {0, 1, YILDEGGA_LONGEST_IMAGE, 0, 0};
static uint8_t full_image[YILDEGGA_FULL_IMAGE_LENGTH(2)];
static const size_t full_lengths[] = {
    YILDEGGA_FULL_IMAGE_LENGTH(0), YILDEGGA_FULL_IMAGE_LENGTH(1),
    YILDEGGA_FULL_IMAGE_LENGTH(YILDEGGA_GREATEST_PRECISION),
    YILDEGGA_FULL_IMAGE_LENGTH(13), YILDEGGA_FULL_IMAGE_LENGTH(4294967295u)};
static const size_t right_full_lengths[] = {0, 3, YILDEGGA_FULL_LONGEST_IMAGE, 0, 0};
static uint8_t guarded_image[YILDEGGA_TABLE_IMAGE_LENGTH(1, YILDEGGA_PLAIN_WORDS, 3)];
static const size_t guarded_lengths[] = {
    YILDEGGA_TABLE_IMAGE_LENGTH(0, YILDEGGA_PLAIN_WORDS, 3), YILDEGGA_TABLE_IMAGE_LENGTH(13, YILDEGGA_FULL_WORDS, 3),
    YILDEGGA_TABLE_IMAGE_LENGTH(4294967295u, YILDEGGA_FULL_WORDS, 3),
    YILDEGGA_TABLE_IMAGE_LENGTH(2, YILDEGGA_FULL_WORDS, 0),
    YILDEGGA_TABLE_IMAGE_LENGTH(2, YILDEGGA_FULL_WORDS, 1), YILDEGGA_TABLE_IMAGE_LENGTH(2, YILDEGGA_PLAIN_WORDS, 5),
    YILDEGGA_TABLE_IMAGE_LENGTH(2, YILDEGGA_PLAIN_WORDS, 4294967295u),
    YILDEGGA_TABLE_IMAGE_LENGTH(YILDEGGA_GREATEST_PRECISION, YILDEGGA_PLAIN_WORDS, YILDEGGA_LEAST_TABLE_GUARD_BITS),
    YILDEGGA_TABLE_IMAGE_LENGTH(YILDEGGA_GREATEST_PRECISION, YILDEGGA_FULL_WORDS, YILDEGGA_LEAST_TABLE_GUARD_BITS),
    YILDEGGA_TABLE_IMAGE_LENGTH(YILDEGGA_GREATEST_PRECISION, YILDEGGA_FULL_WORDS, YILDEGGA_GREATEST_TABLE_GUARD_BITS)};
static const size_t right_guarded_lengths[] = {
    0, 0, 0, 0, 0, 0, 0, YILDEGGA_LONGEST_IMAGE, YILDEGGA_FULL_LONGEST_IMAGE, YILDEGGA_ANY_LONGEST_IMAGE};

static int alike(const char *text, const char *other)
{
    while (*text && *text == *other) {
        text++;
        other++;
    }
    return *text == *other;
}

/* The version as a string is that of its numbers, of which each has one digit; refusals have texts of their own. */
static int in_words(void)
{
    const char digits[] = {'0' + YILDEGGA_VERSION_MAJOR, '.', '0' + YILDEGGA_VERSION_MINOR, '.',
                           '0' + YILDEGGA_VERSION_PATCH, 0};
    if (!alike(YILDEGGA_VERSION, digits))
        return 61;
    const char *text = yildegga_refusal_text(YILDEGGA_GUARD_BITS);
    if (!alike(text, "the table guard bits are not 2 to 4, or the input guard bits not 3 to 5"))
        return 62;
    return alike(text, yildegga_refusal_text(YILDEGGA_PRECISION)) ? 63 : 0;
}

static int place_has_a_meaning(uint32_t number)
{
    switch (number) {
    case YILDEGGA_SERVED:
    case YILDEGGA_PRECISION:
    case YILDEGGA_GUARD_BITS:
    case YILDEGGA_SHORT_BUFFER:
    case YILDEGGA_NODE_NUMBER:
    case YILDEGGA_FRACTION_BITS:
    case YILDEGGA_NOT_NORMALISED:
        return 0;
    case YILDEGGA_WRONG_WORD:
    case YILDEGGA_TAIL_NOT_ZERO:
        return 1;
    default:
        return -1;
    }
}

/* Full words: the set examples of precisions 1 and 2. */
static int full_words(void)
{
    const uint8_t nodes[] = {0x80, 0x67, 0x56, 0x4A, 0x40}, image_of_1[] = {0x81, 0x64, 0x00};
    const yildegga_format format = YILDEGGA_FULL(2);
    for (size_t at = 0; at < sizeof full_lengths / sizeof full_lengths[0]; at++)
        if (full_lengths[at] != right_full_lengths[at])
            return 21;
    if (format.precision != 2 || format.form != YILDEGGA_FULL_WORDS || YILDEGGA_PLAIN(2).form != YILDEGGA_PLAIN_WORDS)
        return 22;
    if (yildegga_image_length(format) != sizeof full_image)
        return 23;
    if (YILDEGGA_FULL_WORD_COUNT(2) * YILDEGGA_FULL_WORD_BITS(2) != 8 * sizeof full_image)
        return 32;
    if (YILDEGGA_WORD_COUNT(2) * YILDEGGA_WORD_BITS(2) != 8 * sizeof image)
        return 24;
    if (yildegga_build(format, full_image, sizeof full_image).number != YILDEGGA_SERVED)
        return 25;
    for (uint32_t j = 0; j < YILDEGGA_FULL_WORD_COUNT(2); j++)
        if (full_image[j] != nodes[j] || yildegga_word_bytes(format, full_image, sizeof full_image, j).offset != j)
            return 26;
    if (yildegga_reciprocal(format, full_image, sizeof full_image, 7, 135).value.count != 30)
        return 27;
    full_image[4] = 0x41; /* node 4 is read like the rest */
    if (yildegga_node(format, full_image, sizeof full_image, YILDEGGA_LAST_NODE(2)).number != YILDEGGA_WRONG_WORD)
        return 28;
    if (yildegga_build(YILDEGGA_FULL(1), full_image, 3).number != YILDEGGA_SERVED)
        return 29;
    for (size_t at = 0; at < sizeof image_of_1; at++)
        if (full_image[at] != image_of_1[at])
            return 30;
    full_image[2] = 0x01; /* a filling bit */
    yildegga_done checked = yildegga_check(YILDEGGA_FULL(1), full_image, 3);
    return checked.number == YILDEGGA_TAIL_NOT_ZERO && checked.place == 2 ? 0 : 31;
}

/* Three table guard bits at precision 1: nodes 64, 43 and 32, words of 5 bits, and filling bits in the plain form. */
static int other_guard_bits(void)
{
    const uint32_t k = 1, form = YILDEGGA_PLAIN_WORDS, a = 3, b = YILDEGGA_GREATEST_INPUT_GUARD_BITS;
    const yildegga_format format = YILDEGGA_TABLE(k, form, a, b), plain = YILDEGGA_PLAIN(k), full = YILDEGGA_FULL(k);
    for (size_t at = 0; at < sizeof guarded_lengths / sizeof guarded_lengths[0]; at++)
        if (guarded_lengths[at] != right_guarded_lengths[at])
            return 41;
    if (format.precision != 1 || format.form != 0 || format.table_guard_bits != 3 || format.input_guard_bits != 5)
        return 42;
    if (plain.table_guard_bits != 2 || plain.input_guard_bits != 3)
        return 43;
    if (full.table_guard_bits != 2 || full.input_guard_bits != 3)
        return 54;
    if (YILDEGGA_TABLE_WORD_BITS(k, form, a) != 5 || YILDEGGA_TABLE_WORD_COUNT(k, form) != 2)
        return 44;
    if (YILDEGGA_TABLE_WORD_BITS(k, YILDEGGA_FULL_WORDS, a) != 7)
        return 45;
    if (YILDEGGA_TABLE_WORD_COUNT(k, YILDEGGA_FULL_WORDS) != 3)
        return 55;
    if (yildegga_image_length(format) != sizeof guarded_image)
        return 46;
    if (yildegga_build(format, guarded_image, sizeof guarded_image).number != YILDEGGA_SERVED)
        return 47;
    if (guarded_image[0] != 0x02 || guarded_image[1] != 0xC0)
        return 48;
    yildegga_node_read node = yildegga_node(format, guarded_image, sizeof guarded_image, 1);
    if (node.value.count != 43)
        return 49;
    /* 3 / 2 is node 1 */
    yildegga_reciprocal_given given = yildegga_reciprocal(format, guarded_image, sizeof guarded_image, 1, 3);
    if (given.value.count != node.value.count / YILDEGGA_TABLE_UNITS_IN_ULP(a))
        return 50;
    const uint32_t wrong_a = YILDEGGA_GREATEST_TABLE_GUARD_BITS + 1, wrong_b = YILDEGGA_LEAST_INPUT_GUARD_BITS - 1;
    if (yildegga_build(YILDEGGA_TABLE(k, form, wrong_a, b), guarded_image, 0).number != YILDEGGA_GUARD_BITS)
        return 51;
    if (yildegga_build(YILDEGGA_TABLE(k, form, a, wrong_b), guarded_image, 0).number != YILDEGGA_GUARD_BITS)
        return 52;
    guarded_image[1] = 0xC1; /* a filling bit */
    yildegga_done checked = yildegga_check(format, guarded_image, sizeof guarded_image);
    return checked.number == YILDEGGA_TAIL_NOT_ZERO && checked.place == 1 ? 0 : 53;
}

int main(void)
{
    const uint32_t k = 2;
    for (size_t at = 0; at < sizeof lengths / sizeof lengths[0]; at++)
        if (lengths[at] != right_lengths[at])
            return 1;
    if (yildegga_image_length(YILDEGGA_PLAIN(k)) != sizeof image || YILDEGGA_LEAST_PRECISION > k)
        return 2;

    yildegga_done done = yildegga_build(YILDEGGA_PLAIN(k), image, sizeof image);
    if (done.number != YILDEGGA_SERVED || done.place != 0 || done.value != 0)
        return 3;
    image[2] ^= 1;
    done = yildegga_check(YILDEGGA_PLAIN(k), image, sizeof image);
    if (place_has_a_meaning(done.number) != 1 || done.place != 3)
        return 4;
    image[2] ^= 1;

    yildegga_node_read node = yildegga_node(YILDEGGA_PLAIN(k), image, sizeof image, YILDEGGA_LAST_NODE(k));
    yildegga_table_units units = node.value;
    if (units.count != 64)
        return 5;

    units = yildegga_node_8(YILDEGGA_LAST_NODE(8u));
    if (units.count != 262144)
        return 6;

    yildegga_part part = yildegga_word_bytes(YILDEGGA_PLAIN(k), image, sizeof image, 1);
    if (part.offset != 0 || part.count != 2 || part.offset * 8 + YILDEGGA_WORD_BITS(k) != 6)
        return 7;

    yildegga_reciprocal_given given = yildegga_reciprocal(YILDEGGA_PLAIN(k), image, sizeof image, 7, 135);
    yildegga_ulps ulps = given.value;
    if (ulps.count * YILDEGGA_TABLE_UNITS_IN_ULP(2) != 120)
        return 8;
    /* 3 / 2 is node 2, 86 table units */
    given = yildegga_reciprocal(YILDEGGA_PLAIN(k), image, sizeof image, YILDEGGA_LEAST_FRACTION_BITS, 3);
    if (given.value.count != 21)
        return 9;
    given = yildegga_reciprocal(YILDEGGA_PLAIN(k), image, sizeof image, YILDEGGA_MOST_FRACTION_BITS, UINT64_MAX);
    if (given.value.count != 16)
        return 10;

    uint8_t rom[] = {1, 2, 3, 4, 5, 6, 7, 8};
    const uint8_t full[] = {0x02, 0x75, 0x8A, 0, 0, 0, 0, 0};
    done = yildegga_build(YILDEGGA_PLAIN(k), rom, sizeof rom);
    for (size_t at = 0; at < sizeof rom; at++)
        if (rom[at] != full[at])
            return 11;
    done = yildegga_check(YILDEGGA_PLAIN(k), rom, sizeof rom);
    if (done.number != YILDEGGA_SERVED)
        return 12;
    rom[7] = 1;
    done = yildegga_check(YILDEGGA_PLAIN(k), rom, sizeof rom);
    if (done.number != YILDEGGA_TAIL_NOT_ZERO || place_has_a_meaning(done.number) != 1 || done.place != 7)
        return 13;
    const int of_words = full_words(), of_guard_bits = other_guard_bits();
    return of_words ? of_words : of_guard_bits ? of_guard_bits : in_words();
}
