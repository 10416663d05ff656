/* The words of the full image of precision K, as a test bench reads them: a line `J C` for each node, C in table units.
 *
 *     bench_words [--full] [-a A] [-b B] K
 *
 * The bench knows the number of words and their width, and nothing of a leading one to put back or of a last node
 * without a word. So the words are full ones, with --full or without: one row of options serves all examples. The table
 * has A table guard bits and B input guard bits, 2 and 3 where they are not given. The exit status is 1 where the
 * library turns the call back, and 2 where the arguments or the output do not allow it. */
#include <errno.h>
#include <inttypes.h>
#include <stdio.h>
#include <string.h>
#include "caller.h"

static const struct program program = {"bench_words", "[--full] [-a A] [-b B] K", false, 1, 1};

/* Word j of an image of words that are `width` bits wide: the bits from bit j * width on, counted from the most
   significant of byte 0. */
static uint32_t word(const uint8_t *image, size_t width, size_t j)
{
    uint32_t value = 0;
    for (size_t bit = j * width; bit < (j + 1) * width; bit++)
        value = 2 * value + ((uint32_t)image[bit / 8] >> (7 - bit % 8) & 1u);
    return value;
}

int main(int argc, char **argv)
{
    static uint8_t image[YILDEGGA_ANY_LONGEST_IMAGE];
    struct call call;
    uint32_t k;
    if (!read_call(program, argc, argv, &call) || !read_word(program, "K", call.words[0], &k))
        return NOT_CALLED;
    yildegga_format format = asked(&call, k);
    format.form = YILDEGGA_FULL_WORDS;
    yildegga_done built = yildegga_build(format, image, sizeof image);
    if (built.number != YILDEGGA_SERVED)
        return turned_back("bench_words", built.number);

    size_t width = YILDEGGA_TABLE_WORD_BITS(k, YILDEGGA_FULL_WORDS, format.table_guard_bits);
    for (uint32_t j = 0; j < YILDEGGA_FULL_WORD_COUNT(k); j++)
        printf("%" PRIu32 " %" PRIu32 "\n", j, word(image, width, j));
    if (fflush(stdout) != 0 || ferror(stdout))
        return not_called("bench_words", strerror(errno));
    return 0;
}
