/* The reciprocals of a list of operands at precision K, each operand X with N fraction bits: a line `X R` for each, or
 * `X refused NUMBER PLACE`.
 *
 *     reciprocals [--full] [-a A] [-b B] K N [X...]
 *
 * Where no X is given, each line of standard input is one. A line has at most 1000 bytes. The image has plain words, or
 * full ones with --full. The table has A table guard bits and B input guard bits, 2 and 3 where they are not given. The
 * exit status is 1 where the library turned a call back, and 2 where the arguments, the input or the output do not
 * allow it: the first operand that is no number, or a line that is too long, ends the list. */
#include <errno.h>
#include <inttypes.h>
#include <limits.h>
#include <stdio.h>
#include <string.h>
#include "caller.h"

static const struct program program = {"reciprocals", "[--full] [-a A] [-b B] K N [X...]", false, 2, INT_MAX};

#define LONGEST_LINE 1000 /* bytes, the line feed not among them */

static uint8_t image[YILDEGGA_ANY_LONGEST_IMAGE];
static yildegga_format format;
static uint32_t n;
static int status;
static unsigned long which; /* the operand, from 1 */
static const char *mistake; /* what is wrong with it, NULL where nothing is */
static int unreadable;      /* why the input cannot be read, 0 where it can */

/* Ends the list: the operand is none. */
static bool no_operand(const char *why)
{
    mistake = why;
    return false;
}

/* Prints the line of the next operand. False, which ends the list, where it is no number and has no line, and where
   lines cannot be written. */
static bool answer(const char *text, size_t length)
{
    uint64_t x;
    which++;
    if (!read_number(text, length, UINT64_MAX, &x))
        return no_operand("is not a number below 2^64");
    yildegga_reciprocal_given given = yildegga_reciprocal(format, image, sizeof image, n, x);
    if (given.number == YILDEGGA_SERVED) {
        printf("%" PRIu64 " %" PRIu64 "\n", x, given.value.count);
    } else {
        printf("%" PRIu64 " refused %" PRIu32 " %" PRIu64 "\n", x, given.number, given.place);
        status = TURNED_BACK;
    }
    return !ferror(stdout);
}

/* Reads the next line of standard input and answers it. False at the end of the input or of the list. A line that
   cannot be read to its end is not answered. */
static bool answer_line(void)
{
    char line[LONGEST_LINE];
    size_t length = 0;
    int byte;
    while ((byte = getchar()) != EOF && byte != '\n') {
        if (length == sizeof line) {
            which++;
            return no_operand("is a line of more than 1000 bytes");
        }
        line[length++] = (char)byte;
    }
    if (byte == EOF && ferror(stdin))
        unreadable = errno;
    if (byte == EOF && (unreadable || length == 0))
        return false;
    return answer(line, length) && byte != EOF;
}

int main(int argc, char **argv)
{
    struct call call;
    uint32_t k;
    if (!read_call(program, argc, argv, &call) || !read_word(program, "K", call.words[0], &k) ||
        !read_word(program, "N", call.words[1], &n))
        return NOT_CALLED;
    format = asked(&call, k);
    yildegga_done built = yildegga_build(format, image, sizeof image);
    if (built.number != YILDEGGA_SERVED)
        return turned_back("reciprocals", built.number);

    int operand = program.least;
    while (operand < call.count && answer(call.words[operand], strlen(call.words[operand])))
        operand++;
    if (call.count == program.least)
        while (answer_line())
            continue;
    if (fflush(stdout) != 0 || ferror(stdout))
        return not_called("reciprocals", strerror(errno));
    if (unreadable)
        return not_called("reciprocals", strerror(unreadable));
    if (mistake) {
        fprintf(stderr, "reciprocals: operand %lu %s\n", which, mistake);
        return NOT_CALLED;
    }
    return status;
}
