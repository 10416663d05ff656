/* Measures the reciprocals that the library gives, over every cut operand of a table, in whole numbers.

   usage: measure            a line of column names, then a line for each precision, with 2 and 3 guard bits
          measure K          the same for each choice of guard bits at precision K
          measure sweep K    the nodes of precision K, then each cut operand with its R, with 2 and 3 guard bits

   With a table guard bits and b input guard bits a cut operand t has n = 2k + b fraction bits and stands for every
   operand X with t <= X < t + 1, on the scale of t. All of them have the same R. The exact reciprocal is N / X ulps,
   where N = 2^(4k+b+1), so that the error R - N / X grows from X = t up to X = t + 1.

   A step of d is R of t less R of t + d, where both are cut operands. Steps are proved to lie from 0 to d / 2^(b-1),
   rounded up; where one does not, the program stops. */
#include <inttypes.h>
#include <stdio.h>
#include <stdlib.h>
#include <string.h>
#include "yildegga.h"

static uint8_t image[YILDEGGA_ANY_LONGEST_IMAGE];

static void served(uint32_t number)
{
    if (number != YILDEGGA_SERVED) {
        fprintf(stderr, "measure: turned back with number %" PRIu32 "\n", number);
        exit(1);
    }
}

static void build(yildegga_format table)
{
    served(yildegga_build(table, image, sizeof image).number);
}

/* The fraction bits of a cut operand. */
static uint32_t bits(yildegga_format table)
{
    return 2 * table.precision + table.input_guard_bits;
}

static uint64_t reciprocal(yildegga_format table, uint64_t t)
{
    yildegga_reciprocal_given given = yildegga_reciprocal(table, image, sizeof image, bits(table), t);
    served(given.number);
    return given.value.count;
}

/* An error of `over` / `under` ulps. It is not reduced: `under` is the X where it is found. */
typedef struct { int64_t over, under; } error;

/* Keeps the larger of two errors, the one found first where they are equal. */
static void keep(error *largest, int64_t over, int64_t under)
{
    if (over * largest->under > largest->over * under)
        *largest = (error){over, under};
}

/* The steps of d that were found: the largest, the first t with it, and the least. There is none where the largest is
   below 0. */
typedef struct { uint64_t d, limit, at; int32_t largest, least; } steps;

/* The d that are measured, beside that of a whole piece, 2^(k+b). */
static const uint64_t distances[] = {1, 2, 3, 4, 5, 6, 7, 8, 9, 16, 100};
#define DISTANCES (sizeof distances / sizeof *distances + 1)

#define BLOCK (UINT64_C(1) << (YILDEGGA_GREATEST_PRECISION + YILDEGGA_GREATEST_INPUT_GUARD_BITS)) /* no d is larger */

/* R, which is at most 2^25, of BLOCK cut operands in a row, behind R of those before them. */
static int32_t block[2 * BLOCK];

static void no_steps(steps found[DISTANCES], yildegga_format table)
{
    const uint64_t divisor = UINT64_C(1) << (table.input_guard_bits - 1);
    for (size_t i = 0; i < DISTANCES; i++) {
        uint64_t d = i < DISTANCES - 1 ? distances[i] : UINT64_C(1) << (table.precision + table.input_guard_bits);
        found[i] = (steps){d, (d + divisor - 1) / divisor, 0, -1, INT32_MAX};
    }
}

/* The first place from `at` on with this step, of which there is one. */
static uint64_t first_place(const int32_t *from, const int32_t *to, uint64_t at, int32_t step)
{
    while (from[at] - to[at] != step)
        at++;
    return at;
}

/* Keeps the steps that end in a block: at `count` cut operands from `start` on. */
static void keep_steps(steps found[DISTANCES], yildegga_format table, uint64_t start, uint64_t count)
{
    const uint64_t first = UINT64_C(1) << bits(table);
    for (steps *kept = found; kept < found + DISTANCES; kept++) {
        const int32_t *to = block + BLOCK, *from = to - kept->d;
        const uint64_t begin = start == first ? kept->d : 0; /* none ends less than d behind the least operand */
        int32_t largest = -1, least = INT32_MAX;
        for (uint64_t i = begin; i < count; i++) {
            int32_t step = from[i] - to[i];
            largest = step > largest ? step : largest;
            least = step < least ? step : least;
        }
        if (least < 0 || largest > (int64_t)kept->limit) {
            int32_t wrong = least < 0 ? least : largest;
            fprintf(stderr, "measure: k = %" PRIu32 ", a = %" PRIu32 ", b = %" PRIu32 ": the step of %" PRIu64 " from t = %" PRIu64 " is %" PRId32
                    ", and not from 0 to %" PRIu64 "\n", table.precision, table.table_guard_bits, table.input_guard_bits, kept->d,
                    start + first_place(from, to, begin, wrong) - kept->d, wrong, kept->limit);
            exit(1);
        }
        if (largest > kept->largest) {
            kept->largest = largest;
            kept->at = start + first_place(from, to, begin, largest) - kept->d;
        }
        kept->least = least < kept->least ? least : kept->least;
    }
    memcpy(block, block + BLOCK, BLOCK * sizeof *block);
}

/* d/largest/at/least for each d, or d/none where no two cut operands lie so far apart */
static void print_steps(const steps found[DISTANCES])
{
    for (const steps *kept = found; kept < found + DISTANCES; kept++) {
        printf("%c%" PRIu64 "/", kept == found ? ' ' : ',', kept->d);
        if (kept->largest < 0)
            printf("none");
        else
            printf("%" PRId32 "/%" PRIu64 "/%" PRId32, kept->largest, kept->at, kept->least);
    }
}

#define PARTS 32 /* lengths are counted in 2^-32 of the distance from one cut operand to the next */

/* number / divisor in such parts, rounded down */
static uint64_t parts(uint64_t number, uint64_t divisor)
{
    return ((number / divisor) << PARTS) + ((number % divisor) << PARTS) / divisor;
}

static void measure(yildegga_format table)
{
    build(table); /* it turns a table back for which there is nothing below */
    const uint32_t k = table.precision;
    const uint64_t first = UINT64_C(1) << bits(table);
    const int64_t N = INT64_C(1) << (bits(table) + 2 * k + 1);
    error below = {0, 1}, above = {0, 1}, limit = {0, 1};
    uint64_t exact = 0, nearest = 0, sum = 0;
    uint64_t R = 0, from = 0, to = 0; /* R is nearest for the X between these two, in parts */
    uint64_t length = 0, edges = 0;   /* of the line of such X, in parts; it is off by less than one for each edge */
    steps found[DISTANCES];
    no_steps(found, table);

    for (uint64_t t = first; t < 2 * first; t++) {
        uint64_t given = reciprocal(table, t);
        if (given != R) {
            R = given;
            from = parts(2 * (uint64_t)N, 2 * R + 1);
            to = parts(2 * (uint64_t)N, 2 * R - 1);
        }
        sum += R;

        int64_t off = (int64_t)(R * t) - N;
        keep(&below, -off, (int64_t)t);
        keep(&above, off, (int64_t)t);
        keep(&limit, off + (int64_t)R, (int64_t)t + 1);
        exact += off == 0;
        nearest += 2 * (uint64_t)llabs(off) < t; /* never equal: t * (2R + 1) and t * (2R - 1) are no powers of two */

        uint64_t low = t << PARTS, high = (t + 1) << PARTS;
        edges += (low <= from && from < high) + (low <= to && to < high);
        low = low < from ? from : low;
        high = to < high ? to : high;
        length += low < high ? high - low : 0;

        uint64_t place = (t - first) % BLOCK;
        block[BLOCK + place] = (int32_t)R;
        if (place == BLOCK - 1 || t == 2 * first - 1)
            keep_steps(found, table, t - place, place + 1);
    }
    printf("%" PRIu32 " %" PRIu32 " %" PRIu32, k, table.table_guard_bits, table.input_guard_bits);
    printf(" %" PRIu64 " %" PRIu64, first, sum);
    printf(" %" PRId64 "/%" PRId64, below.over, below.under);
    printf(" %" PRId64 "/%" PRId64, above.over, above.under);
    printf(" %" PRId64 "/%" PRId64, limit.over, limit.under);
    printf(" %" PRIu64 " %" PRIu64 " %" PRIu64 " %" PRIu64, exact, nearest, length, edges);
    print_steps(found);
    putchar('\n');
}

static void every_precision(void)
{
    for (uint32_t k = YILDEGGA_LEAST_PRECISION; k <= YILDEGGA_GREATEST_PRECISION; k++)
        measure(YILDEGGA_PLAIN(k));
}

static void every_choice_of_guard_bits(uint32_t k)
{
    for (uint32_t a = YILDEGGA_LEAST_TABLE_GUARD_BITS; a <= YILDEGGA_GREATEST_TABLE_GUARD_BITS; a++)
        for (uint32_t b = YILDEGGA_LEAST_INPUT_GUARD_BITS; b <= YILDEGGA_GREATEST_INPUT_GUARD_BITS; b++)
            measure(YILDEGGA_TABLE(k, 0, a, b));
}

static void sweep(uint32_t k)
{
    const yildegga_format table = YILDEGGA_PLAIN(k);
    build(table); /* it turns a k back for which there is nothing below */
    const uint64_t first = UINT64_C(1) << bits(table);

    for (uint32_t j = 0; j <= UINT32_C(1) << k; j++) {
        yildegga_node_read node = yildegga_node(table, image, sizeof image, j);
        served(node.number);
        printf("node %" PRIu32 " %" PRIu64 "\n", j, node.value.count);
    }
    for (uint64_t t = first; t < 2 * first; t++)
        printf("cut %" PRIu64 " %" PRIu64 "\n", t, reciprocal(table, t));
}

int main(int count, char **words)
{
    if (count == 3 && strcmp(words[1], "sweep") == 0) {
        sweep((uint32_t)strtoul(words[2], NULL, 10));
    } else if (count <= 2) {
        puts("k a b operands sum below above limit exact nearest length edges steps");
        if (count == 2)
            every_choice_of_guard_bits((uint32_t)strtoul(words[1], NULL, 10));
        else
            every_precision();
    } else {
        fputs("usage: measure [K | sweep K]\n", stderr);
        return 2;
    }
    return 0;
}
