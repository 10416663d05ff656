/* Lends bytes that end where the machine lets nothing be read or written: a call that touches one behind them is
   stopped. All is done in both forms and with all guard bits. For the calls that take the image alone, the image
   ends there, and the buffer is said to go on; for the builder and the check, which take the tail too, the buffer
   ends there. Where nothing is stopped, it prints how many calls answered as they should, and how many there were. */
#define _DEFAULT_SOURCE /* mmap's MAP_ANONYMOUS */
#include <stdbool.h>
#include <stdio.h>
#include <string.h>
#include <sys/mman.h>
#include <yildegga.h>

#define COUNT(list) (sizeof(list) / sizeof((list)[0]))
#define PAGE 4096u
#define PAGES 8u    /* the longest image and the longest tail have room in them, with the guard */
#define GUARD 256u  /* bytes before the buffer */
#define FOUND 0xA5u /* what all bytes hold before a build */

static uint8_t *pages, *end; /* the bytes that can be touched, and the first that cannot */
static unsigned long calls, right;

static void see(bool as_it_should)
{
    calls++;
    right += as_it_should;
}

static bool all_are(const uint8_t *bytes, size_t count, uint8_t value)
{
    for (size_t at = 0; at < count; at++)
        if (bytes[at] != value)
            return false;
    return true;
}

/* The table that is asked for: its format, its image's bytes, its words, and the bits that they are. */
struct table { yildegga_format format; size_t image; uint32_t words; size_t bits; };

static struct table table_of(uint32_t k, uint32_t form, uint32_t a, uint32_t b)
{
    uint32_t words = YILDEGGA_TABLE_WORD_COUNT(k, form);
    return (struct table){YILDEGGA_TABLE(k, form, a, b), YILDEGGA_TABLE_IMAGE_LENGTH(k, form, a), words,
                          words * YILDEGGA_TABLE_WORD_BITS(k, form, a)};
}

static bool checked(struct table table, const uint8_t *rom, size_t length, uint32_t number, uint64_t place)
{
    yildegga_done answer = yildegga_check(table.format, rom, length);
    return answer.number == number && answer.place == place;
}

static void flip(uint8_t *bytes, size_t bit)
{
    bytes[bit / 8] ^= (uint8_t)(0x80 >> bit % 8);
}

/* The builder writes the tail to its last byte and the check reads it to there, and neither goes on. */
static void whole_buffer(struct table table, size_t tail)
{
    size_t image = table.image, length = image + tail;
    uint8_t *rom = end - length;
    memset(pages, FOUND, PAGES * PAGE);
    see(yildegga_build(table.format, rom, length).number == YILDEGGA_SERVED && all_are(rom + image, tail, 0) &&
        all_are(rom - GUARD, GUARD, FOUND));
    see(checked(table, rom, length, YILDEGGA_SERVED, 0));
    if (tail > 0) {
        rom[length - 1] = 1;
        see(checked(table, rom, length, YILDEGGA_TAIL_NOT_ZERO, length - 1));
        rom[image] = 0x80;
        see(checked(table, rom, length, YILDEGGA_TAIL_NOT_ZERO, image));
    }
    for (size_t bit = table.bits; bit < 8 * image; bit++) { /* the filling bits */
        flip(rom, bit);
        see(checked(table, rom, length, YILDEGGA_TAIL_NOT_ZERO, image - 1));
    }
    flip(rom, table.bits - 1); /* the last word */
    see(checked(table, rom, length, YILDEGGA_WRONG_WORD, table.words - 1));
}

/* The other calls read no byte past the image. */
static void image_alone(struct table table)
{
    uint32_t k = table.format.precision;
    uint8_t *image = end - table.image;
    size_t length = table.image + PAGE;
    yildegga_build(table.format, image, table.image);
    for (uint32_t j = 0; j < table.words; j++) {
        see(yildegga_node(table.format, image, length, j).number == YILDEGGA_SERVED);
        see(yildegga_word_bytes(table.format, image, length, j).count > 0);
    }
    for (uint32_t j = 0; j < YILDEGGA_LAST_NODE(k); j++) {
        uint64_t x = YILDEGGA_LAST_NODE(k) + j; /* node j itself, with k fraction bits; with 63 it is x << (63 - k) */
        see(yildegga_reciprocal(table.format, image, length, k, x).number == YILDEGGA_SERVED);
        see(yildegga_reciprocal(table.format, image, length, 63, x << (63 - k)).number == YILDEGGA_SERVED);
    }
}

static void all_of(struct table table)
{
    static const size_t tails[] = {0, 1, 2, 7, 8, 9, 15, 16, 17, 31, 32, 33, 63, 64, 65, 70, 127, 128, 129, 1000,
                                   3 * PAGE};
    for (size_t each = 0; each < COUNT(tails); each++)
        whole_buffer(table, tails[each]);
    image_alone(table);
}

int main(void)
{
    pages = mmap(NULL, (PAGES + 1) * PAGE, PROT_READ | PROT_WRITE, MAP_PRIVATE | MAP_ANONYMOUS, -1, 0);
    if (pages == MAP_FAILED || mprotect(pages + PAGES * PAGE, PAGE, PROT_NONE) != 0)
        return 3;
    end = pages + PAGES * PAGE;
    for (uint32_t k = YILDEGGA_LEAST_PRECISION; k <= YILDEGGA_GREATEST_PRECISION; k++)
        for (uint32_t a = YILDEGGA_LEAST_TABLE_GUARD_BITS; a <= YILDEGGA_GREATEST_TABLE_GUARD_BITS; a++)
            for (uint32_t b = YILDEGGA_LEAST_INPUT_GUARD_BITS; b <= YILDEGGA_GREATEST_INPUT_GUARD_BITS; b++) {
                all_of(table_of(k, YILDEGGA_PLAIN_WORDS, a, b));
                all_of(table_of(k, YILDEGGA_FULL_WORDS, a, b));
            }
    printf("%lu of %lu\n", right, calls);
    return right == calls ? 0 : 1;
}
