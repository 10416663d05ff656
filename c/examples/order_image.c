/* Orders a ROM: builds the image of precision K, writes it to FILE, and prints K and the bytes written.
 *
 *     order_image [--full] [-a A] [-b B] [--size SIZE] K FILE
 *
 * The words are plain, or full with --full. The table has A table guard bits and B input guard bits, 2 and 3 where they
 * are not given. With --size, zeros follow the image to the last of SIZE bytes. The exit status is 1 where the library
 * turns the call back, and 2 where the arguments, the memory, the file or the output do not allow it. */
#include <errno.h>
#include <inttypes.h>
#include <stdio.h>
#include <stdlib.h>
#include <string.h>
#include "caller.h"

static const struct program program = {"order_image", "[--full] [-a A] [-b B] [--size SIZE] K FILE", true, 2, 2};

/* Builds the ROM in the lent bytes, writes them to the file and prints the line. It gives the exit status. */
static int order(yildegga_format format, const char *name, uint8_t *rom, size_t size)
{
    yildegga_done built = yildegga_build(format, rom, size);
    if (built.number != YILDEGGA_SERVED)
        return turned_back("order_image", built.number);

    FILE *file = fopen(name, "wb");
    bool written = file && fwrite(rom, 1, size, file) == size;
    if (file && fclose(file) != 0)
        written = false;
    if (!written) {
        fprintf(stderr, "order_image: %s: %s\n", name, strerror(errno));
        return NOT_CALLED;
    }
    printf("%" PRIu32 " %zu\n", format.precision, size);
    if (fflush(stdout) != 0)
        return not_called("order_image", strerror(errno));
    return 0;
}

int main(int argc, char **argv)
{
    struct call call;
    uint32_t k;
    if (!read_call(program, argc, argv, &call) || !read_word(program, "K", call.words[0], &k))
        return NOT_CALLED;
    yildegga_format format = asked(&call, k);
    size_t size = yildegga_image_length(format); /* 0 where there is no table, whatever the size asked for */
    if (size > 0 && call.options[SIZE].given)
        size = call.options[SIZE].number;

    uint8_t *rom = malloc(size);
    if (!rom && size > 0) /* with no bytes NULL is as good as another pointer: the library turns the call back */
        return not_called("order_image", "out of memory");
    int status = order(format, call.words[1], rom, size);
    free(rom);
    return status;
}
