/* Reads a mask file back as a full ROM of precision K, an image with zeros behind it to the file's end, and prints
 * `right` or what is wrong.
 *
 *     proofread [--full] [-a A] [-b B] K FILE
 *
 * The words are plain, or full with --full. The table has A table guard bits and B input guard bits, 2 and 3 where they
 * are not given. Where words are wrong, the first one is shown, with the bytes that hold it and what they should be,
 * and the wrong words are counted. Where every word is right, the first byte is shown that has a set bit behind them, a
 * filling bit or a bit past the image. The file is read whole, whatever its size. The exit status is 1 where something
 * is wrong or the library turns the call back, and 2 where the arguments, the memory, the file or the output do not
 * allow it. */
#include <errno.h>
#include <inttypes.h>
#include <stdio.h>
#include <stdlib.h>
#include <string.h>
#include "caller.h"

static const struct program program = {"proofread", "[--full] [-a A] [-b B] K FILE", false, 2, 2};

/* Reads a file to its end, into a block that doubles as long as it is filled. NULL, with errno set, where that cannot
   be done. */
static uint8_t *read_whole(const char *name, size_t *length)
{
    FILE *file = fopen(name, "rb");
    if (!file)
        return NULL;
    uint8_t *bytes = NULL;
    size_t room = 0, count = 0;
    bool able = true;
    while (able && count == room) {
        size_t larger = room ? 2 * room : 65536;
        uint8_t *grown = realloc(bytes, larger);
        if (grown) {
            bytes = grown;
            room = larger;
            count += fread(bytes + count, 1, room - count, file);
        }
        able = grown && !ferror(file);
    }
    int why = errno;
    fclose(file);
    if (!able) {
        free(bytes);
        errno = why;
        return NULL;
    }
    *length = count;
    return bytes;
}

/* Prints bytes in hex, each after a space. */
static void print_hex(const uint8_t *bytes, size_t count)
{
    for (size_t at = 0; at < count; at++)
        printf(" %02X", bytes[at]);
}

/* Prints the wrong word of node j, the first one, beside the right image, and how many words are wrong. */
static void print_word(yildegga_format format, const uint8_t *right, const uint8_t *rom, size_t length, uint32_t j)
{
    yildegga_part at = yildegga_word_bytes(format, rom, length, j);
    yildegga_node_read node = yildegga_node(format, right, YILDEGGA_ANY_LONGEST_IMAGE, j);
    printf("wrong word at node %" PRIu32 ", bytes %zu to %zu:", j, at.offset, at.offset + at.count - 1);
    print_hex(rom + at.offset, at.count);
    printf("\nshould be");
    print_hex(right + at.offset, at.count);
    printf(": node %" PRIu32 " is %" PRIu64 " table units\n", j, node.value.count);

    uint32_t words = YILDEGGA_TABLE_WORD_COUNT(format.precision, format.form), wrong = 0;
    for (uint32_t each = j; each < words; each++)
        wrong += yildegga_node(format, rom, length, each).number == YILDEGGA_WRONG_WORD;
    printf("wrong words: %" PRIu32 " of %" PRIu32 "\n", wrong, words);
}

/* Prints the first byte with a set bit behind the words, beside the right image. */
static void print_tail(yildegga_format format, const uint8_t *right, const uint8_t *rom, size_t at)
{
    size_t image = yildegga_image_length(format);
    printf("wrong %s at byte %zu:", at < image ? "filling bits" : "tail", at);
    print_hex(rom + at, 1);
    printf("\nshould be");
    print_hex(at < image ? right + at : (const uint8_t *)"", 1);
    printf(": the image is bytes 0 to %zu\n", image - 1);
}

/* Checks the bytes of a file and prints what is found. It gives the exit status. */
static int proofread(yildegga_format format, const uint8_t *rom, size_t length)
{
    static uint8_t right[YILDEGGA_ANY_LONGEST_IMAGE];
    yildegga_done checked = yildegga_check(format, rom, length);
    yildegga_build(format, right, sizeof right); /* the image, where there is one of the format */
    switch (checked.number) {
    case YILDEGGA_SERVED:
        printf("right\n");
        break;
    case YILDEGGA_WRONG_WORD:
        print_word(format, right, rom, length, (uint32_t)checked.place);
        break;
    case YILDEGGA_TAIL_NOT_ZERO:
        print_tail(format, right, rom, (size_t)checked.place);
        break;
    case YILDEGGA_SHORT_BUFFER:
        fprintf(stderr, "proofread: refusal 2: %s: the file has %zu bytes, and the image %zu\n",
                yildegga_refusal_text(checked.number), length, yildegga_image_length(format));
        return TURNED_BACK;
    default:
        return turned_back("proofread", checked.number);
    }
    if (fflush(stdout) != 0)
        return not_called("proofread", strerror(errno));
    return checked.number == YILDEGGA_SERVED ? 0 : TURNED_BACK;
}

int main(int argc, char **argv)
{
    struct call call;
    uint32_t k;
    if (!read_call(program, argc, argv, &call) || !read_word(program, "K", call.words[0], &k))
        return NOT_CALLED;
    size_t length;
    uint8_t *rom = read_whole(call.words[1], &length);
    if (!rom) {
        fprintf(stderr, "proofread: %s: %s\n", call.words[1], errno == ENOMEM ? "out of memory" : strerror(errno));
        return NOT_CALLED;
    }
    int status = proofread(asked(&call, k), rom, length);
    free(rom);
    return status;
}
