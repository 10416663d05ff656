/* What the examples share: how a program is called, a number from text, and the exit statuses besides 0. */
#ifndef CALLER_H
#define CALLER_H

#include <inttypes.h>
#include <stdbool.h>
#include <stddef.h>
#include <stdio.h>
#include <string.h>
#include <yildegga.h>

#define TURNED_BACK 1 /* the library turned a call back, or found a wrong word or tail */
#define NOT_CALLED 2  /* the arguments, the memory, the input, a file or the output did not allow it */

/* Says on standard error what a program was stopped by, and gives the exit status. */
static inline int turned_back(const char *program, uint32_t number)
{
    fprintf(stderr, "%s: refusal %" PRIu32 ": %s\n", program, number, yildegga_refusal_text(number));
    return TURNED_BACK;
}

static inline int not_called(const char *program, const char *why)
{
    fprintf(stderr, "%s: %s\n", program, why);
    return NOT_CALLED;
}

/* ---- numbers */

/* Reads a number that is written in decimal digits alone, no sign and no space, and is at most `most`. */
static inline bool read_number(const char *text, size_t length, uint64_t most, uint64_t *value)
{
    uint64_t sum = 0;
    for (size_t at = 0; at < length; at++) {
        if (text[at] < '0' || text[at] > '9')
            return false;
        uint64_t digit = (uint64_t)(text[at] - '0');
        if (sum > (most - digit) / 10)
            return false;
        sum = 10 * sum + digit;
    }
    *value = sum;
    return length > 0;
}

/* ---- the call of a program */

/* A program: its name, what follows it in a call, whether it has the option --size, and how many words it takes besides
   the options. */
struct program { const char *name; const char *usage; bool sizes; int least, most; };

/* The options, as they stand in a call. */
enum { FULL, A, B, SIZE, OPTIONS };

/* An option: its name, whether a number follows it, which one, and whether it is given. */
struct option { const char *name; bool numbered; uint32_t number; bool given; };

/* A call: the options, with the usual guard bits where none are given, and the other words in their order. */
struct call { struct option options[OPTIONS]; int count; char **words; };

/* Says on standard error what is wrong with a word of a call, and how the program is called. */
static inline bool misused(struct program program, const char *word, const char *why)
{
    fprintf(stderr, "%s: %s %s; usage: %s %s\n", program.name, word, why, program.name, program.usage);
    return false;
}

/* Reads the number that stands for `name` in a call. False, with a message, where it is none of 32 bits. */
static inline bool read_word(struct program program, const char *name, const char *text, uint32_t *number)
{
    uint64_t wide;
    if (!read_number(text, strlen(text), UINT32_MAX, &wide))
        return misused(program, name, "is not a number below 2^32");
    *number = (uint32_t)wide;
    return true;
}

/* Takes a call apart. A word that begins with `-` is an option, wherever it stands. False, with a message, where an
   option is none of the program's, stands twice or lacks its number, or where there are too few or too many words. The
   words are moved to the front of `argv`. */
static inline bool read_call(struct program program, int argc, char **argv, struct call *call)
{
    *call = (struct call){{{"--full", false, 0, false}, {"-a", true, 2, false}, {"-b", true, 3, false},
                           {"--size", true, 0, false}}, 0, argv};
    for (int at = 1; at < argc; at++) {
        char *word = argv[at];
        if (word[0] != '-') {
            call->words[call->count++] = word;
            continue;
        }
        struct option *option = call->options, *end = option + (program.sizes ? OPTIONS : SIZE);
        while (option < end && strcmp(word, option->name) != 0)
            option++;
        if (option == end)
            return misused(program, word, "is no option");
        if (option->given)
            return misused(program, word, "stands twice");
        option->given = true;
        if (option->numbered && ++at == argc)
            return misused(program, word, "has no number behind it");
        if (option->numbered && !read_word(program, word, argv[at], &option->number))
            return false;
    }
    if (call->count < program.least || call->count > program.most) {
        fprintf(stderr, "%s: usage: %s %s\n", program.name, program.name, program.usage);
        return false;
    }
    return true;
}

/* The table of precision k that a call asks for. */
static inline yildegga_format asked(const struct call *call, uint32_t k)
{
    uint32_t form = call->options[FULL].given ? YILDEGGA_FULL_WORDS : YILDEGGA_PLAIN_WORDS;
    return YILDEGGA_TABLE(k, form, call->options[A].number, call->options[B].number);
}

#endif
