/* Prints what the header says in words: the version, as three numbers and as a string, then the text of each number
   from 0 to 299 and of some of 32 bits, a line each. */
#include <inttypes.h>
#include <stdio.h>
#include <yildegga.h>

#if YILDEGGA_VERSION_MAJOR < 0 || YILDEGGA_VERSION_MINOR < 0 || YILDEGGA_VERSION_PATCH < 0
#error "the preprocessor does not know the version's numbers"
#endif

static void text_of(uint32_t number)
{
    printf("%" PRIu32 " %s\n", number, yildegga_refusal_text(number));
}

int main(void)
{
    static const uint32_t far[] = {65536, 65554, UINT32_C(1) << 31, (UINT32_C(1) << 31) + 18, UINT32_MAX};
    printf("%d %d %d\n%s\n", YILDEGGA_VERSION_MAJOR, YILDEGGA_VERSION_MINOR, YILDEGGA_VERSION_PATCH, YILDEGGA_VERSION);
    for (uint32_t number = 0; number < 300; number++)
        text_of(number);
    for (size_t each = 0; each < sizeof far / sizeof far[0]; each++)
        text_of(far[each]);
    return 0;
}
