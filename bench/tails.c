#include "tails.h"
#include "reading.h"

void tail_zeros(uint8_t *buffer, size_t from, size_t length)
{
    memset(buffer + from, 0, length - from);
}

size_t tail_read(const uint8_t *buffer, size_t from, size_t length)
{
    return first_set(buffer, from, length);
}
