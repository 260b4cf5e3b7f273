#include "program.h"

void fill(uint8_t *to, uint8_t byte, uint32_t len)
{
    for (uint32_t i = 0; i < len; i++)
        to[i] = byte;
}

void copy(uint8_t *to, const uint8_t *from, uint32_t len)
{
    for (uint32_t i = 0; i < len; i++)
        to[i] = from[i];
}

int same(const uint8_t *one, const uint8_t *other, uint32_t len)
{
    uint32_t i = 0;
    while (i < len && one[i] == other[i])
        i++;
    return i == len;
}

int all(const uint8_t *bytes, uint8_t byte, uint32_t len)
{
    uint32_t i = 0;
    while (i < len && bytes[i] == byte)
        i++;
    return i == len;
}
