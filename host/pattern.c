#include "pattern.h"

#include "check.h"

static uint8_t pattern(size_t index)
{
    return (uint8_t)(0x80 | index * 37 % 127);
}

void pattern_put(uint8_t *bytes, size_t n)
{
    for (size_t i = 0; i < n; i++)
        bytes[i] = pattern(i);
}

void pattern_expect(const uint8_t *bytes, size_t from, size_t to)
{
    for (size_t i = from; i < to; i++)
        CHECK(bytes[i] == pattern(i));
}
