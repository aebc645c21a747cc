#include "figures.h"

#include <inttypes.h>
#include <stdio.h>
#include <string.h>

// Writes the euros with a comma before each group of three digits.
static void group(char *to, uint64_t euros)
{
    char digits[FIGURE_ROOM];
    size_t count = (size_t)snprintf(digits, sizeof digits, "%" PRIu64, euros);
    for (size_t i = 0; i < count; i++) {
        if (i > 0 && (count - i) % 3 == 0)
            *to++ = ',';
        *to++ = digits[i];
    }
    *to = '\0';
}

struct figure euro(uint64_t cents)
{
    struct figure f;
    group(f.text, cents / 100);
    size_t length = strlen(f.text);
    snprintf(f.text + length, sizeof f.text - length, ".%02" PRIu64, cents % 100);
    return f;
}

struct figure percent(uint64_t rate)
{
    struct figure f;
    snprintf(f.text, sizeof f.text, "%" PRIu64 ".%05" PRIu64, rate / 100000, rate % 100000);
    return f;
}

struct figure day(uint64_t date)
{
    struct figure f;
    snprintf(f.text, sizeof f.text, "%02" PRIu64 ".%02" PRIu64 ".%04" PRIu64, date / 1000000,
        date / 10000 % 100, date % 10000);
    return f;
}

struct figure hour(uint64_t time)
{
    struct figure f;
    snprintf(f.text, sizeof f.text, "%02" PRIu64 ":%02" PRIu64 ":%02" PRIu64, time / 10000,
        time / 100 % 100, time % 100);
    return f;
}
