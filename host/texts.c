// The version, and the texts of refusals and errors.
#include <string.h>

#include "cases.h"
#include "check.h"
#include "optes.h"

typedef const char *text_of(uint64_t number);

// A number, and words of document 01 that its text has.
struct said {
    uint64_t number;
    const char *words;
};

static const struct said refusals[] = {
    {0, "not refused"}, {1, "fields, order or lengths"}, {2, "not 6G0 or its sender not 01000"},
    {3, "slash or identifier"}, {4, "types of operation"}, {5, "most bids"}, {6, "forward date"},
    {7, "strictly rising"}, {8, "is revoked"}, {9, "closed or announced"}, {10, "date or time is invalid"},
    {11, "under 436"}, {12, "read as a 6G1"}, {13, "cut-off has not passed"}, {14, "is open"},
    {15, "is announced"}, {16, "999,999,999,999,999,999"}, {17, "too wide"}, {18, "339, 348 or 357"},
    {19, "as many as the admitted codes"}, {20, "over fifteen digits"},
    {100, "no tender"},
};

static const struct said errors[] = {
    {900, "type is not 6G1"}, {309, "sender is not digits, or a slash"}, {300, "not admitted"}, {599, "not 01000"},
    {521, "CRO"}, {502, "is no date"}, {522, "execution date"}, {503, "is no time"}, {302, "not later"},
    {908, "check digit"}, {303, "identifier"}, {901, "malformed"}, {902, "after a zero one"},
    {903, "more places"}, {904, "last three digits"}, {905, "below the minimum"}, {906, "multiple"},
    {907, "above the maximum"}, {301, "later than the cut-off"},
};

#define COUNT(array) (sizeof array / sizeof *array)

// The text has the words of its number, and no later one of the list has the same text.
static void expect_own(text_of *text, const struct said *list, size_t count)
{
    const char *own = text(list[0].number);
    CHECK(own != NULL);
    CHECK(strstr(own, list[0].words) != NULL);
    for (size_t k = 1; k < count; k++)
        CHECK(strcmp(own, text(list[k].number)) != 0);
}

// Each number of the list has a text of its own, and this one, which is not of the list, has another.
static void expect_texts(text_of *text, const struct said *list, size_t count, uint64_t unknown)
{
    for (size_t k = 0; k < count; k++) {
        expect_own(text, list + k, count - k);
        CHECK(strcmp(text(list[k].number), text(unknown)) != 0);
    }
}

static size_t count_of(const struct said *list, size_t count, uint64_t number)
{
    size_t found = 0;
    for (size_t k = 0; k < count; k++)
        found += list[k].number == number;
    return found;
}

// All numbers below 1,000 that are not of the list have one text, and those whose low 32 bits are of it.
static void expect_unknown(text_of *text, const struct said *list, size_t count, const char *words)
{
    for (uint64_t n = 0; n < 1000; n++) {
        const char *found = text(n);
        CHECK(found != NULL);
        CHECK((strcmp(found, words) == 0) == (count_of(list, count, n) == 0));
    }
    for (size_t k = 0; k < count; k++)
        CHECK(strcmp(text(list[k].number + UINT64_C(4294967296)), words) == 0);
    CHECK(strcmp(text(UINT64_MAX), words) == 0);
}

// The string and the number are one version.
static void version(void)
{
    char written[32];
    snprintf(written, sizeof written, "%d.%d.%d", OPTES_VERSION_NUMBER / 10000,
        OPTES_VERSION_NUMBER / 100 % 100, OPTES_VERSION_NUMBER % 100);
    CHECK(strcmp(written, OPTES_VERSION) == 0);
}

void text_cases(void)
{
    version();
    expect_texts(optes_refusal_text, refusals, COUNT(refusals), 99);
    expect_unknown(optes_refusal_text, refusals, COUNT(refusals), "a number that no call returns");
    expect_texts(optes_error_text, errors, COUNT(errors), 0);
    expect_unknown(optes_error_text, errors, COUNT(errors), "a code that no message is returned with");
}
