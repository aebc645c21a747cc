// Which digit fields and places have numbers.
#include <string.h>

#include "cases.h"
#include "check.h"
#include "expect.h"
#include "message.h"
#include "optes.h"

// Digit field k with a byte that is no digit at each position in turn; the other five keep their
// numbers, and the ten places theirs.
static void digit_field(const struct buffers *b, size_t k, uint8_t other)
{
    uint8_t *m = guarded_copy(&b->message, message, MESSAGE_BYTES);
    for (size_t i = 0; i < numbers[k].digits; i++) {
        size_t at = numbers[k].start + i;
        m[at] = other;
        expect_fields(m);
        expect_numbers(m, 1u << k);
        expect_places(m, 0);
        m[at] = (uint8_t)message[at];
    }
}

static void digit_fields(const struct buffers *b)
{
    for (size_t k = 0; k < DIGIT_FIELDS; k++)
        for (size_t i = 0; i < NO_DIGITS; i++)
            digit_field(b, k, no_digits[i]);
}

// A D31 and a 601 of nines are no date and no time, but digits: they have their numbers.
static void no_date(const struct buffers *b)
{
    uint8_t *m = guarded_copy(&b->message, message, MESSAGE_BYTES);
    memset(m + 39, '9', 8);
    memset(m + 50, '9', 6);
    expect_fields(m);
    CHECK(optes_6g1_has_number(m, MESSAGE_BYTES, OPTES_6G1_DATE) == 1);
    CHECK(optes_6g1_number(m, MESSAGE_BYTES, OPTES_6G1_DATE) == 99999999);
    CHECK(optes_6g1_has_number(m, MESSAGE_BYTES, OPTES_6G1_TIME) == 1);
    CHECK(optes_6g1_number(m, MESSAGE_BYTES, OPTES_6G1_TIME) == 999999);
}

// Place k with another byte at a position of its own; the other nine keep their numbers.
static void malformed_place(const struct buffers *b, size_t k, size_t i, uint8_t other)
{
    uint8_t *m = guarded_copy(&b->message, message, MESSAGE_BYTES);
    m[81 + 24 * k + i] = other;
    expect_fields(m);
    expect_numbers(m, 0);
    expect_places(m, 1u << k);
}

// Each place with a byte that is no digit at each position, and with something else for its slash.
static void malformed_places(const struct buffers *b)
{
    for (size_t k = 0; k < PLACES; k++) {
        for (size_t i = 0; i < 24; i++)
            for (size_t j = 0; j < NO_DIGITS; j++)
                if (i != 8 || no_digits[j] != '/')
                    malformed_place(b, k, i, no_digits[j]);
        malformed_place(b, k, 8, '0');
    }
}

// The first, a middle and the last place malformed at once, then all ten.
static void several_places(const struct buffers *b)
{
    uint8_t *m = guarded_copy(&b->message, message, MESSAGE_BYTES);
    memset(m + 81, '0', 24);
    m[81 + 24 * 4] = ' ';
    m[320] = ':';
    expect_places(m, 1u << 0 | 1u << 4 | 1u << 9);
    memset(m + 81, ' ', 240);
    expect_fields(m);
    expect_numbers(m, 0);
    expect_places(m, (1u << PLACES) - 1);
}

// Type, identifier, bids and name of digits only: they are no digit fields and have no number.
static void texts_of_digits(const struct buffers *b)
{
    uint8_t *m = guarded_copy(&b->message, message, MESSAGE_BYTES);
    memset(m + 3, '7', 3);
    memset(m + 67, '7', 11);
    memset(m + 81, '7', 240);
    memset(m + 324, '7', 15);
    expect_fields(m);
    expect_numbers(m, 0);
    expect_places(m, (1u << PLACES) - 1);
}

void number_cases(const struct buffers *b)
{
    digit_fields(b);
    no_date(b);
    malformed_places(b);
    several_places(b);
    texts_of_digits(b);
}
