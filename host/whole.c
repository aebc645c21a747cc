// The numbers of a whole message are those of the single calls, as many as the array has room for.
#include "whole.h"

#include <string.h>

#include "cases.h"
#include "check.h"
#include "message.h"
#include "optes.h"
#include "pattern.h"

// The answer to a call with an array of so many numbers, filled with the pattern before.
struct answer {
    uint32_t refusal;
    const uint64_t *numbers;
};

static struct answer asked(const struct buffers *b, const uint8_t *m, size_t n, size_t count)
{
    uint8_t *array = guarded_bytes(&b->space, count * sizeof(uint64_t));
    pattern_put(array, count * sizeof(uint64_t));
    uint64_t *numbers = (uint64_t *)(void *)array;
    return (struct answer){optes_6g1_numbers(m, n, numbers, count), numbers};
}

// The entries from this one on hold the pattern still.
static void expect_untouched(const uint64_t *numbers, size_t from, size_t count)
{
    pattern_expect((const uint8_t *)numbers, from * sizeof(uint64_t), count * sizeof(uint64_t));
}

// The numbers that the single calls tell of the message, whose addresses are short.
static void tell(uint64_t *told, const uint8_t *m)
{
    for (uint32_t k = 0; k < DIGIT_FIELDS; k++) {
        told[2 * k] = optes_6g1_number(m, MESSAGE_BYTES, k + 1);
        told[2 * k + 1] = optes_6g1_has_number(m, MESSAGE_BYTES, k + 1);
    }
    for (uint32_t k = 0; k < PLACES; k++) {
        told[12 + 3 * k] = optes_6g1_rate(m, MESSAGE_BYTES, k);
        told[13 + 3 * k] = optes_6g1_amount(m, MESSAGE_BYTES, k);
        told[14 + 3 * k] = optes_6g1_has_place(m, MESSAGE_BYTES, k);
    }
    told[42] = optes_6g1_start(m, MESSAGE_BYTES, 0);
    told[43] = optes_6g1_start(m, MESSAGE_BYTES, 7);
    told[44] = optes_6g1_start(m, MESSAGE_BYTES, 9);
    for (size_t k = 45; k < WHOLE_NUMBERS; k++)
        told[k] = 0;
}

// An array of so many entries gets the numbers that it has room for, and those past them stay.
static void expect_read(const struct buffers *b, const uint8_t *m, size_t n, const uint64_t *told,
    size_t count)
{
    struct answer a = asked(b, m, n, count);
    size_t given = count < WHOLE_NUMBERS ? count : WHOLE_NUMBERS;
    CHECK(a.refusal == 0);
    for (size_t k = 0; k < given; k++)
        CHECK(a.numbers[k] == told[k]);
    expect_untouched(a.numbers, given, count);
}

// An array of so many entries is refused with 12 and stays.
static void expect_refused(const struct buffers *b, const uint8_t *m, size_t n, size_t count)
{
    struct answer a = asked(b, m, n, count);
    CHECK(a.refusal == 12);
    expect_untouched(a.numbers, 0, count);
}

// Arrays of every length from none to one more than the numbers, and a longer one.
#define LENGTHS (WHOLE_NUMBERS + 3)

static size_t length_of(size_t index)
{
    return index < LENGTHS - 1 ? index : 90;
}

void expect_whole(const struct buffers *b, const uint8_t *m, size_t n, const uint64_t *told)
{
    for (size_t i = 0; i < LENGTHS; i++) {
        if (told == NULL)
            expect_refused(b, m, n, length_of(i));
        else
            expect_read(b, m, n, told, length_of(i));
    }
}

// The n bytes into every array.
static void every_array(const struct buffers *b, const uint8_t *m, size_t n)
{
    uint64_t told[WHOLE_NUMBERS];
    if (optes_6g1_read(m, n)) {
        expect_whole(b, m, n, NULL);
        return;
    }
    tell(told, m);
    expect_whole(b, m, n, told);
}

// The message as it is: its numbers by document 01, at the indices of the header.
static void valid(const struct buffers *b)
{
    const uint8_t *m = guarded_copy(&b->message, message, MESSAGE_BYTES);
    const uint64_t *told = asked(b, m, MESSAGE_BYTES, OPTES_6G1_NUMBERS).numbers;
    const size_t field[DIGIT_FIELDS] = {
        OPTES_6G1_NUMBERS_SENDER, OPTES_6G1_NUMBERS_RECIPIENT, OPTES_6G1_NUMBERS_CRO,
        OPTES_6G1_NUMBERS_DATE, OPTES_6G1_NUMBERS_TIME, OPTES_6G1_NUMBERS_CHECK,
    };
    for (size_t k = 0; k < DIGIT_FIELDS; k++)
        CHECK(told[field[k]] == numbers[k].value && told[field[k] + 1] == 1);
    for (size_t k = 0; k < PLACES; k++) {
        const uint64_t *place = told + OPTES_6G1_NUMBERS_PLACES + OPTES_6G1_PLACE_NUMBERS * k;
        CHECK(place[0] == rate_of(k)->value && place[1] == amount_of(k)->value && place[2] == 1);
    }
    CHECK(told[OPTES_6G1_NUMBERS_TYPE] == fields[OPTES_6G1_TYPE].start);
    CHECK(told[OPTES_6G1_NUMBERS_IDENTIFIER] == fields[OPTES_6G1_IDENTIFIER].start);
    CHECK(told[OPTES_6G1_NUMBERS_NAME] == fields[OPTES_6G1_NAME].start);
    for (size_t k = 0; k < OPTES_6G1_ADDRESS_NUMBERS; k++) {
        CHECK(told[OPTES_6G1_NUMBERS_SENDER_ADDRESS + k] == 0);
        CHECK(told[OPTES_6G1_NUMBERS_RECIPIENT_ADDRESS + k] == 0);
    }
    CHECK(memcmp(m, message, MESSAGE_BYTES) == 0);
}

// Each byte of the message, those of the heads too, with bytes that are no digits and with a digit.
static void damaged(const struct buffers *b)
{
    uint8_t *m = guarded_copy(&b->message, message, MESSAGE_BYTES);
    for (size_t at = 0; at < MESSAGE_BYTES; at++) {
        for (size_t i = 0; i < NO_DIGITS; i++) {
            m[at] = no_digits[i];
            every_array(b, m, MESSAGE_BYTES);
        }
        m[at] = '7';
        every_array(b, m, MESSAGE_BYTES);
        m[at] = (uint8_t)message[at];
    }
}

// Every length from 0 to 400, the message and then zeros.
static void lengths(const struct buffers *b)
{
    uint8_t longest[400] = {0};
    memcpy(longest, message, MESSAGE_BYTES);
    for (size_t n = 0; n <= sizeof longest; n++)
        every_array(b, guarded_copy(&b->message, longest, n), n);
}

void whole_cases(const struct buffers *b)
{
    valid(b);
    damaged(b);
    lengths(b);
}
