#include "expect.h"

#include "check.h"
#include "message.h"
#include "optes.h"

void expect_fields(const uint8_t *m)
{
    CHECK(optes_6g1_read(m, MESSAGE_BYTES) == 0);
    for (uint32_t k = 0; k < FIELDS; k++) {
        CHECK(optes_6g1_has_field(m, MESSAGE_BYTES, k) == 1);
        CHECK(optes_6g1_start(m, MESSAGE_BYTES, k) == fields[k].start);
        CHECK(optes_6g1_length(m, MESSAGE_BYTES, k) == fields[k].length);
    }
}

static void expect_no_number(const uint8_t *m, size_t n, uint32_t field)
{
    CHECK(optes_6g1_has_number(m, n, field) == 0);
    CHECK(optes_6g1_number(m, n, field) == 0);
}

void expect_numbers(const uint8_t *m, uint32_t without)
{
    for (uint32_t k = 0; k < DIGIT_FIELDS; k++) {
        uint32_t field = OPTES_6G1_SENDER + k;
        if (without >> k & 1) {
            expect_no_number(m, MESSAGE_BYTES, field);
        } else {
            CHECK(optes_6g1_has_number(m, MESSAGE_BYTES, field) == 1);
            CHECK(optes_6g1_number(m, MESSAGE_BYTES, field) == numbers[k].value);
        }
    }
    expect_no_number(m, MESSAGE_BYTES, OPTES_6G1_TYPE);
    expect_no_number(m, MESSAGE_BYTES, OPTES_6G1_IDENTIFIER);
    expect_no_number(m, MESSAGE_BYTES, OPTES_6G1_BIDS);
    expect_no_number(m, MESSAGE_BYTES, OPTES_6G1_NAME);
}

void expect_places(const uint8_t *m, uint32_t malformed)
{
    for (uint32_t k = 0; k < PLACES; k++) {
        if (malformed >> k & 1) {
            expect_no_place(m, MESSAGE_BYTES, k);
        } else {
            CHECK(optes_6g1_has_place(m, MESSAGE_BYTES, k) == 1);
            CHECK(optes_6g1_rate(m, MESSAGE_BYTES, k) == rate_of(k)->value);
            CHECK(optes_6g1_amount(m, MESSAGE_BYTES, k) == amount_of(k)->value);
        }
    }
}

void expect_unreadable(const uint8_t *m, size_t n)
{
    CHECK(optes_6g1_read(m, n) == 12);
    for (uint32_t k = 0; k < FIELDS; k++)
        expect_no_field(m, n, k);
    for (uint32_t k = 0; k < PLACES; k++)
        expect_no_place(m, n, k);
}

void expect_no_field(const uint8_t *m, size_t n, uint32_t field)
{
    CHECK(optes_6g1_has_field(m, n, field) == 0);
    CHECK(optes_6g1_start(m, n, field) == 0);
    CHECK(optes_6g1_length(m, n, field) == 0);
    expect_no_number(m, n, field);
}

void expect_no_place(const uint8_t *m, size_t n, uint32_t place)
{
    CHECK(optes_6g1_has_place(m, n, place) == 0);
    CHECK(optes_6g1_rate(m, n, place) == 0);
    CHECK(optes_6g1_amount(m, n, place) == 0);
}
