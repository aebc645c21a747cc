// What a tender tells of itself: its state, its terms, its codes and what it holds.
#include <string.h>

#include "cases.h"
#include "check.h"
#include "worked.h"

// The last call told these numbers, as many as it was lent room for.
static void expect_told(const struct desk *d, const uint64_t *numbers, size_t count)
{
    for (size_t k = 0; k < count && k < d->numbers; k++)
        CHECK(desk_told(d)[k] == numbers[k]);
}

static const uint64_t worked_terms[OPTES_BOOK_TERMS_NUMBERS] = {
    'T', '/', '2', '0', '1', '2', '/', '0', '0', '0', '1',
    1, 12032012, 110000, 3, 100000, 10000, 10000, 0, 0, 100000,
};

static const uint64_t worked_codes[OPTES_BOOK_CODES_NUMBERS] = {3, 90001, 90002, 90003};

static const uint64_t worked_limits[OPTES_BOOK_LIMITS_NUMBERS] = {3};

static const uint64_t worked_held[OPTES_BOOK_HELD_NUMBERS] = {
    1, 1, 102900, 150000, 0, 0, 0, 0, 0, 0, 0, 0, 0, 60000,
};

// The worked tender, told to arrays of every length from none to two more than are told.
static void every_length(const struct desk *d)
{
    const struct optes_book b = announced(d);
    struct desk other = *d;
    for (other.numbers = 0; other.numbers <= OPTES_BOOK_CODES_NUMBERS + 2; other.numbers++) {
        CHECK(call_terms(&other, &b) == 0);
        expect_told(&other, worked_terms, OPTES_BOOK_TERMS_NUMBERS);
        CHECK(call_codes(&other, &b) == 0);
        expect_told(&other, worked_codes, OPTES_BOOK_CODES_NUMBERS);
        CHECK(call_limits(&other, &b) == 0);
        expect_told(&other, worked_limits, OPTES_BOOK_LIMITS_NUMBERS);
        CHECK(call_held(&other, &b, 90002) == 0);
        expect_told(&other, worked_held, OPTES_BOOK_HELD_NUMBERS);
    }
}

// Every term other than the worked tender's.
static void other_terms(const struct desk *d)
{
    const uint64_t expected[OPTES_BOOK_TERMS_NUMBERS] = {
        'T', '/', '9', '9', '9', '9', '/', '0', '9', '8', '7', 0, 1012013, 1, 10, UINT64_C(999999999999999),
        12, 34, 56, 78, 99999999,
    };
    struct optes_book b = {{0}};
    uint8_t m[ANNOUNCEMENT_BYTES];
    announcement_with(m, A_IDENTIFIER, "T/9999/0987");
    put_text(m, A_OPERATION, "NC/FD/LA/R/N/VR/MR");
    put_text(m, A_EXECUTION, "01012013/10/999999999999999/000000000000012/000000000000034");
    put_text(m, A_MAXIMUM, "000000000000056/000000000000078/99999999");
    put_text(m, A_SPOT, "01012013");
    put_text(m, A_FORWARD, "31129999");
    put_text(m, A_CUT_OFF, "000001");
    CHECK(call_open(d, &b, m, sizeof m, codes, CODES) == 0);
    CHECK(call_terms(d, &b) == 0);
    expect_told(d, expected, OPTES_BOOK_TERMS_NUMBERS);
}

// Lists of one code and of 64.
static void other_codes(const struct desk *d)
{
    uint32_t list[OPTES_BOOK_CODES];
    uint64_t expected[OPTES_BOOK_CODES_NUMBERS] = {0};
    for (size_t n = 1; n <= OPTES_BOOK_CODES; n++) {
        struct optes_book b = {{0}};
        list[n - 1] = (uint32_t)(1500 * (n - 1));
        expected[0] = n;
        expected[n] = list[n - 1];
        CHECK(call_open(d, &b, announcement, ANNOUNCEMENT_BYTES, list, n) == 0);
        CHECK(call_codes(d, &b) == 0);
        expect_told(d, expected, OPTES_BOOK_CODES_NUMBERS);
    }
}

// Codes that are not admitted, also where their low 32 bits are a code that is.
static void not_admitted(const struct desk *d)
{
    const uint64_t nobody[OPTES_BOOK_HELD_NUMBERS] = {0};
    const uint64_t others[] = {0, 1, 90000, 90004, 99999, 100000, UINT64_C(4294967296) + 90002, UINT64_MAX};
    const struct optes_book b = filled(d);
    for (size_t k = 0; k < sizeof others / sizeof *others; k++) {
        CHECK(call_held(d, &b, others[k]) == 0);
        expect_told(d, nobody, OPTES_BOOK_HELD_NUMBERS);
    }
}

// The time 000000 is a time that is held.
static void midnight(const struct desk *d)
{
    const uint64_t midnight = 0;
    struct optes_book b = opened(d);
    expect_held(d, &b, 90003, NULL, NULL, 0);
    confirmed(d, &b, 90003, 0, one_bid);
    expect_held(d, &b, 90003, &midnight, &one_bid, 1);
}

// Words past the tender's are not looked at.
static void more_words(const struct desk *d)
{
    struct desk more = *d;
    more.count = OPTES_BOOK_WORDS + 4;
    const struct optes_book b = announced(&more), open = filled(&more);
    CHECK(call_state(&more, &b) == 2 && call_preview(&more, &b) == 15 && call_preview(&more, &open) == 0);
    CHECK(call_terms(&more, &b) == 0 && call_codes(&more, &b) == 0 && call_limits(&more, &b) == 0);
    CHECK(call_held(&more, &b, 1) == 0);
}

void telling_cases(const struct desk *d)
{
    every_length(d);
    other_terms(d);
    other_codes(d);
    not_admitted(d);
    midnight(d);
    more_words(d);
}
