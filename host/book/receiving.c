// Which messages are received and which are refused, and what the tender then holds.
#include <string.h>

#include "cases.h"
#include "check.h"
#include "pattern.h"
#include "worked.h"

// Clocks that are no date and time of the calendar, also where their low 32 bits are.
static const struct moment no_clocks[] = {
    {0, 103000}, {29022011, 103000}, {31042012, 103000}, {12132012, 103000}, {31121899, 103000},
    {UINT64_C(4294967296) + 12032012, 103000}, {UINT64_MAX, 103000}, {112032012, 103000},
    {12032012, 240000}, {12032012, 106000}, {12032012, 105960}, {12032012, 1000000},
    {12032012, UINT64_C(4294967296) + 103000}, {12032012, UINT64_MAX},
};

// The application of the worked session's first reception.
static void first_application(uint8_t *m)
{
    application_of(m, 90002, 102900, &one_bid, 1);
}

// The tender holds what the receptions brought.
static void holds(const struct desk *d)
{
    const struct optes_book b = filled(d);
    const uint64_t times[] = {103100, 102900, 103400};
    const struct bid bids[] = {{120000, 50000}, {150000, 60000}, {120000, 40000}};
    for (size_t k = 0; k < CODES; k++)
        expect_held(d, &b, codes[k], &times[k], &bids[k], 1);
}

// Ten zero places cancel, and an application from before does not come back.
static void cancels(const struct desk *d)
{
    const uint64_t time = 103000, old = 302;
    struct optes_book b = opened(d);
    uint8_t m[APPLICATION_BYTES], reply[REPLY_MOST];
    confirmed(d, &b, 90002, 102900, one_bid);
    application_of(m, 90002, time, NULL, 0);
    CHECK(call_receive(d, &b, m, sizeof m, in_time) == 0);
    expect_reply(d, reply, confirmation_of(reply, m, in_time.time), NULL, 0);
    expect_held(d, &b, 90002, &time, NULL, 0);
    first_application(m);
    CHECK(call_receive(d, &b, m, sizeof m, in_time) == 0);
    expect_reply(d, reply, returned_with(reply, m, "601 - 302"), &old, 1);
    expect_held(d, &b, 90002, &time, NULL, 0);
}

// Ten bids where the announcement allows them; a later application replaces all of them.
static void replaces(const struct desk *d)
{
    struct optes_book b = opened_with(d, A_MOST, "10");
    const uint64_t first = 102900, second = 102901;
    struct bid bids[OPTES_BOOK_CODE_PLACES];
    uint8_t m[APPLICATION_BYTES];
    for (uint64_t k = 0; k < OPTES_BOOK_CODE_PLACES; k++)
        bids[k] = (struct bid){1000 * (k + 1), 10000 * (k + 1)};
    application_of(m, 90003, first, bids, OPTES_BOOK_CODE_PLACES);
    CHECK(call_receive(d, &b, m, sizeof m, in_time) == 0);
    expect_held(d, &b, 90003, &first, bids, OPTES_BOOK_CODE_PLACES);
    confirmed(d, &b, 90003, second, one_bid);
    expect_held(d, &b, 90003, &second, &one_bid, 1);
    expect_held(d, &b, 90001, NULL, NULL, 0);
    expect_held(d, &b, 90002, NULL, NULL, 0);
}

// Every room below 436 bytes: 11. With more, the bytes past the reply stay.
static void rooms(const struct desk *d)
{
    const struct optes_book before = opened(d);
    struct desk other = *d;
    uint8_t m[APPLICATION_BYTES], reply[REPLY_MOST];
    first_application(m);
    for (other.room = 0; other.room <= 460; other.room++) {
        struct optes_book b = before;
        CHECK(call_receive(&other, &b, m, sizeof m, in_time) == (other.room < 436 ? 11 : 0));
        if (other.room >= 436)
            expect_reply(&other, reply, confirmation_of(reply, m, in_time.time), NULL, 0);
    }
}

// Arrays of fewer numbers than an answer has get as many as fit.
static void short_answers(const struct desk *d)
{
    const struct optes_book before = opened(d);
    const uint64_t expected[] = {378, 1, 302};
    struct desk other = *d;
    uint8_t m[APPLICATION_BYTES];
    first_application(m);
    for (other.numbers = 0; other.numbers <= 20; other.numbers++) {
        struct optes_book b = before;
        CHECK(call_receive(&other, &b, m, sizeof m, in_time) == 0);
        for (size_t k = 0; k < other.numbers && k < 18; k++)
            CHECK(desk_told(&other)[k] == (k == 0 ? 59 : 0));
        CHECK(call_receive(&other, &b, m, sizeof m, in_time) == 0);
        for (size_t k = 0; k < other.numbers && k < 18; k++)
            CHECK(desk_told(&other)[k] == (k < 3 ? expected[k] : 0));
    }
}

// Every length but 339, and each byte of a head altered: 12.
static void unreadable(const struct desk *d)
{
    const size_t heads[] = {0, 6, 14, 22, 36, 47, 56, 64, 78, 321};
    struct optes_book b = opened(d);
    uint8_t m[400] = {0};
    first_application(m);
    for (size_t n = 0; n <= sizeof m; n++)
        if (n != APPLICATION_BYTES)
            CHECK(call_receive(d, &b, m, n, in_time) == 12);
    for (size_t k = 0; k < sizeof heads / sizeof *heads; k++) {
        for (size_t at = heads[k]; at < heads[k] + 3; at++) {
            m[at]++;
            CHECK(call_receive(d, &b, m, APPLICATION_BYTES, in_time) == 12);
            m[at]--;
        }
    }
    CHECK(call_receive(d, &b, m, APPLICATION_BYTES, in_time) == 0);
}

// A reception in every state: only an open tender receives.
static void states(const struct desk *d)
{
    struct optes_book over = closed(d), after = announced(d), gone = revoked(d);
    uint8_t m[APPLICATION_BYTES];
    application_of(m, 90001, 105000, &one_bid, 1);
    CHECK(call_receive(d, &over, m, sizeof m, in_time) == 9);
    CHECK(call_receive(d, &after, m, sizeof m, in_time) == 9);
    CHECK(call_receive(d, &gone, m, sizeof m, in_time) == 8);
}

// Where several refusals apply, the one of the least number is given.
static void first_refusal(const struct desk *d)
{
    struct optes_book open = opened(d), over = closed(d), gone = revoked(d);
    struct desk less = *d;
    less.room = 435;
    for (size_t k = 0; k < sizeof no_clocks / sizeof *no_clocks; k++) {
        CHECK(call_receive(&less, &gone, announcement, ANNOUNCEMENT_BYTES, no_clocks[k]) == 8);
        CHECK(call_receive(&less, &over, announcement, ANNOUNCEMENT_BYTES, no_clocks[k]) == 9);
        CHECK(call_receive(&less, &open, announcement, ANNOUNCEMENT_BYTES, no_clocks[k]) == 10);
    }
    CHECK(call_receive(&less, &open, announcement, ANNOUNCEMENT_BYTES, in_time) == 11);
    CHECK(call_receive(d, &open, announcement, ANNOUNCEMENT_BYTES, in_time) == 12);
}

// Clocks that are none are refused alone too, and those at the edge of the calendar are not.
static void clocks(const struct desk *d)
{
    struct optes_book b = opened(d);
    uint8_t m[APPLICATION_BYTES];
    first_application(m);
    for (size_t k = 0; k < sizeof no_clocks / sizeof *no_clocks; k++)
        CHECK(call_receive(d, &b, m, sizeof m, no_clocks[k]) == 10);
    CHECK(call_receive(d, &b, m, sizeof m, (struct moment){31129999, 235959}) == 0);
    CHECK(desk_told(d)[2] == 301);
    CHECK(call_receive(d, &b, m, sizeof m, (struct moment){1011900, 0}) == 0);
    CHECK(desk_told(d)[1] == 0);
    CHECK(call_receive(d, &b, m, sizeof m, (struct moment){29022012, 0}) == 0);
    CHECK(desk_told(d)[2] == 302);
}

void receiving_cases(const struct desk *d)
{
    holds(d);
    cancels(d);
    replaces(d);
    rooms(d);
    short_answers(d);
    unreadable(d);
    states(d);
    first_refusal(d);
    clocks(d);
}
