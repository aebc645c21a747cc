// The errors with which a message is returned, alone and together, and the reply that shows them.
#include <string.h>

#include "cases.h"
#include "check.h"
#include "worked.h"

#define PLACE(k) (P_BIDS + PLACE_BYTES * (k))
#define BID(amount) "00150000/0000000000" amount

// What stands in the message, and the error that it leads to.
struct fault {
    size_t at;
    const char *text;
    uint64_t code;
    const char *shown;
};

static const struct fault faults[] = {
    {P_TYPE, "6G2", 900, "001 - 900"},
    {P_SENDER, "9000X", 309, "040 - 309"},
    {P_SENDER, "90004", 300, "040 - 300"},
    {P_RECIPIENT, "01001", 599, "050 - 599"},
    {P_CRO, "0000000000A", 521, "020 - 521"},
    {P_DATE, "29022011", 502, "D31 - 502"},
    {P_DATE, "1203201X", 502, "D31 - 502"},
    {P_DATE, "13032012", 522, "D31 - 522"},
    {P_TIME, "240000", 503, "601 - 503"},
    {P_CHECK, "1234x", 908, "010 - 908"},
    {P_IDENTIFIER, "T/2012/0002", 303, "6G0 - 303"},
    {PLACE(0), "00150000:", 901, "6G6 - 901"},
    {PLACE(9), "X", 901, "6G6 - 901"},
    {PLACE(2), BID("60000"), 902, "6G6 - 902"},
    {PLACE(0), BID("10000") BID("10000") BID("10000") BID("10000"), 903, "6G6 - 903"},
    {PLACE(0), "00120500", 904, "6G6 - 904"},
    {PLACE(0) + 9, "000000000009999", 905, "6G6 - 905"},
    {PLACE(0) + 9, "000000000025000", 906, "6G6 - 906"},
};

// The message is returned with these errors and the tender stays.
static void returned(const struct desk *d, struct optes_book *b, const uint8_t *m, struct moment at,
    const char *shown, const uint64_t *errors, size_t count)
{
    const struct optes_book before = *b;
    uint8_t reply[REPLY_MOST];
    CHECK(call_receive(d, b, m, APPLICATION_BYTES, at) == 0);
    expect_reply(d, reply, returned_with(reply, m, shown), errors, count);
    CHECK(memcmp(b, &before, sizeof before) == 0);
}

// Every error alone, where nothing is held for the sender.
static void alone(const struct desk *d)
{
    struct optes_book b = opened(d);
    for (size_t k = 0; k < sizeof faults / sizeof *faults; k++) {
        uint8_t m[APPLICATION_BYTES];
        application_of(m, 90002, 102900, &one_bid, 1);
        put_text(m, faults[k].at, faults[k].text);
        returned(d, &b, m, in_time, faults[k].shown, &faults[k].code, 1);
    }
    expect_held(d, &b, 90002, NULL, NULL, 0);
}

// The cut-off itself is in time, a second later is not, nor is another day; an earlier day is.
static void late(const struct desk *d)
{
    const struct moment too_late[] = {{12032012, 110001}, {13032012, 0}, {1012013, 0}};
    const struct moment still[] = {{12032012, 110000}, {11032012, 235959}, {31122011, 120000}};
    const uint64_t error = 301;
    struct optes_book b = opened(d);
    uint8_t m[APPLICATION_BYTES], reply[REPLY_MOST];
    for (uint64_t k = 0; k < 3; k++) {
        application_of(m, 90002, 102900 + k, &one_bid, 1);
        returned(d, &b, m, too_late[k], "6G5 - 301", &error, 1);
        CHECK(call_receive(d, &b, m, sizeof m, still[k]) == 0);
        expect_reply(d, reply, confirmation_of(reply, m, still[k].time), NULL, 0);
    }
}

// A reference time at or before the held one, with no other error: 302.
static void old(const struct desk *d)
{
    const uint64_t error = 302, other = 599;
    struct optes_book b = opened(d);
    uint8_t m[APPLICATION_BYTES];
    confirmed(d, &b, 90002, 102900, one_bid);
    application_of(m, 90002, 102900, &one_bid, 1);
    returned(d, &b, m, in_time, "601 - 302", &error, 1);
    application_of(m, 90002, 0, &one_bid, 1);
    returned(d, &b, m, in_time, "601 - 302", &error, 1);
    put_text(m, P_RECIPIENT, "01001");
    returned(d, &b, m, in_time, "050 - 599", &other, 1);
    confirmed(d, &b, 90002, 102901, one_bid);
}

// A total above a told maximum, also where its bids are in error: 907. At the maximum it passes.
static void maximum(const struct desk *d)
{
    const struct bid at_it[] = {{150000, 30000}, {140000, 30000}}, over[] = {{150000, 30000}, {99000, 40000}};
    const uint64_t error = 907;
    struct optes_book b = opened_with(d, A_MAXIMUM, "000000000060000");
    uint8_t m[APPLICATION_BYTES], reply[REPLY_MOST];
    application_of(m, 90001, 102900, over, 2);
    returned(d, &b, m, in_time, "6G6 - 907", &error, 1);
    application_of(m, 90001, 102900, at_it, 2);
    CHECK(call_receive(d, &b, m, sizeof m, in_time) == 0);
    expect_reply(d, reply, confirmation_of(reply, m, in_time.time), NULL, 0);
}

// Five errors are shown as they are; of more, the first four, and then 999 - 999.
static void five_and_six(const struct desk *d)
{
    const uint64_t five[] = {900, 300, 599, 303, 301}, six[] = {900, 300, 599, 503, 303, 301};
    struct optes_book b = opened(d);
    uint8_t m[APPLICATION_BYTES];
    application_of(m, 90004, 102900, &one_bid, 1);
    put_text(m, P_TYPE, "6G2");
    put_text(m, P_RECIPIENT, "00000");
    put_text(m, P_IDENTIFIER, "T/0000/0000");
    returned(d, &b, m, past_cut_off, "001 - 900/040 - 300/050 - 599/6G0 - 303/6G5 - 301", five, 5);
    put_text(m, P_TIME, "240000");
    returned(d, &b, m, past_cut_off, "001 - 900/040 - 300/050 - 599/601 - 503/999 - 999", six, 6);
}

// As many errors as a message can have: fifteen.
static void most(const struct desk *d)
{
    const uint64_t all[] = {900, 309, 599, 521, 502, 503, 908, 303, 902, 903, 904, 905, 906, 907, 301};
    struct optes_book b = opened_with(d, A_MAXIMUM, "000000000010000");
    uint8_t m[APPLICATION_BYTES];
    application_of(m, 90001, 102900, NULL, 0);
    for (size_t k = 0; k <= 10; k++)
        if (k != 2 && k != 6 && k != 7)
            put_text(m, faults[k].at, faults[k].text);
    put_text(m, PLACE(1), BID("25000") "00150500/000000000009999" BID("10000") BID("10000"));
    returned(d, &b, m, past_cut_off, "001 - 900/040 - 309/050 - 599/020 - 521/999 - 999", all, 15);
}

void error_cases(const struct desk *d)
{
    alone(d);
    late(d);
    old(d);
    maximum(d);
    five_and_six(d);
    most(d);
}
