// Closing, allotting and revoking: what they give, in which state they are refused, and what stays. What an
// allotment gives is held to the previews before it.
#include <string.h>

#include "cases.h"
#include "check.h"
#include "worked.h"

// The last allotment gave these awards to the first places of the first codes and this marginal rate.
static void expect_awards(const struct desk *d, const uint64_t *first, size_t count, const uint64_t *rate)
{
    const uint64_t *awards = desk_awards(d), *told = desk_told(d);
    CHECK(told[0] == (rate != NULL) && told[1] == (rate != NULL ? *rate : 0));
    for (size_t k = 0; k < OPTES_BOOK_PLACES; k++)
        CHECK(awards[k] == (k % 10 == 0 && k / 10 < count ? first[k / 10] : 0));
}

// The clock at the cut-off and before it: 13. A second later, or on a later day, it closes.
static void closing(const struct desk *d)
{
    const struct moment early[] = {{12032012, 110000}, {12032012, 0}, {11032012, 235959}, {1011900, 0}};
    const struct moment later[] = {{12032012, 110001}, {13032012, 0}, {31129999, 235959}};
    const struct moment none[] = {{29022011, 120000}, {12032012, 240000}, {UINT64_MAX, 0}, {0, UINT64_MAX},
        {UINT64_C(4294967296) + 13032012, 0}, {13032012, UINT64_C(4294967296)}};
    const struct optes_book before = filled(d);
    struct optes_book b = before;
    for (size_t k = 0; k < sizeof early / sizeof *early; k++)
        CHECK(call_close(d, &b, early[k]) == 13);
    for (size_t k = 0; k < sizeof none / sizeof *none; k++)
        CHECK(call_close(d, &b, none[k]) == 10);
    CHECK(call_state(d, &b) == 0);
    for (size_t k = 0; k < sizeof later / sizeof *later; k++) {
        b = before;
        CHECK(call_close(d, &b, later[k]) == 0);
        CHECK(call_state(d, &b) == 1);
    }
}

// Each of the three calls in each state; a clock that is none comes after the state.
static void states(const struct desk *d)
{
    const struct moment none = {0, UINT64_MAX};
    struct optes_book open = filled(d), over = closed(d), after = announced(d), gone = revoked(d);
    CHECK(call_close(d, &gone, none) == 8 && call_close(d, &over, none) == 9);
    CHECK(call_close(d, &after, none) == 9 && call_close(d, &gone, past_cut_off) == 8);
    CHECK(call_close(d, &over, past_cut_off) == 9 && call_close(d, &after, past_cut_off) == 9);
    CHECK(call_allot(d, &gone) == 8 && call_allot(d, &open) == 14 && call_allot(d, &after) == 15);
    CHECK(call_revoke(d, &gone) == 8 && call_revoke(d, &after) == 15);
    CHECK(call_state(d, &open) == 0 && call_state(d, &over) == 1);
    CHECK(call_state(d, &after) == 2 && call_state(d, &gone) == 3);
    CHECK(call_revoke(d, &open) == 0 && call_state(d, &open) == 3);
    CHECK(call_revoke(d, &over) == 0 && call_state(d, &over) == 3);
    CHECK(call_allot(d, &over) == 8);
}

// A call that gives awards.
typedef uint64_t give_awards(const struct desk *d, struct optes_book *b);

static uint64_t preview(const struct desk *d, struct optes_book *b)
{
    return call_preview(d, b);
}

// The call gives the awards of the worked session in arrays of every length, and leaves this state.
static void every_length(const struct desk *d, const struct optes_book *before, give_awards *call, uint64_t state)
{
    const uint64_t awards[] = {22223, 60000, 17777}, rate = 120000, told[] = {1, 120000};
    struct optes_book b = *before;
    struct desk less = *d;
    CHECK(call(d, &b) == 0);
    expect_awards(d, awards, CODES, &rate);
    for (less.places = 0; less.places <= OPTES_BOOK_PLACES + 4; less.places++) {
        b = *before;
        less.numbers = less.places % 5;
        CHECK(call(&less, &b) == 0 && call_state(d, &b) == state);
        for (size_t k = 0; k < less.places && k < OPTES_BOOK_PLACES; k++)
            CHECK(desk_awards(&less)[k] == (k % 10 == 0 && k / 10 < CODES ? awards[k / 10] : 0));
        for (size_t k = 0; k < less.numbers && k < 2; k++)
            CHECK(desk_told(&less)[k] == told[k]);
    }
}

static void worked_awards(const struct desk *d)
{
    const struct optes_book open = filled(d), over = closed(d);
    every_length(d, &over, call_allot, 2);
    every_length(d, &over, preview, 1);
    every_length(d, &open, preview, 0);
}

// A tender with this text in its announcement and one bid of 10000 for each rate, one for each code.
static void allotted(const struct desk *d, size_t at, const char *text, const uint64_t *rates)
{
    struct optes_book b = opened_with(d, at, text);
    for (size_t k = CODES; k > 0; k--)
        confirmed(d, &b, codes[k - 1], 102900, (struct bid){rates[k - 1], 10000});
    ended(d, &b);
}

// Three equal bids share 10000, by book order and not by arrival; the limit rate is in and a lower one out
// in LP, a higher one in LA; and less than the offer has no marginal rate.
static void other_awards(const struct desk *d)
{
    const uint64_t equal[] = {150000, 150000, 150000}, three[] = {3334, 3333, 3333};
    const uint64_t around[] = {100000, 99000, 101000}, in[] = {10000, 0, 10000};
    const uint64_t collected[] = {10000, 10000, 0}, least[] = {0, 10000, 0}, lowest = 99000;
    allotted(d, A_OFFERED, "000000000010000", equal);
    expect_awards(d, three, CODES, &equal[0]);
    allotted(d, 0, "", around);
    expect_awards(d, in, CODES, NULL);
    allotted(d, A_OPERATION, "NC/FD/LA/R/N/VR/MR", around);
    expect_awards(d, collected, CODES, NULL);

    uint8_t m[ANNOUNCEMENT_BYTES], application[APPLICATION_BYTES];
    struct optes_book b = {{0}};
    announcement_with(m, A_OPERATION, "NC/FD/LA/R/Y/VR/MR");
    put_text(m, A_OFFERED, "000000000010000");
    CHECK(call_open(d, &b, m, sizeof m, codes, CODES) == 0);
    for (size_t k = 0; k < CODES; k++) {
        application_of(application, codes[k], 102900, &(struct bid){around[k], 10000}, 1);
        CHECK(call_receive(d, &b, application, sizeof application, in_time) == 0);
    }
    ended(d, &b);
    expect_awards(d, least, CODES, &lowest);
}

// A tender without a bid has neither an award nor a marginal rate.
static void no_bids(const struct desk *d)
{
    struct optes_book b = opened(d);
    ended(d, &b);
    expect_awards(d, NULL, 0, NULL);
}

// A book with all 640 places filled to the widest amount: the bids do not exceed what is allowed.
static void full_book(const struct desk *d)
{
    uint32_t list[OPTES_BOOK_CODES];
    struct bid bids[OPTES_BOOK_CODE_PLACES];
    uint8_t m[ANNOUNCEMENT_BYTES], application[APPLICATION_BYTES];
    struct optes_book b = {{0}};
    announcement_with(m, A_MOST, "10/999999999999999/000000000000001/000000000000001");
    for (uint32_t k = 0; k < OPTES_BOOK_CODES; k++)
        list[k] = 99999 - 63 + k;
    CHECK(call_open(d, &b, m, sizeof m, list, OPTES_BOOK_CODES) == 0);
    for (size_t k = 0; k < OPTES_BOOK_CODE_PLACES; k++)
        bids[k] = (struct bid){99999000, UINT64_C(999999999999999)};
    for (size_t k = 0; k < OPTES_BOOK_CODES; k++) {
        application_of(application, list[k], 102900, bids, OPTES_BOOK_CODE_PLACES);
        CHECK(call_receive(d, &b, application, sizeof application, in_time) == 0);
        CHECK(desk_told(d)[1] == 0);
    }
    ended(d, &b);
    CHECK(desk_told(d)[0] == 1 && desk_told(d)[1] == 99999000);
    // 999999999999999 divided by 640 is 1562499999999, and 639 cents are left.
    for (size_t k = 0; k < OPTES_BOOK_PLACES; k++)
        CHECK(desk_awards(d)[k] == UINT64_C(1562499999999) + (k < 639));
}

void ending_cases(const struct desk *d)
{
    closing(d);
    states(d);
    worked_awards(d);
    other_awards(d);
    no_bids(d);
    full_book(d);
}
