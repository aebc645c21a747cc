// Credit limits: which are taken, what they cut, and what they leave as it is.
#include <string.h>

#include "cases.h"
#include "check.h"
#include "worked.h"

#define PLACES OPTES_BOOK_CODE_PLACES
#define MOST OPTES_BOOK_LIMIT_MOST

// The place of this number, from 1 on, of the first three codes: an index of the awards.
#define FIRST(place) ((place) - 1)
#define SECOND(place) (PLACES + (place) - 1)
#define THIRD(place) (2 * PLACES + (place) - 1)

// The bids of a code are received and confirmed.
static void bids(const struct desk *d, struct optes_book *b, uint64_t code, const struct bid *list, size_t count)
{
    confirmed_bids(d, b, code, 102900, list, count);
}

// The tender closes and gives these awards to the places of the three codes, and this marginal rate or none, as
// its previews do.
static void gives(const struct desk *d, struct optes_book *b, const uint64_t *awards, const uint64_t *rate)
{
    ended(d, b);
    CHECK(desk_told(d)[0] == (rate != NULL) && desk_told(d)[1] == (rate != NULL ? *rate : 0));
    for (size_t k = 0; k < OPTES_BOOK_PLACES; k++)
        CHECK(desk_awards(d)[k] == (k < CODES * PLACES ? awards[k] : 0));
}

// The tender tells these limits, one for each of so many codes.
static void tells(const struct desk *d, const struct optes_book *b, const uint64_t *limits, size_t count)
{
    CHECK(call_limits(d, b) == 0);
    CHECK(desk_told(d)[0] == count);
    for (size_t k = 0; k < OPTES_BOOK_CODES; k++)
        CHECK(desk_told(d)[1 + k] == (k < count ? limits[k] : 0));
}

// What one code with this limit gets for three bids of its own, where nobody else bids.
static void alone(const struct desk *d, uint64_t limit, const struct bid *list, const uint64_t *kept)
{
    const uint64_t limits[CODES] = {0, limit, 0};
    const uint64_t awards[CODES * PLACES] = {[SECOND(1)] = kept[0], [SECOND(2)] = kept[1], [SECOND(3)] = kept[2]};
    struct optes_book b = opened_limits(d, 0, "", limits);
    bids(d, &b, 90002, list, 3);
    gives(d, &b, awards, NULL);
}

// The limit cuts the bid and not the award: 40000 and 100000 share 100000, where 50000 cut to 40000 would leave
// 60000, or 50000, to the other.
static void cut_before_shares(const struct desk *d)
{
    const uint64_t limits[CODES] = {40000, 0, 0}, rate = 150000;
    const uint64_t awards[CODES * PLACES] = {[FIRST(1)] = 28572, [SECOND(1)] = 71428};
    struct optes_book b = opened_limits(d, 0, "", limits);
    bids(d, &b, 90001, &(struct bid){150000, 100000}, 1);
    bids(d, &b, 90002, &(struct bid){150000, 100000}, 1);
    gives(d, &b, awards, &rate);
}

// The marginal rate is where the cut bids reach the offer: uncut, the first bid alone would.
static void marginal_rate(const struct desk *d)
{
    const uint64_t limits[CODES] = {40000, 0, 0}, rate = 120000;
    const uint64_t awards[CODES * PLACES] = {[FIRST(1)] = 40000, [SECOND(1)] = 60000};
    struct optes_book b = opened_limits(d, 0, "", limits);
    bids(d, &b, 90001, &(struct bid){150000, 100000}, 1);
    bids(d, &b, 90002, &(struct bid){120000, 80000}, 1);
    gives(d, &b, awards, &rate);
}

// The walk goes best rate first: what does not fit is cut, and a smaller bid after it is not taken.
static void best_first(const struct desk *d)
{
    const struct bid falling[] = {{150000, 40000}, {140000, 30000}, {130000, 10000}};
    const struct bid rising[] = {{130000, 10000}, {140000, 30000}, {150000, 40000}};
    const struct bid equal[] = {{150000, 10000}, {150000, 30000}, {150000, 20000}};
    alone(d, 50000, falling, (const uint64_t[]){40000, 10000, 0});
    alone(d, 50000, rising, (const uint64_t[]){0, 10000, 40000});
    alone(d, 50000, equal, (const uint64_t[]){10000, 30000, 10000});
    alone(d, 30000, equal, (const uint64_t[]){10000, 20000, 0});
    alone(d, 9999, equal, (const uint64_t[]){9999, 0, 0});
}

// What is left of a bid stays, also below the minimum of 10000 and off the increment; a limit that is met is not
// passed, and one that the bids do not reach cuts nothing.
static void only_where_needed(const struct desk *d)
{
    const struct bid list[] = {{150000, 40000}, {140000, 30000}, {130000, 20000}};
    alone(d, 40001, list, (const uint64_t[]){40000, 1, 0});
    alone(d, 40000, list, (const uint64_t[]){40000, 0, 0});
    alone(d, 70000, list, (const uint64_t[]){40000, 30000, 0});
    alone(d, 89999, list, (const uint64_t[]){40000, 30000, 19999});
    alone(d, 90000, list, (const uint64_t[]){40000, 30000, 20000});
    alone(d, 90001, list, (const uint64_t[]){40000, 30000, 20000});
    alone(d, MOST, list, (const uint64_t[]){40000, 30000, 20000});
    alone(d, 1, list, (const uint64_t[]){1, 0, 0});
    alone(d, 0, list, (const uint64_t[]){40000, 30000, 20000});
}

// A bid outside the limit rate of 1 % gets nothing, with a limit or without.
static void outside_limit_rate(const struct desk *d)
{
    const struct bid list[] = {{99000, 40000}, {100000, 20000}, {101000, 10000}};
    alone(d, 60000, list, (const uint64_t[]){0, 20000, 10000});
    alone(d, 20000, list, (const uint64_t[]){0, 10000, 10000});
}

// A bid that is cut to zero is in line for no cent: of 20000 among three bids two cents are left, and the second
// one goes to the next code.
static void no_cent_for_zero(const struct desk *d)
{
    const uint64_t limits[CODES] = {10000, 0, 0}, rate = 150000;
    const uint64_t awards[CODES * PLACES] = {[FIRST(1)] = 6667, [SECOND(1)] = 6667, [THIRD(1)] = 6666};
    const struct bid two[] = {{150000, 10000}, {150000, 10000}};
    struct optes_book b = opened_limits(d, A_OFFERED, "000000000020000", limits);
    bids(d, &b, 90003, two, 1);
    bids(d, &b, 90002, two, 1);
    bids(d, &b, 90001, two, 2);
    gives(d, &b, awards, &rate);
}

// The most that a limit can be is a limit: of two bids of as much, the second is cut to zero.
static void most_limit(const struct desk *d)
{
    const uint64_t limits[CODES] = {MOST, 0, 0}, uncapped[CODES] = {0}, rate = 150000;
    const uint64_t cut[CODES * PLACES] = {[FIRST(1)] = MOST}, shared[CODES * PLACES] = {
        [FIRST(1)] = UINT64_C(500000000000000), [FIRST(2)] = UINT64_C(499999999999999)};
    const struct bid two[] = {{150000, MOST}, {150000, MOST}};
    const char *terms = "10/999999999999999/000000000000001/000000000000001";
    struct optes_book b = opened_limits(d, A_MOST, terms, limits), other = opened_limits(d, A_MOST, terms, uncapped);
    bids(d, &b, 90001, two, 2);
    gives(d, &b, cut, &rate);
    bids(d, &other, 90001, two, 2);
    gives(d, &other, shared, &rate);
}

// Document 002's example 2.c, with rates of two decimals: 760 million euro are lent, 250 of them to B by its
// limit, and the offer of 1,000 million is not reached.
static void paper_example(const struct desk *d)
{
    const uint64_t million = 100000000, limits[CODES] = {0, 250 * million, 0};
    const uint64_t awards[CODES * PLACES] = {
        [FIRST(1)] = 10 * million, [FIRST(2)] = 500 * million, [SECOND(1)] = 250 * million};
    const struct bid a[] = {{171000, 10 * million}, {131000, 500 * million}, {80000, 10 * million}};
    const struct bid other[] = {{131000, 290 * million}, {112000, 150 * million}, {106000, 100 * million}};
    struct optes_book b = opened_limits(d, A_OFFERED,
        "000100000000000/000001000000000/000001000000000/000000000000000/000000000000000/00081700", limits);
    bids(d, &b, 90001, a, 3);
    bids(d, &b, 90002, other, 3);
    gives(d, &b, awards, NULL);
}

// In LA the limits are taken and told, and cut nothing.
static void collected(const struct desk *d)
{
    const uint64_t limits[CODES] = {40000, 1, MOST}, rate = 90000;
    const uint64_t awards[CODES * PLACES] = {[FIRST(1)] = 50000, [SECOND(1)] = 50000};
    struct optes_book b = opened_limits(d, A_OPERATION, "NC/FD/LA/R/Y/VR/MR", limits);
    bids(d, &b, 90001, &(struct bid){90000, 100000}, 1);
    bids(d, &b, 90002, &(struct bid){90000, 100000}, 1);
    tells(d, &b, limits, CODES);
    gives(d, &b, awards, &rate);
}

// 64 codes from 90001 on, and for each a limit one higher than for the code before.
struct many {
    uint32_t codes[OPTES_BOOK_CODES];
    uint64_t limits[OPTES_BOOK_CODES];
};

static struct many many_capped(void)
{
    struct many all;
    for (uint32_t k = 0; k < OPTES_BOOK_CODES; k++) {
        all.codes[k] = 90001 + k;
        all.limits[k] = k + 1;
    }
    return all;
}

// A tender with this offer in which each of 64 codes is capped and bids 20000 at one rate.
static struct optes_book many_bids(const struct desk *d, const char *offered)
{
    const struct many all = many_capped();
    struct optes_book b = {{0}};
    uint8_t m[ANNOUNCEMENT_BYTES];
    announcement_with(m, A_OFFERED, offered);
    CHECK(call_open_limits(d, &b, m, sizeof m, all.codes, OPTES_BOOK_CODES, all.limits, OPTES_BOOK_CODES) == 0);
    tells(d, &b, all.limits, OPTES_BOOK_CODES);
    for (size_t k = 0; k < OPTES_BOOK_CODES; k++)
        bids(d, &b, all.codes[k], &(struct bid){150000, 20000}, 1);
    ended(d, &b);
    return b;
}

// All 64 limits are kept apart: 2080 in all, which an offer of 100000 serves and one of 1000 shares.
static void every_code_capped(const struct desk *d)
{
    const uint64_t in_all = 2080, offered = 1000;
    uint64_t left = offered;
    many_bids(d, "000000000100000");
    CHECK(desk_told(d)[0] == 0);
    for (size_t k = 0; k < OPTES_BOOK_PLACES; k++)
        CHECK(desk_awards(d)[k] == (k % PLACES == 0 ? k / PLACES + 1 : 0));
    many_bids(d, "000000000001000");
    CHECK(desk_told(d)[0] == 1 && desk_told(d)[1] == 150000);
    for (uint64_t limit = 1; limit <= OPTES_BOOK_CODES; limit++)
        left -= limit * offered / in_all;
    CHECK(left > 0 && left < OPTES_BOOK_CODES);
    for (size_t k = 0; k < OPTES_BOOK_CODES; k++)
        CHECK(desk_awards(d)[PLACES * k] == (k + 1) * offered / in_all + (k < left));
}

// A bid over its limit is no error, and what is held is the bid as it was sent, until the awards and after them.
static void held_uncut(const struct desk *d)
{
    const uint64_t limits[CODES] = {1, 1, 1}, time = 102900;
    struct optes_book b = opened_limits(d, 0, "", limits);
    bids(d, &b, 90002, &one_bid, 1);
    expect_held(d, &b, 90002, &time, &one_bid, 1);
    ended(d, &b);
    expect_held(d, &b, 90002, &time, &one_bid, 1);
}

// The limits stay from the opening to the end, and a tender that is opened over this one has its own.
static void limits_stay(const struct desk *d)
{
    const uint64_t limits[CODES] = {40000, 0, MOST}, others[CODES] = {0, 7, 0}, uncapped[CODES] = {0};
    struct optes_book b = opened_limits(d, 0, "", limits), gone = b;
    tells(d, &b, limits, CODES);
    bids(d, &b, 90001, &one_bid, 1);
    tells(d, &b, limits, CODES);
    CHECK(call_close(d, &b, past_cut_off) == 0);
    tells(d, &b, limits, CODES);
    CHECK(call_allot(d, &b) == 0);
    tells(d, &b, limits, CODES);
    CHECK(call_revoke(d, &gone) == 0);
    tells(d, &gone, limits, CODES);
    CHECK(call_open_limits(d, &b, announcement, ANNOUNCEMENT_BYTES, codes, CODES, others, CODES) == 0);
    tells(d, &b, others, CODES);
    CHECK(call_open(d, &b, announcement, ANNOUNCEMENT_BYTES, codes, CODES) == 0);
    tells(d, &b, uncapped, CODES);
}

// The limits are told to arrays of every length from none to two more than are told.
static void every_length(const struct desk *d)
{
    const uint64_t limits[CODES] = {40000, 0, MOST}, expected[OPTES_BOOK_LIMITS_NUMBERS] = {CODES, 40000, 0, MOST};
    const struct optes_book b = opened_limits(d, 0, "", limits);
    struct desk other = *d;
    for (other.numbers = 0; other.numbers <= OPTES_BOOK_LIMITS_NUMBERS + 2; other.numbers++) {
        CHECK(call_limits(&other, &b) == 0);
        for (size_t k = 0; k < other.numbers && k < OPTES_BOOK_LIMITS_NUMBERS; k++)
            CHECK(desk_told(&other)[k] == expected[k]);
    }
}

// Opens over a tender with these codes and limits, and gives the refusal; a refused opening leaves the tender.
static uint64_t refused(const struct desk *d, const char *operation, const uint32_t *list, size_t admitted,
    const uint64_t *limits, size_t limited)
{
    const uint64_t own[CODES] = {1, 2, 3};
    struct optes_book b = opened_limits(d, 0, "", own);
    uint8_t m[ANNOUNCEMENT_BYTES];
    announcement_with(m, A_OPERATION, operation);
    uint64_t refusal = call_open_limits(d, &b, m, sizeof m, list, admitted, limits, limited);
    if (refusal != 0)
        tells(d, &b, own, CODES);
    return refusal;
}

// Every number of limits beside every number of codes: 19 unless they are equal, and 7 where the codes are none
// or over 64. In LA it is the same.
static void counts(const struct desk *d)
{
    const size_t numbers[] = {0, 1, 2, 3, 63, 64, 65, 100}, count = sizeof numbers / sizeof *numbers;
    const uint64_t limits[100] = {0};
    uint32_t list[100];
    for (uint32_t k = 0; k < 100; k++)
        list[k] = 90001 + k;
    for (size_t k = 0; k < count * count; k++) {
        const size_t admitted = numbers[k / count], limited = numbers[k % count];
        const uint64_t expected = admitted == 0 || admitted > 64 ? 7 : admitted != limited ? 19 : 0;
        CHECK(refused(d, "NC/FD/LP/R/Y/VR/MR", list, admitted, limits, limited) == expected);
        CHECK(refused(d, "NC/FD/LA/R/N/VR/MR", list, admitted, limits, limited) == expected);
    }
}

// A limit of sixteen digits and more, wherever it stands among 64: 20, in LA too.
static void widths(const struct desk *d)
{
    const uint64_t wide[] = {UINT64_C(1000000000000000), UINT64_C(1) << 63, UINT64_MAX};
    const struct many all = many_capped();
    for (size_t k = 0; k < OPTES_BOOK_CODES; k++) {
        struct many other = all;
        const char *side = k % 2 == 0 ? "NC/FD/LP/R/Y/VR/MR" : "NC/FD/LA/R/Y/VR/MR";
        other.limits[k] = wide[k % 3];
        CHECK(refused(d, side, other.codes, OPTES_BOOK_CODES, other.limits, OPTES_BOOK_CODES) == 20);
        other.limits[k] = MOST;
        CHECK(refused(d, side, other.codes, OPTES_BOOK_CODES, other.limits, OPTES_BOOK_CODES) == 0);
    }
}

// Codes that are refused come before limits that are too many or too wide, and too many before too wide.
static void order(const struct desk *d)
{
    const uint64_t wide[] = {UINT64_MAX, UINT64_MAX, UINT64_MAX};
    const uint32_t falling[] = {90002, 90001}, past[] = {90001, 100000};
    const char *side = "NC/FD/LP/R/Y/VR/MR";
    CHECK(refused(d, side, falling, 2, wide, 2) == 7 && refused(d, side, falling, 2, wide, 3) == 7);
    CHECK(refused(d, side, past, 2, wide, 2) == 7 && refused(d, side, past, 2, wide, 0) == 7);
    CHECK(refused(d, side, codes, 2, wide, 3) == 19 && refused(d, side, codes, 3, wide, 2) == 19);
    CHECK(refused(d, side, codes, 3, wide, 3) == 20);
    CHECK(refused(d, "NC/FD/LX/R/Y/VR/MR", codes, 3, wide, 2) == 4);
}

void limit_cases(const struct desk *d)
{
    cut_before_shares(d);
    marginal_rate(d);
    best_first(d);
    only_where_needed(d);
    outside_limit_rate(d);
    no_cent_for_zero(d);
    most_limit(d);
    paper_example(d);
    collected(d);
    every_code_capped(d);
    held_uncut(d);
    limits_stay(d);
    every_length(d);
    counts(d);
    widths(d);
    order(d);
}
