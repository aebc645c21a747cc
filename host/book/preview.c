// Previews: what they give of an open and of a closed tender, where they are refused, that they change nothing, and
// that a bid which is raised moves no other award by more than that.
// What they give with credit limits, in LA, of shares and without a marginal rate is held to each allotment of
// limits.c and ending.c, by ended; words that no call left are in damage.c.
#include <string.h>

#include "cases.h"
#include "check.h"
#include "worked.h"

// The first place of each of the three codes: an index of the awards.
#define FIRST 0
#define SECOND OPTES_BOOK_CODE_PLACES
#define THIRD (2 * OPTES_BOOK_CODE_PLACES)

// A preview gives these awards to the first places of the codes, and this marginal rate, or 0 for none.
static void shows(const struct desk *d, const struct optes_book *b, const uint64_t *awards, uint64_t rate)
{
    const struct optes_allotment expected = {rate > 0, rate,
        {[FIRST] = awards[0], [SECOND] = awards[1], [THIRD] = awards[2]}};
    expect_preview(d, b, &expected);
}

// The worked session, previewed before, between and after its receptions, after its closing and after its
// awards: the tender is at each of its stages what it is without previews.
static void worked_session(const struct desk *d)
{
    const uint64_t none[CODES] = {0}, one[] = {0, 60000, 0}, two[] = {40000, 60000, 0}, all[] = {22223, 60000, 17777};
    const struct optes_book open = filled(d), over = closed(d), after = announced(d);
    struct optes_book b = opened(d);
    uint8_t m[APPLICATION_BYTES];
    shows(d, &b, none, 0);
    confirmed(d, &b, 90002, 102900, (struct bid){150000, 60000});
    shows(d, &b, one, 0);
    confirmed(d, &b, 90001, 103100, (struct bid){120000, 50000});
    shows(d, &b, two, 120000);
    confirmed(d, &b, 90003, 103400, (struct bid){120000, 40000});
    shows(d, &b, all, 120000);
    application_of(m, 90002, 102000, &one_bid, 1);
    CHECK(call_receive(d, &b, m, sizeof m, in_time) == 0 && desk_told(d)[1] == 1);
    shows(d, &b, all, 120000);
    CHECK(memcmp(&b, &open, sizeof b) == 0);
    CHECK(call_close(d, &b, past_cut_off) == 0);
    shows(d, &b, all, 120000);
    CHECK(memcmp(&b, &over, sizeof b) == 0);
    CHECK(call_allot(d, &b) == 0 && call_preview(d, &b) == 15);
    CHECK(memcmp(&b, &after, sizeof b) == 0);
}

// A cancellation takes the awards of its code to the others, and another application brings some back.
static void cancels(const struct desk *d)
{
    const uint64_t others[] = {50000, 0, 40000}, shared[] = {33334, 40000, 26666}, none[CODES] = {0};
    struct optes_book b = filled(d), empty = opened(d);
    confirmed_bids(d, &b, 90002, 103500, NULL, 0);
    shows(d, &b, others, 0);
    confirmed(d, &b, 90002, 103600, (struct bid){120000, 60000});
    shows(d, &b, shared, 120000);
    ended(d, &b);
    confirmed_bids(d, &empty, 90002, 102900, &one_bid, 1);
    confirmed_bids(d, &empty, 90002, 102901, NULL, 0);
    shows(d, &empty, none, 0);
}

// A tender that was announced, revoked while it was open or revoked after its closing, and words without one. Each
// refused preview leaves arrays of every length.
static void refusals(const struct desk *d)
{
    struct optes_book gone = closed(d);
    CHECK(call_preview(d, &gone) == 0 && call_revoke(d, &gone) == 0);
    const struct optes_book refused[] = {announced(d), revoked(d), gone, {{0}}};
    const uint64_t expected[] = {15, 8, 8, 100};
    struct desk less = *d;
    for (less.places = 0; less.places <= OPTES_BOOK_PLACES + 4; less.places++) {
        less.numbers = less.places % 5;
        CHECK(call_preview(&less, &refused[less.places % 4]) == expected[less.places % 4]);
    }
}

// Up to three bids, other ones for each number.
static size_t some_bids(struct bid *bids, uint64_t k)
{
    const size_t count = k % 4;
    for (uint64_t i = 0; i < count; i++)
        bids[i] = (struct bid){1000 * (97 + (k * 7 + i * 5) % 11), 10000 * (1 + (k * 3 + i) % 9)};
    return count;
}

// A tender with these limits on this side, previewed after each of many receptions, some of which cancel: a copy of it
// is closed and allotted then, and the tender itself in the end, to the awards of the last preview.
static void after_each(const struct desk *d, const char *operation, const uint64_t *limits)
{
    struct optes_book b = opened_limits(d, A_OPERATION, operation, limits);
    struct optes_allotment last = {0};
    struct bid bids[3];
    for (uint64_t k = 0; k < 59; k++) {
        const size_t count = some_bids(bids, k);
        confirmed_bids(d, &b, codes[k % CODES], 102900 + k, bids, count);
        last = previewed(d, &b);
        struct optes_book copy = b;
        ended(d, &copy);
        expect_given(d, &last);
    }
    ended(d, &b);
    expect_given(d, &last);
}

static void many_receptions(const struct desk *d)
{
    const uint64_t uncapped[CODES] = {0}, limits[CODES] = {50000, 0, 30001};
    after_each(d, "NC/FD/LP/R/Y/VR/MR", uncapped);
    after_each(d, "NC/FD/LP/R/Y/VR/MR", limits);
    after_each(d, "NC/FD/LA/R/Y/VR/MR", limits);
}

// How many awards differ between two previews, but for that of one place: each by no more than this.
static size_t others_moved(const struct optes_allotment *a, const struct optes_allotment *b, size_t place, uint64_t most)
{
    size_t moved = 0;
    for (size_t k = 0; k < OPTES_BOOK_PLACES; k++) {
        const uint64_t x = a->awards[k], y = b->awards[k];
        if (k == place || x == y)
            continue;
        CHECK((x < y ? y - x : x - y) <= most);
        moved++;
    }
    return moved;
}

// A tender without limits on this side, in which one bid of every application is raised by a second application: no
// other award moves by more than that, and some move. The rates are so much lower that most bids are in.
static void raises(const struct desk *d, const char *operation, uint64_t lower)
{
    struct optes_book b = opened_with(d, A_OPERATION, operation);
    struct bid bids[3];
    size_t moved = 0;
    for (uint64_t k = 0; k < 29; k++) {
        const size_t count = some_bids(bids, k);
        for (size_t i = 0; i < count; i++)
            bids[i].rate -= lower;
        confirmed_bids(d, &b, codes[k % CODES], 102900 + 2 * k, bids, count);
        if (count == 0)
            continue;
        const struct optes_allotment before = previewed(d, &b);
        const uint64_t more = 10000 * (1 + k % 5);
        bids[k % count].amount += more;
        confirmed_bids(d, &b, codes[k % CODES], 102901 + 2 * k, bids, count);
        const struct optes_allotment after = previewed(d, &b);
        moved += others_moved(&before, &after, OPTES_BOOK_CODE_PLACES * (k % CODES) + k % count, more);
    }
    CHECK(moved > 0);
}

void preview_cases(const struct desk *d)
{
    worked_session(d);
    cancels(d);
    refusals(d);
    many_receptions(d);
    raises(d, "NC/FD/LP/R/Y/VR/MR", 0);
    raises(d, "NC/FD/LA/R/Y/VR/MR", 5000);
}
