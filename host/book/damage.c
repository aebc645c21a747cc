// Words that no call left: each call but opening refuses them with 100 and leaves all that it was lent. In this
// folder this file alone relies on where the archive keeps things: word 0 is the form number, word 1 the state, word 2
// how many codes there are, words 15 and 16 are the day of execution and the cut-off, words 24 to 87 the codes,
// words 216 to 855 their rates, words 856 to 1495 their amounts and words 1496 to 1559 their credit limits.
#include <string.h>

#include "cases.h"
#include "check.h"
#include "worked.h"

#define FORM 0
#define STATE 1
#define COUNT 2
#define EXECUTION 15
#define CUT_OFF 16
#define FIRST_CODE 24
#define FIRST_RATE 216
#define FIRST_AMOUNT 856
#define FIRST_LIMIT 1496

// The numbers of this form of words and of the one before it, which had no limits.
#define THE_FORM 2
#define OLDER_FORM 1

// Every call but opening: 100. The clock, the room and the message would be refused too.
static void no_tender(const struct desk *d, const struct optes_book *damaged)
{
    const struct moment none = {0, 0};
    struct desk less = *d;
    struct optes_book b = *damaged;
    uint8_t m[APPLICATION_BYTES];
    application_of(m, 90001, 104000, &one_bid, 1);
    less.room = 0;
    CHECK(call_receive(d, &b, m, sizeof m, in_time) == 100);
    CHECK(call_receive(&less, &b, m, 0, none) == 100);
    CHECK(call_close(d, &b, past_cut_off) == 100 && call_close(d, &b, none) == 100);
    CHECK(call_allot(d, &b) == 100 && call_preview(d, &b) == 100 && call_revoke(d, &b) == 100);
    CHECK(call_state(d, &b) == 100);
    CHECK(call_terms(d, &b) == 100 && call_codes(d, &b) == 100 && call_limits(d, &b) == 100);
    CHECK(call_held(d, &b, 90001) == 100 && call_held(d, &b, UINT64_MAX) == 100);
    CHECK(memcmp(&b, damaged, sizeof b) == 0);
}

// Too few words, of a tender in each state.
static void too_few_words(const struct desk *d)
{
    const struct optes_book states[] = {filled(d), closed(d), announced(d), revoked(d)};
    struct desk less = *d;
    for (less.count = 0; less.count < OPTES_BOOK_WORDS; less.count++)
        no_tender(&less, &states[less.count % 4]);
}

static void with_word(const struct desk *d, const struct optes_book *b, size_t at, uint64_t word)
{
    struct optes_book damaged = *b;
    damaged.words[at] = word;
    no_tender(d, &damaged);
}

// The form number, the state and the count of codes out of their range, in each state.
static void heads(const struct desk *d)
{
    const struct optes_book states[] = {filled(d), closed(d), announced(d), revoked(d)};
    const uint64_t wide = UINT64_C(4294967296), past[] = {wide, wide + 1, wide + 2, wide * 2 + 3,
        UINT64_MAX};
    for (size_t s = 0; s < 4; s++) {
        CHECK(states[s].words[FORM] == THE_FORM && states[s].words[STATE] == s && states[s].words[COUNT] == CODES);
        with_word(d, &states[s], FORM, 0);
        with_word(d, &states[s], FORM, OLDER_FORM);
        with_word(d, &states[s], FORM, THE_FORM + 1);
        with_word(d, &states[s], STATE, 4);
        with_word(d, &states[s], STATE, 100);
        with_word(d, &states[s], COUNT, 0);
        with_word(d, &states[s], COUNT, 65);
        for (size_t k = 0; k < sizeof past / sizeof *past; k++) {
            with_word(d, &states[s], FORM, past[k]);
            with_word(d, &states[s], STATE, past[k]);
            with_word(d, &states[s], COUNT, past[k]);
        }
    }
}

// A tender with 64 codes, each two above the one before.
static struct optes_book many_codes(const struct desk *d)
{
    uint32_t list[OPTES_BOOK_CODES];
    struct optes_book b = {{0}};
    for (uint32_t k = 0; k < OPTES_BOOK_CODES; k++)
        list[k] = 90001 + 2 * k;
    CHECK(call_open(d, &b, announcement, ANNOUNCEMENT_BYTES, list, OPTES_BOOK_CODES) == 0);
    return b;
}

// Two neighbours of 64 codes that are equal or fall, wherever they stand.
static void order_of_codes(const struct desk *d)
{
    const struct optes_book b = many_codes(d);
    for (size_t k = 1; k < OPTES_BOOK_CODES; k++) {
        const uint64_t before = 90001 + 2 * (k - 1);
        CHECK(b.words[FIRST_CODE + k] == before + 2);
        with_word(d, &b, FIRST_CODE + k, before);
        with_word(d, &b, FIRST_CODE + k, before - 1);
        with_word(d, &b, FIRST_CODE + k, 0);
    }
}

// An allotment is refused with this number, and so is a preview.
static void awards_refused(const struct desk *d, struct optes_book *b, uint64_t refusal)
{
    CHECK(call_allot(d, b) == refusal && call_preview(d, b) == refusal);
}

// Bids of more than 999,999,999,999,999,999 eurocents, which no receptions bring about: 16, but 8, 14 and 15
// come before it, and a preview is not refused with 14. Limits that would cut the bids to less do not matter.
static void bids_exceed(const struct desk *d)
{
    struct optes_book b = many_codes(d);
    for (size_t at = FIRST_RATE; at < FIRST_LIMIT; at++)
        b.words[at] = UINT64_C(10000000000000000);
    CHECK(call_allot(d, &b) == 14 && call_preview(d, &b) == 16);
    CHECK(call_close(d, &b, past_cut_off) == 0);
    awards_refused(d, &b, 16);
    CHECK(call_state(d, &b) == 1);
    for (size_t at = FIRST_LIMIT; at < OPTES_BOOK_WORDS; at++)
        b.words[at] = 1;
    awards_refused(d, &b, 16);
    CHECK(call_state(d, &b) == 1);
    b.words[STATE] = 0;
    CHECK(call_allot(d, &b) == 14 && call_preview(d, &b) == 16);
    b.words[STATE] = 2;
    awards_refused(d, &b, 15);
    b.words[STATE] = 3;
    awards_refused(d, &b, 8);
}

// As many eurocents as the bids may come to are previewed and allotted. One more, at a rate that is out, is not.
static void bids_at_most(const struct desk *d)
{
    const struct optes_allotment expected = {1, 150000, {100000}};
    struct optes_book b = opened(d);
    b.words[FIRST_RATE] = 150000;
    b.words[FIRST_AMOUNT] = UINT64_C(999999999999999999);
    expect_preview(d, &b, &expected);
    struct optes_book over = b, more = b;
    ended(d, &over);
    more.words[FIRST_RATE + 1] = 99000;
    more.words[FIRST_AMOUNT + 1] = 1;
    CHECK(call_preview(d, &more) == 16);
    CHECK(call_close(d, &more, past_cut_off) == 0);
    awards_refused(d, &more, 16);
}

// No clock passes the end of the last day, so that a tender with this cut-off, which no announcement opens, cannot be
// closed: a preview answers all the same.
static void no_later_clock(const struct desk *d)
{
    const struct moment last = {31129999, 235959};
    struct optes_book b = filled(d);
    const struct optes_allotment shown = previewed(d, &b);
    CHECK(b.words[EXECUTION] == 12032012 && b.words[CUT_OFF] == 110000);
    b.words[EXECUTION] = last.date;
    b.words[CUT_OFF] = last.time;
    CHECK(call_close(d, &b, last) == 13 && call_allot(d, &b) == 14);
    expect_preview(d, &b, &shown);
}

// The limits of a tender stand where they are said to, one for each code.
static void where_limits_stand(const struct desk *d)
{
    const uint64_t limits[CODES] = {40000, 0, 70000};
    const struct optes_book b = opened_limits(d, 0, "", limits);
    for (size_t k = 0; k < OPTES_BOOK_CODES; k++)
        CHECK(b.words[FIRST_LIMIT + k] == (k < CODES ? limits[k] : 0));
}

// The awards of the first two codes where one of them has this word for its limit.
static void with_limit(const struct desk *d, uint64_t limit, uint64_t first, uint64_t second)
{
    struct optes_book b = opened(d);
    confirmed(d, &b, 90001, 102900, (struct bid){150000, 100000});
    confirmed(d, &b, 90002, 102900, (struct bid){150000, 100000});
    b.words[FIRST_LIMIT] = limit;
    ended(d, &b);
    CHECK(desk_awards(d)[0] == first && desk_awards(d)[10] == second);
    CHECK(call_limits(d, &b) == 0 && desk_told(d)[1] == limit);
}

// A word of any width is a limit, though no opening gives one of over fifteen digits.
static void any_limit(const struct desk *d)
{
    const uint64_t wide[] = {UINT64_C(1000000000000000), UINT64_C(4294967296) + 40000, UINT64_MAX};
    with_limit(d, 0, 50000, 50000);
    with_limit(d, 40000, 28572, 71428);
    for (size_t k = 0; k < sizeof wide / sizeof *wide; k++)
        with_limit(d, wide[k], 50000, 50000);
}

// Closing, allotting and revoking change the state and nothing else.
static void state_alone(const struct desk *d)
{
    struct optes_book open = filled(d), over = closed(d), after = announced(d), gone = revoked(d);
    over.words[STATE] = after.words[STATE] = gone.words[STATE] = OPTES_STATE_OPEN;
    CHECK(memcmp(&over, &open, sizeof open) == 0);
    CHECK(memcmp(&after, &open, sizeof open) == 0);
    CHECK(memcmp(&gone, &open, sizeof open) == 0);
}

void damage_cases(const struct desk *d)
{
    state_alone(d);
    too_few_words(d);
    heads(d);
    order_of_codes(d);
    bids_exceed(d);
    bids_at_most(d);
    no_later_clock(d);
    where_limits_stand(d);
    any_limit(d);
}
