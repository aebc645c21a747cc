#include "worked.h"

#include <string.h>

#include "check.h"
#include "pattern.h"

const uint32_t codes[CODES] = {90001, 90002, 90003};
const struct bid one_bid = {150000, 60000};
const struct moment in_time = {12032012, 103000};
const struct moment past_cut_off = {12032012, 110001};

struct optes_book opened(const struct desk *d)
{
    return opened_with(d, 0, "");
}

struct optes_book opened_with(const struct desk *d, size_t at, const char *text)
{
    const uint64_t uncapped[CODES] = {0};
    return opened_limits(d, at, text, uncapped);
}

struct optes_book opened_limits(const struct desk *d, size_t at, const char *text, const uint64_t *limits)
{
    struct optes_book b = {{0}};
    uint8_t m[ANNOUNCEMENT_BYTES];
    announcement_with(m, at, text);
    CHECK(call_open_limits(d, &b, m, sizeof m, codes, CODES, limits, CODES) == 0);
    return b;
}

void expect_reply(const struct desk *d, const uint8_t *reply, size_t length, const uint64_t *errors,
    size_t count)
{
    const uint64_t *told = desk_told(d);
    CHECK(told[0] == length && told[1] == count);
    for (size_t k = 0; k < OPTES_BOOK_ERRORS; k++)
        CHECK(told[2 + k] == (k < count ? errors[k] : 0));
    CHECK(memcmp(desk_space(d), reply, length) == 0);
    pattern_expect(desk_space(d), length, d->room);
}

void confirmed_bids(const struct desk *d, struct optes_book *b, uint64_t code, uint64_t time, const struct bid *bids,
    size_t count)
{
    uint8_t m[APPLICATION_BYTES], reply[REPLY_MOST];
    application_of(m, code, time, bids, count);
    CHECK(call_receive(d, b, m, sizeof m, in_time) == 0);
    expect_reply(d, reply, confirmation_of(reply, m, in_time.time), NULL, 0);
}

void confirmed(const struct desk *d, struct optes_book *b, uint64_t code, uint64_t time, struct bid bid)
{
    confirmed_bids(d, b, code, time, &bid, 1);
}

struct optes_book filled(const struct desk *d)
{
    const uint64_t old = 302;
    struct optes_book b = opened(d);
    uint8_t m[APPLICATION_BYTES], reply[REPLY_MOST];
    confirmed(d, &b, 90002, 102900, (struct bid){150000, 60000});
    confirmed(d, &b, 90001, 103100, (struct bid){120000, 50000});
    confirmed(d, &b, 90003, 103400, (struct bid){120000, 40000});
    application_of(m, 90002, 102000, &one_bid, 1);
    CHECK(call_receive(d, &b, m, sizeof m, in_time) == 0);
    expect_reply(d, reply, returned_with(reply, m, "601 - 302"), &old, 1);
    return b;
}

static struct optes_allotment given(const struct desk *d)
{
    struct optes_allotment a = {.has_marginal = desk_told(d)[0], .marginal = desk_told(d)[1]};
    memcpy(a.awards, desk_awards(d), sizeof a.awards);
    return a;
}

struct optes_allotment previewed(const struct desk *d, const struct optes_book *b)
{
    CHECK(call_preview(d, b) == 0);
    return given(d);
}

void expect_given(const struct desk *d, const struct optes_allotment *expected)
{
    const struct optes_allotment a = given(d);
    CHECK(memcmp(&a, expected, sizeof a) == 0);
}

void expect_preview(const struct desk *d, const struct optes_book *b, const struct optes_allotment *expected)
{
    CHECK(call_preview(d, b) == 0);
    expect_given(d, expected);
}

void ended(const struct desk *d, struct optes_book *b)
{
    const struct optes_allotment before = previewed(d, b);
    CHECK(call_close(d, b, past_cut_off) == 0);
    expect_preview(d, b, &before);
    CHECK(call_allot(d, b) == 0);
    expect_given(d, &before);
}

struct optes_book closed(const struct desk *d)
{
    struct optes_book b = filled(d);
    CHECK(call_close(d, &b, past_cut_off) == 0);
    return b;
}

struct optes_book announced(const struct desk *d)
{
    struct optes_book b = closed(d);
    CHECK(call_allot(d, &b) == 0);
    return b;
}

struct optes_book revoked(const struct desk *d)
{
    struct optes_book b = filled(d);
    CHECK(call_revoke(d, &b) == 0);
    return b;
}

void expect_held(const struct desk *d, const struct optes_book *b, uint64_t code, const uint64_t *time,
    const struct bid *bids, size_t count)
{
    CHECK(call_held(d, b, code) == 0);
    const uint64_t *told = desk_told(d);
    CHECK(told[0] == 1);
    CHECK(told[1] == (time != NULL) && told[2] == (time != NULL ? *time : 0));
    for (size_t k = 0; k < OPTES_BOOK_CODE_PLACES; k++) {
        CHECK(told[3 + k] == (k < count ? bids[k].rate : 0));
        CHECK(told[13 + k] == (k < count ? bids[k].amount : 0));
    }
}
