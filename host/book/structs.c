// The functions of the header, which lend the sizes of its structs.
#include <string.h>

#include "cases.h"
#include "check.h"
#include "pattern.h"
#include "worked.h"

// A struct of the header against its guard, filled with the pattern.
#define GUARDED(guarded, type) ((type *)(void *)patterned(guarded, sizeof(type)))

static uint8_t *patterned(const struct guarded *g, size_t n)
{
    uint8_t *bytes = guarded_bytes(g, n);
    pattern_put(bytes, n);
    return bytes;
}

static struct optes_book *book_of(const struct desk *d, const struct optes_book *b)
{
    return (struct optes_book *)(void *)guarded_copy(&d->words, b, sizeof *b);
}

// The session: opened, one message confirmed and one returned.
static void receives(const struct desk *d)
{
    const struct optes_book any = {{1, 2, 3}};
    struct optes_book *b = book_of(d, &any);
    struct optes_answer *answer = GUARDED(&d->told, struct optes_answer);
    uint8_t *space = guarded_bytes(&d->space, OPTES_REPLY_BYTES);
    uint8_t m[APPLICATION_BYTES], reply[REPLY_MOST];
    CHECK(optes_book_open(b, (const uint8_t *)announcement, 0, codes, CODES) == OPTES_NOT_ANNOUNCEMENT);
    CHECK(memcmp(b, &any, sizeof any) == 0);
    CHECK(optes_book_open(b, (const uint8_t *)announcement, ANNOUNCEMENT_BYTES, codes, CODES) == OPTES_OK);
    application_of(m, 90002, 102900, &one_bid, 1);
    CHECK(optes_book_receive(b, m, 0, 12032012, 103000, space, OPTES_REPLY_BYTES, answer) == OPTES_UNREADABLE);
    pattern_expect((const uint8_t *)answer, 0, sizeof *answer);
    CHECK(optes_book_receive(b, m, sizeof m, 12032012, 103000, space, OPTES_REPLY_BYTES, answer) == OPTES_OK);
    CHECK(answer->length == 59 && answer->errors == 0 && answer->codes[0] == 0 && answer->codes[15] == 0);
    CHECK(confirmation_of(reply, m, 103000) == 59 && memcmp(space, reply, 59) == 0);
    CHECK(optes_book_receive(b, m, sizeof m, 12032012, 103000, space, OPTES_REPLY_BYTES, answer) == OPTES_OK);
    CHECK(answer->length == 378 && answer->errors == 1 && answer->codes[0] == OPTES_ERROR_OLD);
    CHECK(answer->codes[1] == 0 && answer->codes[15] == 0);
}

// The session's end, from the tender with all its bids.
static void ends(const struct desk *d)
{
    const struct optes_book before = filled(d);
    struct optes_book *b = book_of(d, &before);
    struct optes_allotment *a = GUARDED(&d->awards, struct optes_allotment);
    CHECK(optes_book_state(b) == OPTES_STATE_OPEN);
    CHECK(optes_book_allot(b, a) == OPTES_STILL_OPEN);
    pattern_expect((const uint8_t *)a, 0, sizeof *a);
    CHECK(optes_book_close(b, 12032012, 110000) == OPTES_BEFORE_CUT_OFF);
    CHECK(optes_book_close(b, 12032012, 110001) == OPTES_OK);
    CHECK(optes_book_state(b) == OPTES_STATE_CLOSED);
    CHECK(optes_book_allot(b, a) == OPTES_OK);
    CHECK(a->has_marginal == 1 && a->marginal == 120000);
    CHECK(a->awards[0] == 22223 && a->awards[10] == 60000 && a->awards[20] == 17777);
    CHECK(a->awards[1] == 0 && a->awards[OPTES_BOOK_PLACES - 1] == 0);
    CHECK(optes_book_state(b) == OPTES_STATE_ANNOUNCED);
    CHECK(optes_book_revoke(b) == OPTES_ALREADY_ANNOUNCED);
    b = book_of(d, &before);
    CHECK(optes_book_revoke(b) == OPTES_OK && optes_book_state(b) == OPTES_STATE_REVOKED);
}

// A preview gives what allotting would, or leaves all numbers where it is refused, and leaves the tender.
static void previews(const struct desk *d)
{
    const struct optes_allotment expected = {1, 120000, {[0] = 22223, [10] = 60000, [20] = 17777}};
    const struct optes_book answered[] = {filled(d), closed(d)}, refused[] = {announced(d), revoked(d)};
    const uint64_t refusals[] = {OPTES_ALREADY_ANNOUNCED, OPTES_ALREADY_REVOKED};
    for (size_t k = 0; k < 2; k++) {
        const struct optes_book *b = book_of(d, &answered[k]);
        struct optes_allotment *a = GUARDED(&d->awards, struct optes_allotment);
        CHECK(optes_book_preview(b, a) == OPTES_OK && memcmp(a, &expected, sizeof *a) == 0);
        CHECK(memcmp(b, &answered[k], sizeof *b) == 0);
        b = book_of(d, &refused[k]);
        a = GUARDED(&d->awards, struct optes_allotment);
        CHECK(optes_book_preview(b, a) == refusals[k]);
        pattern_expect((const uint8_t *)a, 0, sizeof *a);
        CHECK(memcmp(b, &refused[k], sizeof *b) == 0);
    }
}

// What a tender tells of itself.
static void tells(const struct desk *d)
{
    const struct optes_book before = filled(d), *b = book_of(d, &before);
    const struct optes_terms *t = GUARDED(&d->told, struct optes_terms);
    CHECK(optes_book_terms(b, (struct optes_terms *)t) == OPTES_OK);
    CHECK(memcmp(t->identifier, "T/2012/0001", sizeof t->identifier) == 0 && t->side == OPTES_SIDE_LP);
    CHECK(t->execution == 12032012 && t->cut_off == 110000 && t->most_bids == 3 && t->offered == 100000);
    CHECK(t->minimum == 10000 && t->increment == 10000 && t->maximum == 0);
    CHECK(t->minimum_allocation == 0 && t->limit_rate == 100000);
    struct optes_codes *c = GUARDED(&d->awards, struct optes_codes);
    CHECK(optes_book_codes(b, c) == OPTES_OK);
    CHECK(c->count == 3 && c->codes[0] == 90001 && c->codes[2] == 90003 && c->codes[3] == 0);
    CHECK(c->codes[OPTES_BOOK_CODES - 1] == 0);
    struct optes_held *h = GUARDED(&d->told, struct optes_held);
    CHECK(optes_book_held(b, 90002, h) == OPTES_OK);
    CHECK(h->admitted == 1 && h->has_time == 1 && h->time == 102900);
    CHECK(h->rates[0] == 150000 && h->amounts[0] == 60000 && h->rates[9] == 0 && h->amounts[9] == 0);
    CHECK(optes_book_held(b, 90004, h) == OPTES_OK);
    CHECK(h->admitted == 0 && h->has_time == 0 && h->rates[0] == 0 && h->amounts[0] == 0);
    CHECK(memcmp(b, &before, sizeof before) == 0);
}

// A tender with limits, one that nobody is capped in, and openings that are refused.
static void limits(const struct desk *d)
{
    const uint64_t caps[] = {40000, 0, OPTES_BOOK_LIMIT_MOST}, wide = OPTES_BOOK_LIMIT_MOST + UINT64_C(1);
    const uint8_t *m = (const uint8_t *)announcement;
    const struct optes_book any = {{1, 2, 3}};
    struct optes_book *b = book_of(d, &any);
    struct optes_limits *l = GUARDED(&d->told, struct optes_limits);
    CHECK(optes_book_limits(b, l) == OPTES_NO_TENDER);
    pattern_expect((const uint8_t *)l, 0, sizeof *l);
    CHECK(optes_book_open_limits(b, m, ANNOUNCEMENT_BYTES, codes, CODES, caps, 2) == OPTES_LIMITS_MISCOUNTED);
    CHECK(optes_book_open_limits(b, m, ANNOUNCEMENT_BYTES, codes, 1, &wide, 1) == OPTES_LIMIT_TOO_LONG);
    CHECK(memcmp(b, &any, sizeof any) == 0);
    CHECK(optes_book_open_limits(b, m, ANNOUNCEMENT_BYTES, codes, CODES, caps, CODES) == OPTES_OK);
    CHECK(optes_book_limits(b, l) == OPTES_OK);
    CHECK(l->count == 3 && l->limits[0] == 40000 && l->limits[1] == 0 && l->limits[2] == OPTES_BOOK_LIMIT_MOST);
    CHECK(l->limits[3] == 0 && l->limits[OPTES_BOOK_CODES - 1] == 0);
    CHECK(optes_book_open(b, m, ANNOUNCEMENT_BYTES, codes, CODES) == OPTES_OK);
    CHECK(optes_book_limits(b, l) == OPTES_OK && l->count == 3 && l->limits[0] == 0 && l->limits[2] == 0);
}

// Without limits as many codes are taken as with them.
static void many_codes(void)
{
    uint32_t many[100];
    struct optes_book b = {{0}};
    struct optes_limits l = {0};
    for (uint32_t k = 0; k < 100; k++)
        many[k] = 90001 + k;
    for (size_t n = 0; n <= 100; n++) {
        const uint64_t refusal = n >= 1 && n <= OPTES_BOOK_CODES ? OPTES_OK : OPTES_BAD_CODES;
        CHECK(optes_book_open(&b, (const uint8_t *)announcement, ANNOUNCEMENT_BYTES, many, n) == refusal);
        CHECK(refusal != OPTES_OK || (optes_book_limits(&b, &l) == OPTES_OK && l.count == n));
    }
}

// Different terms, so that none is taken for another.
static void other_terms(const struct desk *d)
{
    struct optes_book b = opened_with(d, A_MOST, "07/000000000000011/000000000000012/000000000000013"
        "/000000000000014/000000000000015/00000016");
    struct optes_terms t;
    CHECK(optes_book_terms(&b, &t) == OPTES_OK);
    CHECK(t.most_bids == 7 && t.offered == 11 && t.minimum == 12 && t.increment == 13);
    CHECK(t.maximum == 14 && t.minimum_allocation == 15 && t.limit_rate == 16);
}

// A struct of zeros holds no tender: every call but opening says so and leaves what it was lent.
static void no_tender(const struct desk *d)
{
    const struct optes_book zeros = {{0}};
    struct optes_book *b = book_of(d, &zeros);
    struct optes_terms *t = GUARDED(&d->told, struct optes_terms);
    struct optes_allotment *a = GUARDED(&d->awards, struct optes_allotment);
    uint8_t space[OPTES_REPLY_BYTES];
    struct optes_answer answer;
    CHECK(optes_book_state(b) == OPTES_NO_TENDER && optes_book_revoke(b) == OPTES_NO_TENDER);
    CHECK(optes_book_close(b, 12032012, 110001) == OPTES_NO_TENDER);
    CHECK(optes_book_allot(b, a) == OPTES_NO_TENDER && optes_book_preview(b, a) == OPTES_NO_TENDER);
    CHECK(optes_book_terms(b, t) == OPTES_NO_TENDER);
    CHECK(optes_book_codes(b, (struct optes_codes *)a) == OPTES_NO_TENDER);
    CHECK(optes_book_limits(b, (struct optes_limits *)a) == OPTES_NO_TENDER);
    CHECK(optes_book_held(b, 90001, (struct optes_held *)a) == OPTES_NO_TENDER);
    CHECK(optes_book_receive(b, space, 0, 0, 0, space, 0, &answer) == OPTES_NO_TENDER);
    pattern_expect((const uint8_t *)t, 0, sizeof *t);
    pattern_expect((const uint8_t *)a, 0, sizeof *a);
    CHECK(memcmp(b, &zeros, sizeof zeros) == 0);
}

void struct_cases(const struct desk *d)
{
    receives(d);
    ends(d);
    previews(d);
    tells(d);
    limits(d);
    many_codes();
    other_terms(d);
    no_tender(d);
}
