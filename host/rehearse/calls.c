#include "calls.h"

#include <inttypes.h>
#include <stdio.h>

#include "book.h"
#include "figures.h"
#include "reply.h"
#include "texts.h"
#include "values.h"

#define DATE_DIGITS 8
#define TIME_DIGITS 6
#define CLOCK_BYTES (DATE_DIGITS + TIME_DIGITS)
#define SENDER_AT 9
#define CODES_ON_A_LINE 16

enum tag { TAG_ADMIT = 0xa0, TAG_ANNOUNCE, TAG_RECEIVE, TAG_CLOSE, TAG_REVOKE, TAG_ALLOT };

static bool is_digits(const uint8_t *text, size_t n)
{
    for (size_t i = 0; i < n; i++)
        if (text[i] < '0' || text[i] > '9')
            return false;
    return true;
}

// The number of n digits; the largest of all where a byte is none, which no call takes for a clock.
static uint64_t number_at(const uint8_t *text, size_t n)
{
    uint64_t number = 0;
    if (!is_digits(text, n))
        return UINT64_MAX;
    for (size_t i = 0; i < n; i++)
        number = number * 10 + (uint64_t)(text[i] - '0');
    return number;
}

// Whether a field of a tag that has a call holds what the call takes.
static bool holds_call(const struct step *step)
{
    size_t n = step->held.length;
    switch (step->tag) {
    case TAG_ADMIT:
        return n % CODE_DIGITS == 0 && is_digits(step->held.at, n);
    case TAG_RECEIVE:
        return n >= CLOCK_BYTES;
    case TAG_CLOSE:
        return n == CLOCK_BYTES;
    case TAG_REVOKE:
    case TAG_ALLOT:
        return n == 0;
    default:
        return true;
    }
}

// What the field of a tag holds where it makes a call.
static const char *call_form(uint8_t tag)
{
    switch (tag) {
    case TAG_ADMIT:
        return "codes of five digits each";
    case TAG_RECEIVE:
        return "14 characters of date and time, then the message";
    case TAG_CLOSE:
        return "14 characters of date and time";
    default:
        return "nothing";
    }
}

void expect_call(const struct line *line, const struct step *step)
{
    if (step->kind == STEP_LIMITS || step->kind == STEP_PREVIEW)
        return;
    if (step->kind == STEP_RAW)
        refuse(line, "raw bytes make no call: expected another step, or field with a tag from A0 to A5");
    if (step->tag < TAG_ADMIT || step->tag > TAG_ALLOT)
        refuse(line, "tag '%02X' makes no call: expected a tag from A0 to A5", step->tag);
    if (!holds_call(step))
        refuse(line, "field %02X with %zu byte%s makes no call: expected %s", step->tag, step->held.length,
            step->held.length == 1 ? "" : "s", call_form(step->tag));
}

static void admit(struct rehearsal *r, const struct bytes *held)
{
    r->count = 0;
    for (size_t at = 0; at < held->length; at += CODE_DIGITS) {
        r->codes = grown(r->codes, r->count, &r->room, sizeof *r->codes);
        r->codes[r->count++] = (uint32_t)number_at(held->at + at, CODE_DIGITS);
    }
    printf("    codes kept for the next announcement: %zu", r->count);
    for (size_t k = 0; k < r->count; k++)
        printf("%s%05" PRIu32, k % CODES_ON_A_LINE == 0 ? "\n        " : " ", r->codes[k]);
    putchar('\n');
    if (r->limited)
        puts("    the credit limits are dropped: nobody is capped");
    r->limited = false;
}

// A pointer of a call may not be null, though there is nothing to point to.
static const void *not_null(const void *pointer)
{
    static const uint64_t nothing = 0;
    return pointer != NULL ? pointer : &nothing;
}

// The limits that are kept, and how many there are.
static const uint64_t *kept_limits(const struct rehearsal *r, size_t *count)
{
    *count = r->limits.length / sizeof(uint64_t);
    return not_null(r->limits.at);
}

// Keeps the limits, and shows each beside the code that it is for, where there is one.
static void keep_limits(struct rehearsal *r, const struct bytes *held)
{
    size_t count;
    bytes_free(&r->limits);
    bytes_add(&r->limits, held->at, held->length);
    r->limited = true;
    const uint64_t *limits = kept_limits(r, &count);
    printf("    credit limits kept for the announcements that follow: %zu\n", count);
    for (size_t k = 0; k < count; k++) {
        if (k < r->count)
            printf("        %05" PRIu32 "               ", r->codes[k]);
        else
            printf("        no code             ");
        printf("%s%s\n", limits[k] == 0 ? "uncapped" : euro(limits[k]).text, limits[k] == 0 ? "" : " euro");
    }
}

// Shows a refusal, and gives whether the call was accepted.
static bool accepted(uint64_t answer)
{
    if (answer != OPTES_OK)
        printf("    refused with %" PRIu64 ": %s\n", answer, refusal_text(answer));
    return answer == OPTES_OK;
}

static uint64_t open_tender(struct rehearsal *r, const struct bytes *held)
{
    const uint8_t *message = not_null(held->at);
    const uint32_t *codes = not_null(r->codes);
    size_t count;
    const uint64_t *limits = kept_limits(r, &count);
    if (!r->limited)
        return optes_book_open(&r->book, message, held->length, codes, r->count);
    return optes_book_open_limits(&r->book, message, held->length, codes, r->count, limits, count);
}

static void announce(struct rehearsal *r, const struct bytes *held)
{
    if (accepted(open_tender(r, held))) {
        puts("    opened");
        show_terms(&r->book);
    }
}

static void receive(struct rehearsal *r, const struct bytes *held)
{
    uint8_t space[OPTES_REPLY_BYTES];
    struct optes_answer answer;
    const uint8_t *message = held->at + CLOCK_BYTES;
    uint64_t date = number_at(held->at, DATE_DIGITS), time = number_at(held->at + DATE_DIGITS, TIME_DIGITS);
    if (!accepted(optes_book_receive(&r->book, message, held->length - CLOCK_BYTES, date, time, space,
            sizeof space, &answer)))
        return;
    show_reply(space, &answer);
    if (answer.errors == 0)
        show_held(&r->book, number_at(message + SENDER_AT, CODE_DIGITS));
}

static void close_at(struct rehearsal *r, const struct bytes *held)
{
    uint64_t date = number_at(held->at, DATE_DIGITS), time = number_at(held->at + DATE_DIGITS, TIME_DIGITS);
    if (accepted(optes_book_close(&r->book, date, time)))
        puts("    closed");
}

static void allot(struct rehearsal *r)
{
    struct optes_allotment given;
    if (accepted(optes_book_allot(&r->book, &given)))
        show_awards(&r->book, &given);
}

static void preview(const struct rehearsal *r)
{
    struct optes_allotment given;
    if (!accepted(optes_book_preview(&r->book, &given)))
        return;
    printf("    preview: what allotting would give%s; nothing is announced\n",
        optes_book_state(&r->book) == OPTES_STATE_OPEN ? " if the tender were closed now" : "");
    show_awards(&r->book, &given);
}

static void revoke(struct rehearsal *r)
{
    if (accepted(optes_book_revoke(&r->book)))
        puts("    revoked");
}

// Makes the call of a field on the tender.
static void call_by_tag(struct rehearsal *r, const struct step *step)
{
    switch (step->tag) {
    case TAG_ANNOUNCE:
        announce(r, &step->held);
        break;
    case TAG_RECEIVE:
        receive(r, &step->held);
        break;
    case TAG_CLOSE:
        close_at(r, &step->held);
        break;
    case TAG_REVOKE:
        revoke(r);
        break;
    default:
        allot(r);
    }
}

void make_call(struct rehearsal *r, const struct step *step)
{
    if (step->kind == STEP_LIMITS) {
        keep_limits(r, &step->held);
        return;
    }
    if (step->kind == STEP_FIELD && step->tag == TAG_ADMIT) {
        admit(r, &step->held);
        return;
    }
    if (step->kind == STEP_PREVIEW)
        preview(r);
    else
        call_by_tag(r, step);
    printf("    state: %s\n", state_text(optes_book_state(&r->book)));
}
