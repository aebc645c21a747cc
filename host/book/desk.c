#include "desk.h"

#include <string.h>

#include "check.h"
#include "pattern.h"

#define WORD sizeof(uint64_t)

// The most that the cases lend of each.
#define MOST_WORDS (OPTES_BOOK_WORDS + 8)
#define MOST_CODES 100
#define MOST_BYTES 1000
#define MOST_NUMBERS 100
#define MOST_AWARDS (OPTES_BOOK_PLACES + 8)

void desk_open(struct desk *d, enum guard guard)
{
    guarded_open(&d->words, guard, MOST_WORDS * WORD);
    guarded_open(&d->message, guard, MOST_BYTES);
    guarded_open(&d->codes, guard, MOST_CODES * sizeof(uint32_t));
    guarded_open(&d->limits, guard, MOST_CODES * WORD);
    guarded_open(&d->space, guard, MOST_BYTES);
    guarded_open(&d->told, guard, MOST_NUMBERS * WORD);
    guarded_open(&d->awards, guard, MOST_AWARDS * WORD);
    d->count = OPTES_BOOK_WORDS;
    d->room = OPTES_REPLY_BYTES;
    d->numbers = OPTES_BOOK_CODES_NUMBERS;
    d->places = OPTES_BOOK_PLACES;
}

void desk_close(struct desk *d)
{
    guarded_close(&d->words);
    guarded_close(&d->message);
    guarded_close(&d->codes);
    guarded_close(&d->limits);
    guarded_close(&d->space);
    guarded_close(&d->told);
    guarded_close(&d->awards);
}

const uint8_t *desk_space(const struct desk *d)
{
    return guarded_bytes(&d->space, d->room);
}

const uint64_t *desk_told(const struct desk *d)
{
    return (const uint64_t *)(const void *)guarded_bytes(&d->told, d->numbers * WORD);
}

const uint64_t *desk_awards(const struct desk *d)
{
    return (const uint64_t *)(const void *)guarded_bytes(&d->awards, d->places * WORD);
}

// How many bytes of the tender are lent.
static size_t tender_bytes(const struct desk *d)
{
    size_t lent = d->count * WORD;
    return lent < sizeof(struct optes_book) ? lent : sizeof(struct optes_book);
}

// The words of the tender, with the pattern past them.
static uint64_t *lend_words(const struct desk *d, const struct optes_book *b)
{
    uint8_t *words = guarded_bytes(&d->words, d->count * WORD);
    pattern_put(words, d->count * WORD);
    memcpy(words, b->words, tender_bytes(d));
    return (uint64_t *)(void *)words;
}

// Numbers that hold the pattern.
static uint64_t *lend_numbers(const struct guarded *g, size_t count)
{
    uint8_t *numbers = guarded_bytes(g, count * WORD);
    pattern_put(numbers, count * WORD);
    return (uint64_t *)(void *)numbers;
}

static uint8_t *lend_space(const struct desk *d)
{
    uint8_t *space = guarded_bytes(&d->space, d->room);
    pattern_put(space, d->room);
    return space;
}

// The entries past those that an accepted call gives hold the pattern still; all of a refused one do.
static void expect_left(const uint64_t *numbers, size_t count, uint64_t answer, size_t given)
{
    size_t from = answer == OPTES_OK ? given : 0;
    pattern_expect((const uint8_t *)numbers, from * WORD, count * WORD);
}

static void expect_same_words(const struct desk *d, const struct optes_book *b, const uint64_t *words)
{
    CHECK(memcmp(words, b->words, tender_bytes(d)) == 0);
    pattern_expect((const uint8_t *)words, sizeof(struct optes_book), d->count * WORD);
}

// Takes the words of an accepted call; those past the tender stay, and all of a refused one do.
static uint64_t take_words(const struct desk *d, struct optes_book *b, const uint64_t *words,
    uint64_t answer)
{
    if (answer == OPTES_OK)
        memcpy(b->words, words, tender_bytes(d));
    expect_same_words(d, b, words);
    return answer;
}

uint64_t call_open_limits(const struct desk *d, struct optes_book *b, const void *m, size_t n,
    const uint32_t *codes, size_t admitted, const uint64_t *limits, size_t limited)
{
    uint64_t *words = lend_words(d, b);
    const uint8_t *message = guarded_copy(&d->message, m, n);
    const uint8_t *list = guarded_copy(&d->codes, codes, admitted * sizeof *codes);
    const uint8_t *caps = guarded_copy(&d->limits, limits, limited * sizeof *limits);
    uint64_t answer = optes_words_open(words, d->count, message, n, (const uint32_t *)(const void *)list,
        admitted, (const uint64_t *)(const void *)caps, limited);
    CHECK(memcmp(message, m, n) == 0);
    CHECK(memcmp(list, codes, admitted * sizeof *codes) == 0);
    CHECK(memcmp(caps, limits, limited * sizeof *limits) == 0);
    return take_words(d, b, words, answer);
}

uint64_t call_open(const struct desk *d, struct optes_book *b, const void *m, size_t n,
    const uint32_t *codes, size_t admitted)
{
    static const uint64_t uncapped[MOST_CODES] = {0};
    return call_open_limits(d, b, m, n, codes, admitted, uncapped, admitted);
}

uint64_t call_receive(const struct desk *d, struct optes_book *b, const void *m, size_t n,
    struct moment at)
{
    uint64_t *words = lend_words(d, b);
    const uint8_t *message = guarded_copy(&d->message, m, n);
    uint8_t *space = lend_space(d);
    uint64_t *told = lend_numbers(&d->told, d->numbers);
    uint64_t answer = optes_words_receive(words, d->count, message, n, at.date, at.time, space, d->room,
        told, d->numbers);
    CHECK(memcmp(message, m, n) == 0);
    expect_left(told, d->numbers, answer, OPTES_BOOK_ANSWER_NUMBERS);
    if (answer != OPTES_OK)
        pattern_expect(space, 0, d->room);
    return take_words(d, b, words, answer);
}

uint64_t call_close(const struct desk *d, struct optes_book *b, struct moment at)
{
    uint64_t *words = lend_words(d, b);
    return take_words(d, b, words, optes_words_close(words, d->count, at.date, at.time));
}

// The marginal rate and the awards, past which the entries are left; all of a refused call are.
static void expect_awards_left(const struct desk *d, uint64_t answer)
{
    expect_left(desk_told(d), d->numbers, answer, OPTES_BOOK_MARGINAL_NUMBERS);
    expect_left(desk_awards(d), d->places, answer, OPTES_BOOK_PLACES);
}

uint64_t call_allot(const struct desk *d, struct optes_book *b)
{
    uint64_t *words = lend_words(d, b);
    uint64_t *told = lend_numbers(&d->told, d->numbers);
    uint64_t *awards = lend_numbers(&d->awards, d->places);
    uint64_t answer = optes_words_allot(words, d->count, awards, d->places, told, d->numbers);
    expect_awards_left(d, answer);
    return take_words(d, b, words, answer);
}

uint64_t call_preview(const struct desk *d, const struct optes_book *b)
{
    const uint64_t *words = lend_words(d, b);
    uint64_t *told = lend_numbers(&d->told, d->numbers);
    uint64_t *awards = lend_numbers(&d->awards, d->places);
    guarded_read_only(&d->words);
    uint64_t answer = optes_words_preview(words, d->count, awards, d->places, told, d->numbers);
    guarded_writable(&d->words);
    expect_awards_left(d, answer);
    expect_same_words(d, b, words);
    return answer;
}

uint64_t call_revoke(const struct desk *d, struct optes_book *b)
{
    uint64_t *words = lend_words(d, b);
    return take_words(d, b, words, optes_words_revoke(words, d->count));
}

uint64_t call_state(const struct desk *d, const struct optes_book *b)
{
    const uint64_t *words = lend_words(d, b);
    uint64_t state = optes_words_state(words, d->count);
    expect_same_words(d, b, words);
    return state;
}

uint64_t call_terms(const struct desk *d, const struct optes_book *b)
{
    const uint64_t *words = lend_words(d, b);
    uint64_t *told = lend_numbers(&d->told, d->numbers);
    uint64_t answer = optes_words_terms(words, d->count, told, d->numbers);
    expect_left(told, d->numbers, answer, OPTES_BOOK_TERMS_NUMBERS);
    expect_same_words(d, b, words);
    return answer;
}

uint64_t call_codes(const struct desk *d, const struct optes_book *b)
{
    const uint64_t *words = lend_words(d, b);
    uint64_t *told = lend_numbers(&d->told, d->numbers);
    uint64_t answer = optes_words_codes(words, d->count, told, d->numbers);
    expect_left(told, d->numbers, answer, OPTES_BOOK_CODES_NUMBERS);
    expect_same_words(d, b, words);
    return answer;
}

uint64_t call_limits(const struct desk *d, const struct optes_book *b)
{
    const uint64_t *words = lend_words(d, b);
    uint64_t *told = lend_numbers(&d->told, d->numbers);
    uint64_t answer = optes_words_limits(words, d->count, told, d->numbers);
    expect_left(told, d->numbers, answer, OPTES_BOOK_LIMITS_NUMBERS);
    expect_same_words(d, b, words);
    return answer;
}

uint64_t call_held(const struct desk *d, const struct optes_book *b, uint64_t code)
{
    const uint64_t *words = lend_words(d, b);
    uint64_t *told = lend_numbers(&d->told, d->numbers);
    uint64_t answer = optes_words_held(words, d->count, code, told, d->numbers);
    expect_left(told, d->numbers, answer, OPTES_BOOK_HELD_NUMBERS);
    expect_same_words(d, b, words);
    return answer;
}
