// An OPTES tender in C and C++: opened by a 6G0, filled by 6G1s, closed, allotted or revoked, and previewed.
//
// Tender: it stands in a struct optes_book, which the host lends and never looks into. It may be copied by
// assignment and saved as it is; there is nothing to release. Calls that do not open a tender take it as
// opening or an earlier call left it. What a version before 0.3.0 saved is no tender.
// Threads: the library keeps no state, so calls on different tenders may run at the same time. While a call
// runs, no other thread may write what it reads, or touch what it writes.
// Refusals: a call that is refused returns the number of the refusal and changes nothing: no word of the
// tender, no byte of the space, no number of an answer. Nothing else can go wrong.
// Pointers: none may be null, even if it points to no bytes, codes or limits. What a call writes must not overlap
// what it reads, nor what else it writes.
// Dates are numbers ddmmyyyy and times hhmmss. Rates are in hundred-thousandths of a percent and amounts in
// eurocents.
#ifndef OPTES_BOOK_H
#define OPTES_BOOK_H

#include <stddef.h>
#include <stdint.h>

// OPTES_VERSION, what the calls return, the errors of a message, and the texts of both. Each call says below
// which refusals it has.
#include "optes_common.h"

// Where a tender stands.
#define OPTES_STATE_OPEN 0
#define OPTES_STATE_CLOSED 1
#define OPTES_STATE_ANNOUNCED 2
#define OPTES_STATE_REVOKED 3

// What the Treasury does: in LA it collects and the lowest rate is best, in LP it invests and the highest is.
#define OPTES_SIDE_LA 0
#define OPTES_SIDE_LP 1

// The sizes: of a tender, of what it holds, and of the least space for a reply.
#define OPTES_BOOK_WORDS 1560
#define OPTES_BOOK_CODES 64
#define OPTES_BOOK_CODE_PLACES 10
#define OPTES_BOOK_PLACES 640
#define OPTES_BOOK_ERRORS 16
#define OPTES_BOOK_IDENTIFIER_BYTES 11
#define OPTES_REPLY_BYTES 436

// The highest code that a counterparty may have.
#define OPTES_BOOK_CODE_MOST 99999

// The highest credit limit, which has fifteen digits.
#define OPTES_BOOK_LIMIT_MOST 999999999999999

// How many numbers each of the calls below has to tell.
#define OPTES_BOOK_ANSWER_NUMBERS 18
#define OPTES_BOOK_MARGINAL_NUMBERS 2
#define OPTES_BOOK_TERMS_NUMBERS 21
#define OPTES_BOOK_CODES_NUMBERS 65
#define OPTES_BOOK_LIMITS_NUMBERS 65
#define OPTES_BOOK_HELD_NUMBERS 23

#ifdef __cplusplus
extern "C" {
#endif

// The calls of the archive. The functions further below call them with the right sizes, so that a host
// seldom needs these. Each pointer is followed by how many elements it points to. An array that is told
// numbers gets as many of them as it has room for, from the first on, and any entries past them stay as they
// were. Words past OPTES_BOOK_WORDS are not looked at. Fewer are OPTES_NO_TENDER, which comes before every
// other refusal; optes_words_open asks nothing else of the words, and sets all of them. A later version may have
// more arguments under the same name, so declare these calls from the header of the archive's own version.
uint64_t optes_words_open(uint64_t *words, size_t count, const uint8_t *m, size_t n, const uint32_t *codes,
    size_t admitted, const uint64_t *limits, size_t limited);
uint64_t optes_words_receive(uint64_t *words, size_t count, const uint8_t *m, size_t n, uint64_t date,
    uint64_t time, uint8_t *space, size_t room, uint64_t *told, size_t numbers);
uint64_t optes_words_close(uint64_t *words, size_t count, uint64_t date, uint64_t time);
uint64_t optes_words_allot(uint64_t *words, size_t count, uint64_t *awards, size_t places, uint64_t *told,
    size_t numbers);
uint64_t optes_words_preview(const uint64_t *words, size_t count, uint64_t *awards, size_t places, uint64_t *told,
    size_t numbers);
uint64_t optes_words_revoke(uint64_t *words, size_t count);
uint64_t optes_words_state(const uint64_t *words, size_t count);
uint64_t optes_words_terms(const uint64_t *words, size_t count, uint64_t *told, size_t numbers);
uint64_t optes_words_codes(const uint64_t *words, size_t count, uint64_t *told, size_t numbers);
uint64_t optes_words_limits(const uint64_t *words, size_t count, uint64_t *told, size_t numbers);
uint64_t optes_words_held(const uint64_t *words, size_t count, uint64_t code, uint64_t *told,
    size_t numbers);

// A tender.
struct optes_book {
    uint64_t words[OPTES_BOOK_WORDS];
};

// The answer to a message: without errors it is accepted and the reply a 6G2, else the reply is an RE01.
struct optes_answer {
    uint64_t length; // How many bytes the reply has.
    uint64_t errors; // How many errors the message has.
    uint64_t codes[OPTES_BOOK_ERRORS]; // OPTES_ERROR_ codes in the order of the checks, then zeros.
};

// The awards and the marginal rate.
struct optes_allotment {
    uint64_t has_marginal; // 1 if there is a marginal rate. Where it is 0, so is the rate.
    uint64_t marginal;
    uint64_t awards[OPTES_BOOK_PLACES]; // Ten for each code, the codes rising. Zeros past the last code.
};

// What was announced.
struct optes_terms {
    uint8_t identifier[OPTES_BOOK_IDENTIFIER_BYTES];
    uint64_t side; // OPTES_SIDE_LA or OPTES_SIDE_LP
    uint64_t execution; // ddmmyyyy
    uint64_t cut_off; // hhmmss
    uint64_t most_bids;
    uint64_t offered;
    uint64_t minimum;
    uint64_t increment;
    uint64_t maximum; // 0 if none was told.
    uint64_t minimum_allocation;
    uint64_t limit_rate;
};

// The admitted codes.
struct optes_codes {
    uint64_t count;
    uint64_t codes[OPTES_BOOK_CODES]; // Rising, zeros past the last.
};

// The credit limits.
struct optes_limits {
    uint64_t count;
    uint64_t limits[OPTES_BOOK_CODES]; // One for each code, in the order of the codes. Zeros past the last.
};

// What is held for a code. All numbers are 0 for a code that is not admitted.
struct optes_held {
    uint64_t admitted; // 1 if the code is admitted, else 0.
    uint64_t has_time; // 1 if a message of it was accepted. Where it is 0, so is the time.
    uint64_t time; // The reference time of the message that counts, hhmmss.
    uint64_t rates[OPTES_BOOK_CODE_PLACES];
    uint64_t amounts[OPTES_BOOK_CODE_PLACES];
};

// Opens a tender for the announcement of n bytes at m and the codes, which are in rising order; nobody is
// capped. What stood in the book before does not matter. Refused with 1 to 7.
static inline uint64_t optes_book_open(struct optes_book *b, const uint8_t *m, size_t n,
    const uint32_t *codes, size_t count)
{
    static const uint64_t uncapped[OPTES_BOOK_CODES] = {0};
    // More codes are refused with 7 before the limits are looked at.
    return optes_words_open(b->words, OPTES_BOOK_WORDS, m, n, codes, count, uncapped,
        count < OPTES_BOOK_CODES ? count : OPTES_BOOK_CODES);
}

// Opens a tender with credit limits, which cap what the Treasury lends to each counterparty in LP: one for each
// code, in the order of the codes, at most OPTES_BOOK_LIMIT_MOST each, and 0 for a counterparty that is not
// capped. Before the awards the bids of each counterparty within the limit rate are walked, best rate first and
// equal rates by place: each keeps what the limit still leaves, and one that is left nothing is no bid any more. In
// LA the limits are taken and cut nothing. Refused with 1 to 7, 19 and 20.
static inline uint64_t optes_book_open_limits(struct optes_book *b, const uint8_t *m, size_t n,
    const uint32_t *codes, size_t count, const uint64_t *limits, size_t limit_count)
{
    return optes_words_open(b->words, OPTES_BOOK_WORDS, m, n, codes, count, limits, limit_count);
}

// Receives the n bytes at m at this date and time, and writes the reply to the start of the space, which has
// at least OPTES_REPLY_BYTES; the bytes past the reply stay as they were. A message with errors is answered
// too, and changes nothing in the tender. All branches of a code are one counterparty. Refused with 8 to 12, or
// OPTES_NO_TENDER.
static inline uint64_t optes_book_receive(struct optes_book *b, const uint8_t *m, size_t n, uint64_t date,
    uint64_t time, uint8_t *space, size_t room, struct optes_answer *answer)
{
    return optes_words_receive(b->words, OPTES_BOOK_WORDS, m, n, date, time, space, room,
        (uint64_t *)answer, OPTES_BOOK_ANSWER_NUMBERS);
}

// Closes the tender at this date and time. Refused with 8, 9, 10 and 13, or OPTES_NO_TENDER.
static inline uint64_t optes_book_close(struct optes_book *b, uint64_t date, uint64_t time)
{
    return optes_words_close(b->words, OPTES_BOOK_WORDS, date, time);
}

// Works out the awards, which are those of the bids after the cuts by the credit limits, and announces the
// tender. Refused with 8, 14, 15 and 16, or OPTES_NO_TENDER.
static inline uint64_t optes_book_allot(struct optes_book *b, struct optes_allotment *a)
{
    return optes_words_allot(b->words, OPTES_BOOK_WORDS, a->awards, OPTES_BOOK_PLACES, (uint64_t *)a,
        OPTES_BOOK_MARGINAL_NUMBERS);
}

// Tells what optes_book_allot would give: on an open tender if it were closed now, on a closed one as it is. It needs
// no clock, and the tender stays as it is. Refused with 8, 15 and 16, or OPTES_NO_TENDER.
static inline uint64_t optes_book_preview(const struct optes_book *b, struct optes_allotment *a)
{
    return optes_words_preview(b->words, OPTES_BOOK_WORDS, a->awards, OPTES_BOOK_PLACES, (uint64_t *)a,
        OPTES_BOOK_MARGINAL_NUMBERS);
}

// Revokes the tender. Refused with 8 and 15, or OPTES_NO_TENDER.
static inline uint64_t optes_book_revoke(struct optes_book *b)
{
    return optes_words_revoke(b->words, OPTES_BOOK_WORDS);
}

// Where the tender stands: one of the OPTES_STATE_ numbers, or OPTES_NO_TENDER.
static inline uint64_t optes_book_state(const struct optes_book *b)
{
    return optes_words_state(b->words, OPTES_BOOK_WORDS);
}

// Tells what was announced. Refused with OPTES_NO_TENDER alone, as are the next three.
static inline uint64_t optes_book_terms(const struct optes_book *b, struct optes_terms *t)
{
    uint64_t told[OPTES_BOOK_TERMS_NUMBERS];
    const uint64_t *number = told + OPTES_BOOK_IDENTIFIER_BYTES;
    uint64_t refusal = optes_words_terms(b->words, OPTES_BOOK_WORDS, told, OPTES_BOOK_TERMS_NUMBERS);
    if (refusal != OPTES_OK)
        return refusal;
    for (size_t k = 0; k < OPTES_BOOK_IDENTIFIER_BYTES; k++)
        t->identifier[k] = (uint8_t)told[k];
    t->side = number[0];
    t->execution = number[1];
    t->cut_off = number[2];
    t->most_bids = number[3];
    t->offered = number[4];
    t->minimum = number[5];
    t->increment = number[6];
    t->maximum = number[7];
    t->minimum_allocation = number[8];
    t->limit_rate = number[9];
    return OPTES_OK;
}

// Tells the admitted codes.
static inline uint64_t optes_book_codes(const struct optes_book *b, struct optes_codes *c)
{
    return optes_words_codes(b->words, OPTES_BOOK_WORDS, (uint64_t *)c, OPTES_BOOK_CODES_NUMBERS);
}

// Tells the credit limits.
static inline uint64_t optes_book_limits(const struct optes_book *b, struct optes_limits *l)
{
    return optes_words_limits(b->words, OPTES_BOOK_WORDS, (uint64_t *)l, OPTES_BOOK_LIMITS_NUMBERS);
}

// Tells what is held for a code, whose amounts are those of its message, before any cut.
static inline uint64_t optes_book_held(const struct optes_book *b, uint64_t code, struct optes_held *h)
{
    return optes_words_held(b->words, OPTES_BOOK_WORDS, code, (uint64_t *)h, OPTES_BOOK_HELD_NUMBERS);
}

#ifdef __cplusplus
}
#endif

#endif
