// Document 01's worked tender at each of its stages, and what is expected of a tender.
#ifndef HOST_BOOK_WORKED_H
#define HOST_BOOK_WORKED_H

#include "desk.h"
#include "messages.h"

#define CODES 3
extern const uint32_t codes[CODES];

// A bid of 60000 at 1.5 %.
extern const struct bid one_bid;

// The clock before and after the cut-off.
extern const struct moment in_time;
extern const struct moment past_cut_off;

// The tender when it is opened, and with the four receptions of the worked session, closed, announced and
// revoked.
struct optes_book opened(const struct desk *d);
struct optes_book filled(const struct desk *d);
struct optes_book closed(const struct desk *d);
struct optes_book announced(const struct desk *d);
struct optes_book revoked(const struct desk *d);

// The tender that is opened by the announcement with this text at this index.
struct optes_book opened_with(const struct desk *d, size_t at, const char *text);

// The same with these credit limits, one for each code.
struct optes_book opened_limits(const struct desk *d, size_t at, const char *text, const uint64_t *limits);

// An application with these bids, or with one, is received in time and confirmed. One without bids cancels.
void confirmed_bids(const struct desk *d, struct optes_book *b, uint64_t code, uint64_t time, const struct bid *bids,
    size_t count);
void confirmed(const struct desk *d, struct optes_book *b, uint64_t code, uint64_t time, struct bid bid);

// The last allotment or preview was lent room for all that it gives, and gave this.
void expect_given(const struct desk *d, const struct optes_allotment *expected);

// A preview is answered: what it gives, or that it gives this.
struct optes_allotment previewed(const struct desk *d, const struct optes_book *b);
void expect_preview(const struct desk *d, const struct optes_book *b, const struct optes_allotment *expected);

// Closes the tender and allots it. Previews before and after the closing are held to what allotting gives.
void ended(const struct desk *d, struct optes_book *b);

// The last reception was answered by this reply, these errors and nothing else.
void expect_reply(const struct desk *d, const uint8_t *reply, size_t length, const uint64_t *errors,
    size_t count);

// The tender holds this time, or none, and these bids for a code.
void expect_held(const struct desk *d, const struct optes_book *b, uint64_t code, const uint64_t *time,
    const struct bid *bids, size_t count);

#endif
