// The calls of the archive with every buffer against a page that may not be touched. Each call here holds
// the archive's to what it must leave alone.
#ifndef HOST_BOOK_DESK_H
#define HOST_BOOK_DESK_H

#include "guarded.h"
#include "optes_book.h"

// The buffers, and how much of each a call is lent: words, bytes of space, numbers and awards.
struct desk {
    struct guarded words;
    struct guarded message;
    struct guarded codes;
    struct guarded limits;
    struct guarded space;
    struct guarded told;
    struct guarded awards;
    size_t count;
    size_t room;
    size_t numbers;
    size_t places;
};

// A date and a time.
struct moment {
    uint64_t date;
    uint64_t time;
};

void desk_open(struct desk *d, enum guard guard);
void desk_close(struct desk *d);

// Each call takes the tender as it is and leaves what the archive left. A call that is refused is held to
// leave every word, byte, number and award; one that is accepted, to leave those past what it gives.
uint64_t call_open_limits(const struct desk *d, struct optes_book *b, const void *m, size_t n,
    const uint32_t *codes, size_t admitted, const uint64_t *limits, size_t limited);
uint64_t call_open(const struct desk *d, struct optes_book *b, const void *m, size_t n,
    const uint32_t *codes, size_t admitted); // Nobody is capped.
uint64_t call_receive(const struct desk *d, struct optes_book *b, const void *m, size_t n,
    struct moment at);
uint64_t call_close(const struct desk *d, struct optes_book *b, struct moment at);
uint64_t call_allot(const struct desk *d, struct optes_book *b);
uint64_t call_preview(const struct desk *d, const struct optes_book *b); // On pages that may not be written.
uint64_t call_revoke(const struct desk *d, struct optes_book *b);
uint64_t call_state(const struct desk *d, const struct optes_book *b);
uint64_t call_terms(const struct desk *d, const struct optes_book *b);
uint64_t call_codes(const struct desk *d, const struct optes_book *b);
uint64_t call_limits(const struct desk *d, const struct optes_book *b);
uint64_t call_held(const struct desk *d, const struct optes_book *b, uint64_t code);

// What the last call wrote.
const uint8_t *desk_space(const struct desk *d);
const uint64_t *desk_told(const struct desk *d);
const uint64_t *desk_awards(const struct desk *d);

#endif
