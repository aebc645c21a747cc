// The calls that the steps of a script make.
#ifndef REHEARSE_CALLS_H
#define REHEARSE_CALLS_H

#include <stdbool.h>

#include "optes_book.h"
#include "steps.h"

// The tender, and the codes and limits for the announcements that follow; where no limits are given nobody is capped.
// The book starts as {0}, without a tender.
struct rehearsal {
    struct optes_book book;
    uint32_t *codes;
    size_t count;
    size_t room;
    bool limited;
    struct bytes limits; // One uint64_t each.
};

// Refuses the line where its step makes no call.
void expect_call(const struct line *line, const struct step *step);

// Makes the call of a step and shows what comes of it.
void make_call(struct rehearsal *r, const struct step *step);

#endif
