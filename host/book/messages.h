// The messages of document 01's worked tender, which the cases alter, and the replies to them.
#ifndef HOST_BOOK_MESSAGES_H
#define HOST_BOOK_MESSAGES_H

#include <stddef.h>
#include <stdint.h>

#define ANNOUNCEMENT_BYTES 225
#define ANNOUNCEMENT_MOST 243
#define APPLICATION_BYTES 339
#define APPLICATION_MOST 357
#define REPLY_MOST 436
#define PLACE_BYTES 24

// Where the parts of an announcement stand.
enum announcement_part {
    A_TYPE = 3, A_SENDER = 9, A_RECIPIENT = 17, A_CRO = 25, A_DATE = 39, A_TIME = 50, A_IDENTIFIER = 59,
    A_OPERATION = 73, A_EXECUTION = 94, A_MOST = 103, A_OFFERED = 106, A_MINIMUM = 122, A_INCREMENT = 138,
    A_MAXIMUM = 154, A_ALLOCATION = 170, A_LIMIT = 186, A_SPOT = 197, A_FORWARD = 208, A_CUT_OFF = 219
};

// Where the parts of an application stand.
enum application_part {
    P_TYPE = 3, P_SENDER = 9, P_RECIPIENT = 17, P_CRO = 25, P_DATE = 39, P_TIME = 50, P_CHECK = 59,
    P_IDENTIFIER = 67, P_BIDS = 81, P_NAME = 324
};

extern const char announcement[ANNOUNCEMENT_BYTES + 1];

// A bid: a rate and an amount.
struct bid {
    uint64_t rate;
    uint64_t amount;
};

// The announcement with this text put in at this index.
void announcement_with(uint8_t *m, size_t at, const char *text);

// A sender or a recipient: its bytes, and how many, 5 or 14.
struct address {
    const char *bytes;
    size_t length;
};

#define ADDRESS(literal) ((struct address){literal, sizeof literal - 1})

// An application of this code, with this reference time and these bids.
void application_of(uint8_t *m, uint64_t code, uint64_t time, const struct bid *bids, size_t count);

// Puts a text in at an index.
void put_text(uint8_t *m, size_t at, const char *text);

// The message of n bytes at m, whose sender and recipient are short, with these in their place: its bytes, and
// how many.
size_t with_addresses(uint8_t *to, const void *m, size_t n, struct address sender, struct address recipient);

// The confirmation of an application that was received at this time: its bytes, and how many. The application has
// a short sender, or had one before it got this one.
size_t confirmation_of(uint8_t *reply, const uint8_t *m, uint64_t time);
size_t confirmation_to(uint8_t *reply, const uint8_t *m, uint64_t time, struct address sender);

// The application returned with these errors, as field 098 has them: its bytes, and how many. It has
// APPLICATION_BYTES, or n.
size_t returned_with(uint8_t *reply, const uint8_t *m, const char *errors);
size_t returned_of(uint8_t *reply, const uint8_t *m, size_t n, const char *errors);

#endif
