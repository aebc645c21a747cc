// Addresses of both forms, and the message with them.
#ifndef HOST_ADDRESS_H
#define HOST_ADDRESS_H

#include "message.h"

#define ADDRESS_MOST 14
#define MESSAGE_MOST 357

// Room for addresses of lengths that none has.
#define ADDRESS_ROOM 20
#define MESSAGE_ROOM (329 + 2 * ADDRESS_ROOM)

// An address: the bytes of its field and how many there are, 1 if it reads as an address, and its numbers, which
// are 0 where it does not or has none.
struct address {
    uint8_t bytes[ADDRESS_ROOM + 1];
    size_t length;
    uint32_t read;
    uint64_t code;
    uint64_t branch;
};

extern const struct address short_sender, long_sender, short_recipient, long_recipient;

// The bytes of field k of the message with these addresses begin at this index.
size_t start_with(const struct address *sender, const struct address *recipient, size_t k);

// The message with these addresses: its bytes, and how many.
struct addressed {
    struct address sender;
    struct address recipient;
    uint8_t bytes[MESSAGE_ROOM];
    size_t length;
};

struct addressed addressed(const struct address *sender, const struct address *recipient);

// The four mixtures of a short and a long sender and recipient; the first has no long one and the last two.
#define MIXTURES 4
struct addressed mixture(size_t index);

#endif
