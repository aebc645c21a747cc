#include "address.h"

#include <string.h>

const struct address short_sender = {"90002", 5, 1, 90002, 0};
const struct address long_sender = {"90002/12345/AB", 14, 1, 90002, 12345};
const struct address short_recipient = {"01000", 5, 1, 1000, 0};
const struct address long_recipient = {"01000/00070/\x00\xff", 14, 1, 1000, 70};

size_t start_with(const struct address *sender, const struct address *recipient, size_t k)
{
    size_t before = k > 1 ? sender->length - 5 : 0;
    return fields[k].start + before + (k > 2 ? recipient->length - 5 : 0);
}

// Puts an address with its length byte, behind which it stands, at an index; gives the index past it.
static size_t put_address(uint8_t *m, size_t at, const struct address *address)
{
    m[at - 1] = (uint8_t)address->length;
    memcpy(m + at, address->bytes, address->length);
    return at + address->length;
}

// The two heads are the message's but for their last byte, and all past the recipient is the message's.
struct addressed addressed(const struct address *sender, const struct address *recipient)
{
    struct addressed a = {.sender = *sender, .recipient = *recipient};
    memcpy(a.bytes, message, 9);
    size_t at = put_address(a.bytes, 9, sender);
    memcpy(a.bytes + at, message + 14, 3);
    at = put_address(a.bytes, at + 3, recipient);
    memcpy(a.bytes + at, message + 22, MESSAGE_BYTES - 22);
    a.length = at + MESSAGE_BYTES - 22;
    return a;
}

struct addressed mixture(size_t index)
{
    return addressed(index & 1 ? &long_sender : &short_sender, index & 2 ? &long_recipient : &short_recipient);
}
