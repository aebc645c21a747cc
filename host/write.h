// Writes of the message, with each text and the space against its guard.
#ifndef HOST_WRITE_H
#define HOST_WRITE_H

#include "address.h"
#include "guarded.h"

// What a write takes of an address beside its code.
struct given {
    uint64_t length;
    uint64_t branch;
    struct text text;
};

// What a write takes: the six digit fields, the ten rates and the ten amounts; the addresses; the texts; the
// length of the space.
struct writing {
    uint64_t numbers[NUMBERS];
    struct given sender;
    struct given recipient;
    struct text type;
    struct text identifier;
    struct text name;
    size_t space;
};

// The writing that gives a mixture, into just enough space.
struct writing writing_of(size_t index);

// A text against its guard, and that it is there still.
const uint8_t *lend(const struct guarded *g, struct text t);
void expect_kept(const uint8_t *bytes, struct text t);

// A call of the archive that writes to this space.
typedef uint32_t write_call(const struct buffers *b, const struct writing *w, uint8_t *space);

// The write is refused with this number, and the space stays.
void expect_refused(write_call *call, const struct buffers *b, const struct writing *w, uint32_t number);

// The write gives these bytes, and those past them stay.
void expect_written(write_call *call, const struct buffers *b, const struct writing *w, const void *bytes,
    size_t length);

#endif
