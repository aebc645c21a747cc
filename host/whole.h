// A whole message read by one call, into arrays of every length.
#ifndef HOST_WHOLE_H
#define HOST_WHOLE_H

#include "guarded.h"

// How many numbers the call has to give.
#define WHOLE_NUMBERS 51

// Arrays of every length get the numbers that they have room for, and keep the entries past them; where there are
// no numbers the call is refused with 12, and they keep all entries.
void expect_whole(const struct buffers *b, const uint8_t *m, size_t n, const uint64_t *told);

#endif
