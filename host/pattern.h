// Bytes that differ from one index to the next, so that a byte written or moved is seen.
#ifndef HOST_PATTERN_H
#define HOST_PATTERN_H

#include <stddef.h>
#include <stdint.h>

// Fills n bytes with the pattern.
void pattern_put(uint8_t *bytes, size_t n);

// The bytes from one index up to another hold the pattern still.
void pattern_expect(const uint8_t *bytes, size_t from, size_t to);

#endif
