// What the calls tell of a message that stands in a buffer of its own.
#ifndef HOST_EXPECT_H
#define HOST_EXPECT_H

#include <stddef.h>
#include <stdint.h>

// The message is readable, and its ten fields stand where document 01 has them.
void expect_fields(const uint8_t *m);

// Digit field k of the six has no number where bit k of the set is on; the others have the message's.
void expect_numbers(const uint8_t *m, uint32_t without);

// Place k is malformed where bit k of the set is on; the others have the message's numbers.
void expect_places(const uint8_t *m, uint32_t malformed);

// The n bytes are refused, and no field, number or place is told of them.
void expect_unreadable(const uint8_t *m, size_t n);

// There is no field of this number.
void expect_no_field(const uint8_t *m, size_t n, uint32_t field);

// There is no place of this number.
void expect_no_place(const uint8_t *m, size_t n, uint32_t place);

#endif
