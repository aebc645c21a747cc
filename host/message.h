// The message that the cases alter, and what it holds by document 01.
#ifndef HOST_MESSAGE_H
#define HOST_MESSAGE_H

#include <stddef.h>
#include <stdint.h>

#define MESSAGE_BYTES 339
#define FIELDS 10
#define PLACES 10
#define DIGIT_FIELDS 6
#define NUMBERS 26

// A field: the index of the first byte that it holds, how many it holds, and these bytes.
struct field {
    size_t start;
    size_t length;
    const char *bytes;
};

// A number: the index of its first digit, how many it has, and its value.
struct number {
    size_t start;
    size_t digits;
    uint64_t value;
};

// A text: its bytes, any, and how many.
struct text {
    const char *bytes;
    size_t length;
};

#define TEXT(literal) ((struct text){literal, sizeof literal - 1})

extern const char message[MESSAGE_BYTES + 1];
extern const struct field fields[FIELDS];

// The six digit fields, then the ten rates, then the ten amounts.
extern const struct number numbers[NUMBERS];

// The numbers of place k.
const struct number *rate_of(size_t place);
const struct number *amount_of(size_t place);

// Bytes that are no digits: blank, a digit with its high bit set, NUL, slash and colon.
#define NO_DIGITS 5
extern const uint8_t no_digits[NO_DIGITS];

#endif
