// The keys of a step, each followed by its value.
#ifndef SCRIPT_KEYS_H
#define SCRIPT_KEYS_H

#include <stddef.h>

#include "line.h"
#include "values.h"

// Digits of at most the width, a text of the width, a text with blanks after it up to the width, LA or LP, or an
// address whose code has digits of at most the width.
enum takes { TAKES_DIGITS, TAKES_TEXT, TAKES_PADDED, TAKES_SIDE, TAKES_ADDRESS };

// A key by its value, whose name it has, what it takes, and where the value stands in what is written.
struct key {
    struct value value;
    enum takes takes;
    size_t start;
};

// Puts the value of a key into what is written.
typedef void put_value(const struct line *line, const struct key *key, const struct word *word,
    void *into);

// Puts the value of each key from word from on; a key that is unknown, repeated or alone is refused.
void put_keys(const struct line *line, size_t from, const struct key *keys, size_t count,
    put_value *put, void *into);

#endif
