// The values that words stand for: digits, numbers, texts, clocks and bytes.
#ifndef SCRIPT_VALUES_H
#define SCRIPT_VALUES_H

#include <stddef.h>
#include <stdint.h>

#include "bytes.h"
#include "line.h"

// A value: its name, its form in words, and how many digits or characters it has, or has at most.
struct value {
    const char *name;
    const char *form;
    size_t width;
};

// The code of a counterparty.
#define CODE_DIGITS 5
extern const struct value code_value;

// Every call below refuses the line where the word is not what the call reads.

// The number of a word of one to width digits, which 64 bits hold.
uint64_t number_of(const struct line *line, const struct word *word, const struct value *value);

// Puts the word's digits at the place of this width, with zeros before them.
void put_digits(uint8_t *place, const struct line *line, const struct word *word,
    const struct value *value);

// Puts a text of exactly this width at the place.
void put_text(uint8_t *place, const struct line *line, const struct word *word,
    const struct value *value);

// Puts a text of at most this width at the place, with blanks after it.
void put_padded(uint8_t *place, const struct line *line, const struct word *word,
    const struct value *value);

// Adds the clock of words 1 and 2, eight and six characters as they stand, digits or not. The form is that of
// the step.
void add_clock(struct bytes *to, const struct line *line, const char *form);

// Adds the bytes of the words from this one on, each pairs of hexadecimal digits or a quoted text.
void add_raw(struct bytes *to, const struct line *line, size_t from);

// The byte of a word of two hexadecimal digits.
uint8_t tag_of(const struct line *line, const struct word *word);

#endif
