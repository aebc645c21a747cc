// A line of a script: its number and its words.
#ifndef SCRIPT_LINE_H
#define SCRIPT_LINE_H

#include <stdbool.h>
#include <stddef.h>

// A word between blanks, or what stands between two quotes.
struct word {
    const char *text;
    size_t length;
    bool quoted;
};

// Starts as {0} with the name of its script; the number counts from 1.
struct line {
    const char *script;
    size_t number;
    struct word *words;
    size_t count;
    size_t room;
};

// Cuts the text into the words of the line. A carriage return at its end is passed over; any other control byte than
// a tab is refused.
void line_split(struct line *line, const char *text, size_t length);

// Gives the memory of the words back.
void line_free(struct line *line);

// True where the word is this name, without quotes.
bool word_is(const struct word *word, const char *name);

// A word as an error shows it: cut where it is long, in its quotes, and with a question mark for each byte that
// is not ASCII.
#define WORD_SHOWN 40
struct shown {
    char text[WORD_SHOWN + sizeof "\"..\""];
};
struct shown shown(const struct word *word);

// Ends the program with the script, the number of the line and what is wrong, which is written as by printf.
__attribute__((format(printf, 2, 3)))
_Noreturn void refuse(const struct line *line, const char *format, ...);

// Refuses a line of fewer words, or of more, than count. The form is what was expected.
void expect_words(const struct line *line, size_t count, const char *form);
void expect_end(const struct line *line, size_t count, const char *form);

#endif
