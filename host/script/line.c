#include "line.h"

#include <stdarg.h>
#include <stdio.h>
#include <stdlib.h>
#include <string.h>

#include "bytes.h"
#include "program.h"

static bool is_blank(char c)
{
    return c == ' ' || c == '\t';
}

static bool is_control(char c)
{
    return !is_blank(c) && ((c >= 0 && c < ' ') || c == 0x7f);
}

static void expect_text(const struct line *line, const char *text, size_t length)
{
    for (size_t i = 0; i < length; i++) {
        if (text[i] == '\r')
            refuse(line, "column %zu has a carriage return: expected lines that end with LF or CR LF", i + 1);
        if (is_control(text[i]))
            refuse(line, "column %zu has the control byte %02X: expected text; other bytes are written as "
                "hexadecimal digits", i + 1, (unsigned)text[i]);
    }
}

static void add_word(struct line *line, struct word word)
{
    line->words = grown(line->words, line->count, &line->room, sizeof word);
    line->words[line->count++] = word;
}

// Adds the text after the quote at index i, and gives the index past its closing quote.
static size_t add_quoted(struct line *line, const char *text, size_t length, size_t i)
{
    const char *start = text + i + 1;
    const char *end = memchr(start, '"', length - i - 1);
    struct word open = {start - 1, length - i, false};
    if (end == NULL)
        refuse(line, "text '%s' has no closing quote: expected one on the same line", shown(&open).text);
    struct word word = {start, (size_t)(end - start), true};
    add_word(line, word);
    size_t next = (size_t)(end - text) + 1;
    struct word after = {text + next, 1, false};
    if (next < length && !is_blank(text[next]))
        refuse(line, "'%s' stands right after the text '%s': expected a blank", shown(&after).text,
            shown(&word).text);
    return next;
}

// Adds the word that starts at index i, and gives the index past it.
static size_t add_plain(struct line *line, const char *text, size_t length, size_t i)
{
    size_t end = i;
    while (end < length && !is_blank(text[end]))
        end++;
    struct word word = {text + i, end - i, false};
    if (memchr(word.text, '"', word.length) != NULL)
        refuse(line, "word '%s' has a quote inside: expected a blank before a text in quotes",
            shown(&word).text);
    add_word(line, word);
    return end;
}

void line_split(struct line *line, const char *text, size_t length)
{
    if (length > 0 && text[length - 1] == '\r')
        length--;
    expect_text(line, text, length);
    line->count = 0;
    size_t i = 0;
    while (i < length) {
        if (is_blank(text[i]))
            i++;
        else if (line->count == 0 && text[i] == '#')
            return;
        else if (text[i] == '"')
            i = add_quoted(line, text, length, i);
        else
            i = add_plain(line, text, length, i);
    }
}

void line_free(struct line *line)
{
    free(line->words);
    *line = (struct line){0};
}

bool word_is(const struct word *word, const char *name)
{
    return !word->quoted && word->length == strlen(name) && memcmp(word->text, name, word->length) == 0;
}

struct shown shown(const struct word *word)
{
    char text[WORD_SHOWN + 1];
    size_t length = word->length > WORD_SHOWN ? WORD_SHOWN : word->length;
    for (size_t i = 0; i < length; i++) {
        char c = word->text[i];
        text[i] = c >= ' ' && c <= '~' ? c : '?';
    }
    text[length] = '\0';
    const char *quote = word->quoted ? "\"" : "", *more = word->length > WORD_SHOWN ? ".." : "";
    struct shown s;
    snprintf(s.text, sizeof s.text, "%s%s%s%s", quote, text, more, quote);
    return s;
}

void refuse(const struct line *line, const char *format, ...)
{
    va_list values;
    fprintf(stderr, "%s: %s: line %zu: ", program, line->script, line->number);
    va_start(values, format);
    vfprintf(stderr, format, values);
    va_end(values);
    fputc('\n', stderr);
    exit(2);
}

void expect_words(const struct line *line, size_t count, const char *form)
{
    if (line->count < count)
        refuse(line, "the line ends after '%s': expected %s", shown(&line->words[line->count - 1]).text, form);
}

void expect_end(const struct line *line, size_t count, const char *form)
{
    if (line->count > count)
        refuse(line, "word '%s' is one too many: expected %s", shown(&line->words[count]).text, form);
}
