#include "values.h"

#include <stdio.h>
#include <string.h>

#define DATE_CHARACTERS 8
#define TIME_CHARACTERS 6

const struct value code_value = {"code", "CODE", CODE_DIGITS};

static const struct value date_value = {"date", "DATE ddmmyyyy", DATE_CHARACTERS};
static const struct value time_value = {"time", "TIME hhmmss", TIME_CHARACTERS};

static _Noreturn void refuse_digits(const struct line *line, const struct word *word,
    const struct value *value, const char *wrong)
{
    refuse(line, "%s '%s' %s: expected %s, at most %zu digits", value->name, shown(word).text, wrong,
        value->form, value->width);
}

// Whether the word has at least one character, and each of them is one of these.
static bool is_made_of(const struct word *word, const char *characters)
{
    for (size_t i = 0; i < word->length; i++)
        if (word->text[i] == '\0' || strchr(characters, word->text[i]) == NULL)
            return false;
    return word->length > 0;
}

static void expect_digits(const struct line *line, const struct word *word, const struct value *value)
{
    char wrong[40];
    if (word->quoted)
        refuse_digits(line, word, value, "stands in quotes");
    if (!is_made_of(word, "0123456789"))
        refuse_digits(line, word, value, "is not digits");
    snprintf(wrong, sizeof wrong, "has %zu digits", word->length);
    if (word->length > value->width)
        refuse_digits(line, word, value, wrong);
}

uint64_t number_of(const struct line *line, const struct word *word, const struct value *value)
{
    expect_digits(line, word, value);
    uint64_t number = 0;
    for (size_t i = 0; i < word->length; i++) {
        uint64_t digit = (uint64_t)(word->text[i] - '0');
        if (number > (UINT64_MAX - digit) / 10)
            refuse_digits(line, word, value, "is over 18446744073709551615");
        number = number * 10 + digit;
    }
    return number;
}

void put_digits(uint8_t *place, const struct line *line, const struct word *word,
    const struct value *value)
{
    expect_digits(line, word, value);
    memset(place, '0', value->width);
    memcpy(place + (value->width - word->length), word->text, word->length);
}

static _Noreturn void refuse_length(const struct line *line, const struct word *word,
    const struct value *value, const char *most)
{
    refuse(line, "%s '%s' has %zu character%s: expected %s, %s%zu characters", value->name, shown(word).text,
        word->length, word->length == 1 ? "" : "s", value->form, most, value->width);
}

void put_text(uint8_t *place, const struct line *line, const struct word *word,
    const struct value *value)
{
    if (word->length != value->width)
        refuse_length(line, word, value, "");
    memcpy(place, word->text, value->width);
}

void put_padded(uint8_t *place, const struct line *line, const struct word *word,
    const struct value *value)
{
    if (word->length > value->width)
        refuse_length(line, word, value, "at most ");
    memset(place, ' ', value->width);
    memcpy(place, word->text, word->length);
}

void add_clock(struct bytes *to, const struct line *line, const char *form)
{
    uint8_t date[DATE_CHARACTERS], time[TIME_CHARACTERS];
    expect_words(line, 3, form);
    put_text(date, line, &line->words[1], &date_value);
    put_text(time, line, &line->words[2], &time_value);
    bytes_add(to, date, sizeof date);
    bytes_add(to, time, sizeof time);
}

static bool is_hexadecimal(const struct word *word)
{
    return is_made_of(word, "0123456789abcdefABCDEF");
}

static uint8_t nibble(char c)
{
    if (c >= 'a')
        return (uint8_t)(c - 'a' + 10);
    return (uint8_t)(c >= 'A' ? c - 'A' + 10 : c - '0');
}

static uint8_t byte_at(const char *text)
{
    return (uint8_t)(nibble(text[0]) << 4 | nibble(text[1]));
}

static void add_hexadecimal(struct bytes *to, const struct line *line, const struct word *word)
{
    if (!is_hexadecimal(word))
        refuse(line, "bytes '%s' are not hexadecimal digits: expected pairs of them, or a text in double quotes",
            shown(word).text);
    if (word->length % 2 != 0)
        refuse(line, "bytes '%s' are %zu hexadecimal digits: expected pairs of them", shown(word).text,
            word->length);
    for (size_t i = 0; i < word->length; i += 2)
        bytes_add_one(to, byte_at(word->text + i));
}

void add_raw(struct bytes *to, const struct line *line, size_t from)
{
    for (size_t k = from; k < line->count; k++) {
        const struct word *word = &line->words[k];
        if (word->quoted)
            bytes_add(to, word->text, word->length);
        else
            add_hexadecimal(to, line, word);
    }
}

uint8_t tag_of(const struct line *line, const struct word *word)
{
    if (word->quoted || word->length != 2 || !is_hexadecimal(word))
        refuse(line, "tag '%s' is not two hexadecimal digits, such as A1", shown(word).text);
    return byte_at(word->text);
}
