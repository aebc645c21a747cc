#include "announcement.h"

#include <string.h>

#include "keys.h"

#define ANNOUNCEMENT_BYTES 225

// Each field is a tag, two bytes of length and what it holds.
static const char worked[] =
    "\x01\x00\x03" "6G0"
    "\x04\x00\x05" "01000"
    "\x05\x00\x05" "90001"
    "\x02\x00\x0b" "00000000001"
    "\x31\x00\x08" "12032012"
    "\x60\x00\x06" "093000"
    "\x70\x00\x0b" "T/2012/0001"
    "\x71\x00\x12" "NC/FD/LP/R/Y/VR/MR"
    "\x72\x00\x64" "12032012/03/000000000100000/000000000010000/000000000010000"
                   "/000000000000000/000000000000000/00100000"
    "\x73\x00\x08" "14032012"
    "\x74\x00\x08" "15032012"
    "\x75\x00\x06" "110000";

_Static_assert(sizeof worked == ANNOUNCEMENT_BYTES + 1, "the fields fill the announcement");

static const struct key keys[] = {
    {{"sender", "a code", 5}, TAKES_DIGITS, 9},
    {{"recipient", "a code", 5}, TAKES_DIGITS, 17},
    {{"cro", "a number", 11}, TAKES_DIGITS, 25},
    {{"date", "ddmmyyyy", 8}, TAKES_DIGITS, 39},
    {{"time", "hhmmss", 6}, TAKES_DIGITS, 50},
    {{"identifier", "T/yyyy/nnnn", 11}, TAKES_TEXT, 59},
    {{"side", "LA or LP", 2}, TAKES_SIDE, 79},
    {{"execution", "ddmmyyyy", 8}, TAKES_DIGITS, 94},
    {{"most", "a number of bids", 2}, TAKES_DIGITS, 103},
    {{"offered", "eurocents", 15}, TAKES_DIGITS, 106},
    {{"minimum", "eurocents", 15}, TAKES_DIGITS, 122},
    {{"increment", "eurocents", 15}, TAKES_DIGITS, 138},
    {{"maximum", "eurocents", 15}, TAKES_DIGITS, 154},
    {{"allocation", "eurocents", 15}, TAKES_DIGITS, 170},
    {{"limit", "hundred-thousandths of a percent", 8}, TAKES_DIGITS, 186},
    {{"spot", "ddmmyyyy", 8}, TAKES_DIGITS, 197},
    {{"forward", "ddmmyyyy", 8}, TAKES_DIGITS, 208},
    {{"cutoff", "hhmmss", 6}, TAKES_DIGITS, 219},
};

// A text may stand in quotes, the side too.
static bool is_side(const struct word *word)
{
    struct word plain = {word->text, word->length, false};
    return word_is(&plain, "LA") || word_is(&plain, "LP");
}

static void put(const struct line *line, const struct key *key, const struct word *word, void *into)
{
    uint8_t *place = (uint8_t *)into + key->start;
    if (key->takes == TAKES_DIGITS) {
        put_digits(place, line, word, &key->value);
        return;
    }
    if (key->takes == TAKES_SIDE && !is_side(word))
        refuse(line, "side '%s' is neither LA nor LP", shown(word).text);
    put_text(place, line, word, &key->value);
}

void add_announcement(struct bytes *to, const struct line *line)
{
    uint8_t announcement[ANNOUNCEMENT_BYTES];
    memcpy(announcement, worked, ANNOUNCEMENT_BYTES);
    put_keys(line, 1, keys, sizeof keys / sizeof *keys, put, announcement);
    bytes_add(to, announcement, ANNOUNCEMENT_BYTES);
}
