#include "message.h"

#define TYPE "6G1"
#define SENDER "90002"
#define RECIPIENT "01000"
#define CRO "00000000017"
#define DATE "12032012"
#define TIME "102900"
#define CHECK_DIGIT "12345"
#define IDENTIFIER "T/2012/0001"
#define BIDS                                                                    \
    "00150000/000000000060000" "00140000/000000000050000" "00130000/000000000040000" \
    "00120000/000000000030000" "00110000/000000000020000" "00100000/000000000010000" \
    "99999999/999999999999999" "00000000/000000000000000" "00000000/000000000000000" \
    "00000000/000000000000000"
#define NAME "CONTACT \x00 \xff end"

// Each field is a tag, two bytes of length and what it holds.
const char message[MESSAGE_BYTES + 1] =
    "\x01\x00\x03" TYPE
    "\x04\x00\x05" SENDER
    "\x05\x00\x05" RECIPIENT
    "\x02\x00\x0b" CRO
    "\x31\x00\x08" DATE
    "\x60\x00\x06" TIME
    "\x10\x00\x05" CHECK_DIGIT
    "\x70\x00\x0b" IDENTIFIER
    "\x76\x00\xf0" BIDS
    "\x7f\x00\x0f" NAME;

const struct field fields[FIELDS] = {
    {3, 3, TYPE},
    {9, 5, SENDER},
    {17, 5, RECIPIENT},
    {25, 11, CRO},
    {39, 8, DATE},
    {50, 6, TIME},
    {59, 5, CHECK_DIGIT},
    {67, 11, IDENTIFIER},
    {81, 240, BIDS},
    {324, 15, NAME},
};

const struct number numbers[NUMBERS] = {
    {9, 5, 90002},
    {17, 5, 1000},
    {25, 11, 17},
    {39, 8, 12032012},
    {50, 6, 102900},
    {59, 5, 12345},
    {81, 8, 150000},
    {105, 8, 140000},
    {129, 8, 130000},
    {153, 8, 120000},
    {177, 8, 110000},
    {201, 8, 100000},
    {225, 8, 99999999},
    {249, 8, 0},
    {273, 8, 0},
    {297, 8, 0},
    {90, 15, 60000},
    {114, 15, 50000},
    {138, 15, 40000},
    {162, 15, 30000},
    {186, 15, 20000},
    {210, 15, 10000},
    {234, 15, 999999999999999},
    {258, 15, 0},
    {282, 15, 0},
    {306, 15, 0},
};

const struct number *rate_of(size_t place)
{
    return &numbers[DIGIT_FIELDS + place];
}

const struct number *amount_of(size_t place)
{
    return &numbers[DIGIT_FIELDS + PLACES + place];
}

const uint8_t no_digits[NO_DIGITS] = {' ', '2' | 0x80, 0, '/', ':'};

_Static_assert(sizeof TYPE SENDER RECIPIENT CRO DATE TIME CHECK_DIGIT IDENTIFIER BIDS NAME
        == MESSAGE_BYTES - 3 * FIELDS + 1, "the fields fill the message");
