// What is readable as a 6G1 with addresses of the long form, where its fields then stand, and what the addresses
// read as.
#include <string.h>

#include "address.h"
#include "cases.h"
#include "check.h"
#include "expect.h"
#include "optes.h"
#include "whole.h"

static void expect_number(const uint8_t *m, size_t n, uint32_t field, uint32_t has, uint64_t number)
{
    CHECK(optes_6g1_has_number(m, n, field) == has);
    CHECK(optes_6g1_number(m, n, field) == number);
}

// The ten fields stand where the lengths of the addresses put them, with their bytes.
static void expect_fields_of(const uint8_t *m, const struct addressed *a)
{
    for (uint32_t k = 0; k < FIELDS; k++) {
        const size_t start = start_with(&a->sender, &a->recipient, k);
        const struct address *address = k == OPTES_6G1_SENDER ? &a->sender : &a->recipient;
        const int is_address = k == OPTES_6G1_SENDER || k == OPTES_6G1_RECIPIENT;
        CHECK(optes_6g1_has_field(m, a->length, k) == 1);
        CHECK(optes_6g1_start(m, a->length, k) == start);
        CHECK(optes_6g1_length(m, a->length, k) == (is_address ? address->length : fields[k].length));
        CHECK(is_address || memcmp(m + start, fields[k].bytes, fields[k].length) == 0);
        CHECK(!is_address || memcmp(m + start, address->bytes, address->length) == 0);
    }
}

// The addresses read as they must, and the other numbers are the message's.
static void expect_numbers_of(const uint8_t *m, const struct addressed *a)
{
    const size_t n = a->length;
    expect_number(m, n, OPTES_6G1_SENDER, a->sender.read, a->sender.code);
    expect_number(m, n, OPTES_6G1_RECIPIENT, a->recipient.read, a->recipient.code);
    for (uint32_t k = 2; k < DIGIT_FIELDS; k++)
        expect_number(m, n, OPTES_6G1_SENDER + k, 1, numbers[k].value);
    for (uint32_t k = 0; k < PLACES; k++) {
        CHECK(optes_6g1_has_place(m, n, k) == 1);
        CHECK(optes_6g1_rate(m, n, k) == rate_of(k)->value);
        CHECK(optes_6g1_amount(m, n, k) == amount_of(k)->value);
    }
}

// Puts the three numbers of an address, whose field starts here; zeros where it is short or was not read.
static void put_address_numbers(uint64_t *told, const struct address *address, size_t start)
{
    const int is_long = address->length == ADDRESS_MOST && address->read;
    told[0] = is_long ? 1 : 0;
    told[1] = is_long ? address->branch : 0;
    told[2] = is_long ? start + 12 : 0;
}

// All numbers of the message at once.
static void expect_whole_of(const struct buffers *b, const uint8_t *m, const struct addressed *a)
{
    uint64_t told[WHOLE_NUMBERS] = {a->sender.code, a->sender.read, a->recipient.code, a->recipient.read};
    for (size_t k = 2; k < DIGIT_FIELDS; k++) {
        told[2 * k] = numbers[k].value;
        told[2 * k + 1] = 1;
    }
    for (size_t k = 0; k < PLACES; k++) {
        told[12 + 3 * k] = rate_of(k)->value;
        told[13 + 3 * k] = amount_of(k)->value;
        told[14 + 3 * k] = 1;
    }
    told[42] = start_with(&a->sender, &a->recipient, OPTES_6G1_TYPE);
    told[43] = start_with(&a->sender, &a->recipient, OPTES_6G1_IDENTIFIER);
    told[44] = start_with(&a->sender, &a->recipient, OPTES_6G1_NAME);
    put_address_numbers(told + 45, &a->sender, start_with(&a->sender, &a->recipient, OPTES_6G1_SENDER));
    put_address_numbers(told + 48, &a->recipient, start_with(&a->sender, &a->recipient, OPTES_6G1_RECIPIENT));
    expect_whole(b, m, a->length, told);
}

// The message with these addresses is readable and tells what it holds.
static void reads(const struct buffers *b, const struct address *sender, const struct address *recipient)
{
    const struct addressed a = addressed(sender, recipient);
    const uint8_t *m = guarded_copy(&b->message, a.bytes, a.length);
    CHECK(optes_6g1_read(m, a.length) == 0);
    expect_fields_of(m, &a);
    expect_numbers_of(m, &a);
    expect_whole_of(b, m, &a);
    CHECK(memcmp(m, a.bytes, a.length) == 0);
}

// The address beside each short and long one, as a sender and as a recipient.
static void reads_beside(const struct buffers *b, const struct address *address)
{
    reads(b, address, &short_recipient);
    reads(b, address, &long_recipient);
    reads(b, &short_sender, address);
    reads(b, &long_sender, address);
}

static void unreadable(const struct buffers *b, const void *bytes, size_t n)
{
    const uint8_t *m = guarded_copy(&b->message, bytes, n);
    expect_unreadable(m, n);
    expect_whole(b, m, n, NULL);
}

// 339 bytes, 348 with either one long, and 357.
static void mixtures(const struct buffers *b)
{
    const size_t lengths[MIXTURES] = {339, 348, 348, 357};
    for (size_t k = 0; k < MIXTURES; k++) {
        const struct addressed a = mixture(k);
        CHECK(a.length == lengths[k]);
        reads(b, &a.sender, &a.recipient);
    }
}

// Each byte of a head with each other value: 12.
static void head_byte(const struct buffers *b, const struct addressed *a, size_t at)
{
    uint8_t *m = guarded_copy(&b->message, a->bytes, a->length);
    for (int other = 1; other <= 255; other++) {
        m[at] = (uint8_t)(a->bytes[at] + other);
        CHECK(optes_6g1_read(m, a->length) == 12);
    }
    expect_unreadable(m, a->length);
}

static void heads(const struct buffers *b)
{
    for (size_t k = 0; k < MIXTURES; k++) {
        const struct addressed a = mixture(k);
        for (size_t field = 0; field < FIELDS; field++) {
            const size_t start = start_with(&a.sender, &a.recipient, field);
            for (size_t at = start - 3; at < start; at++)
                head_byte(b, &a, at);
        }
    }
}

// Every length from 0 to 400, each mixture and then zeros: only its own is readable.
static void lengths(const struct buffers *b)
{
    for (size_t k = 0; k < MIXTURES; k++) {
        const struct addressed a = mixture(k);
        uint8_t longest[400] = {0};
        memcpy(longest, a.bytes, a.length);
        for (size_t n = 0; n <= sizeof longest; n++)
            if (n != a.length)
                unreadable(b, longest, n);
    }
}

// Every two lengths in the heads of a message of another mixture: 348 bytes whose heads say 5 and 5, 339 with a 14.
static void other_heads(const struct buffers *b)
{
    for (size_t k = 0; k < MIXTURES; k++) {
        struct addressed a = mixture(k);
        const size_t recipient = start_with(&a.sender, &a.recipient, OPTES_6G1_RECIPIENT);
        for (size_t said = 0; said < MIXTURES; said++) {
            a.bytes[8] = said & 1 ? 14 : 5;
            a.bytes[recipient - 1] = said & 2 ? 14 : 5;
            if (said == k)
                CHECK(optes_6g1_read(guarded_copy(&b->message, a.bytes, a.length), a.length) == 0);
            else
                unreadable(b, a.bytes, a.length);
        }
    }
}

// Addresses of every length from 0 to 20, which the heads say and the message adds up to: only 5 and 14 are
// readable, though others make 339, 348 or 357 bytes too.
static void other_lengths(const struct buffers *b)
{
    for (size_t sender = 0; sender <= ADDRESS_ROOM; sender++) {
        for (size_t recipient = 0; recipient <= ADDRESS_ROOM; recipient++) {
            const struct address from = {"90002/12345/AB000000", sender, 0, 0, 0};
            const struct address to = {"01000/00070/AB000000", recipient, 0, 0, 0};
            const struct addressed a = addressed(&from, &to);
            const int is_right = (sender == 5 || sender == 14) && (recipient == 5 || recipient == 14);
            CHECK(a.length == 329 + sender + recipient);
            if (is_right)
                CHECK(optes_6g1_read(guarded_copy(&b->message, a.bytes, a.length), a.length) == 0);
            else
                unreadable(b, a.bytes, a.length);
        }
    }
}

// A long sender and a long recipient in the other order: 12.
static void order(const struct buffers *b)
{
    const struct addressed a = mixture(MIXTURES - 1);
    uint8_t m[MESSAGE_MOST];
    memcpy(m, a.bytes, a.length);
    memcpy(m + 6, a.bytes + 23, 17);
    memcpy(m + 23, a.bytes + 6, 17);
    unreadable(b, m, a.length);
}

// The address with another byte, which is no digit or no slash: it reads as none, its text too.
static void damaged(const struct buffers *b, const struct address *address, size_t at, uint8_t other)
{
    struct address none = *address;
    none.bytes[at] = other;
    none.read = 0;
    none.code = none.branch = 0;
    reads_beside(b, &none);
}

// Each byte before the text in turn.
static void damaged_addresses(const struct buffers *b)
{
    for (size_t at = 0; at < 12; at++) {
        const int is_slash = at == 5 || at == 11;
        for (size_t k = 0; k < NO_DIGITS; k++)
            if (!is_slash || no_digits[k] != '/')
                damaged(b, &long_sender, at, no_digits[k]);
        if (is_slash)
            damaged(b, &long_recipient, at, '0');
    }
    damaged(b, &short_sender, 4, '/');
}

// Every byte as either one of the text, NUL and slash too: it is read.
static void texts(const struct buffers *b)
{
    for (int byte = 0; byte <= 255; byte++) {
        struct address first = long_sender, second = long_sender;
        first.bytes[12] = (uint8_t)byte;
        second.bytes[13] = (uint8_t)byte;
        reads(b, &first, &short_recipient);
        reads(b, &short_sender, &second);
    }
    reads_beside(b, &(struct address){"90002/12345///", 14, 1, 90002, 12345});
    reads_beside(b, &(struct address){"90002/12345/\x00\x00", 14, 1, 90002, 12345});
}

// The least and the widest numbers, and addresses that begin as one does or have their slashes elsewhere.
static void edges(const struct buffers *b)
{
    reads_beside(b, &(struct address){"00000/00000/00", 14, 1, 0, 0});
    reads_beside(b, &(struct address){"99999/99999/99", 14, 1, 99999, 99999});
    reads_beside(b, &(struct address){"01000xxxxxxxxx", 14, 0, 0, 0});
    reads_beside(b, &(struct address){"01000\0\0\0\0\0\0\0\0", 14, 0, 0, 0});
    reads_beside(b, &(struct address){"01000000000000", 14, 0, 0, 0});
    reads_beside(b, &(struct address){"9000/012345/AB", 14, 0, 0, 0});
    reads_beside(b, &(struct address){"90002/1234/5AB", 14, 0, 0, 0});
    reads_beside(b, &(struct address){"//////////////", 14, 0, 0, 0});
}

void long_reading_cases(const struct buffers *b)
{
    mixtures(b);
    heads(b);
    lengths(b);
    other_heads(b);
    other_lengths(b);
    order(b);
    damaged_addresses(b);
    texts(b);
    edges(b);
}
