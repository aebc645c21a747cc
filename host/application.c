// The struct of a 6G1: read from bytes, and written to them.
#include <string.h>

#include "cases.h"
#include "check.h"
#include "message.h"
#include "optes.h"
#include "pattern.h"

// The application that the message holds.
static struct optes_application valid(void)
{
    struct optes_application a = {
        .sender = 90002, .recipient = 1000, .cro = 17,
        .date = 12032012, .time = 102900, .check = 12345,
        .has_sender = 1, .has_recipient = 1, .has_cro = 1,
        .has_date = 1, .has_time = 1, .has_check = 1,
        .places = {
            {150000, 60000, 1}, {140000, 50000, 1}, {130000, 40000, 1}, {120000, 30000, 1},
            {110000, 20000, 1}, {100000, 10000, 1}, {99999999, 999999999999999, 1},
            {0, 0, 1}, {0, 0, 1}, {0, 0, 1},
        },
    };
    memcpy(a.type, "6G1", OPTES_6G1_TYPE_BYTES);
    memcpy(a.identifier, "T/2012/0001", OPTES_6G1_IDENTIFIER_BYTES);
    memcpy(a.name, "CONTACT \x00 \xff end", OPTES_6G1_NAME_BYTES);
    return a;
}

// A struct against the guard, each byte of it 0x5a.
static struct optes_application *untouched(const struct buffers *b)
{
    uint8_t *bytes = guarded_bytes(&b->application, sizeof(struct optes_application));
    memset(bytes, 0x5a, sizeof(struct optes_application));
    return (struct optes_application *)(void *)bytes;
}

// A copy of a struct against the guard.
static const struct optes_application *guarded(const struct buffers *b, const struct optes_application *a)
{
    return (const struct optes_application *)(void *)guarded_copy(&b->application, a, sizeof *a);
}

static void expect_texts(const struct optes_application *a, const struct optes_application *expected)
{
    CHECK(memcmp(a->type, expected->type, sizeof a->type) == 0);
    CHECK(memcmp(a->identifier, expected->identifier, sizeof a->identifier) == 0);
    CHECK(memcmp(a->name, expected->name, sizeof a->name) == 0);
}

// Two structs hold the same, member by member.
static void expect_same(const struct optes_application *a, const struct optes_application *expected)
{
    CHECK(a->sender == expected->sender && a->has_sender == expected->has_sender);
    CHECK(a->recipient == expected->recipient && a->has_recipient == expected->has_recipient);
    CHECK(a->cro == expected->cro && a->has_cro == expected->has_cro);
    CHECK(a->date == expected->date && a->has_date == expected->has_date);
    CHECK(a->time == expected->time && a->has_time == expected->has_time);
    CHECK(a->check == expected->check && a->has_check == expected->has_check);
    for (size_t k = 0; k < PLACES; k++) {
        CHECK(a->places[k].rate == expected->places[k].rate);
        CHECK(a->places[k].amount == expected->places[k].amount);
        CHECK(a->places[k].well_formed == expected->places[k].well_formed);
    }
    CHECK(a->unread == expected->unread);
    expect_texts(a, expected);
}

// These 339 bytes read as this application.
static void reads_as(const struct buffers *b, const void *bytes, const struct optes_application *expected)
{
    const uint8_t *m = guarded_copy(&b->message, bytes, MESSAGE_BYTES);
    struct optes_application *a = untouched(b);
    CHECK(optes_application_read(a, m, MESSAGE_BYTES) == 0);
    expect_same(a, expected);
}

// These n bytes are refused, and the struct stays.
static void unreadable(const struct buffers *b, const void *bytes, size_t n)
{
    const uint8_t *m = guarded_copy(&b->message, bytes, n);
    struct optes_application *a = untouched(b);
    CHECK(optes_application_read(a, m, n) == 12);
    for (size_t i = 0; i < sizeof *a; i++)
        CHECK(((const uint8_t *)a)[i] == 0x5a);
}

// The application is written as these bytes, and the byte past them stays.
static void written_as(const struct buffers *b, const struct optes_application *a, const void *expected)
{
    uint8_t *space = guarded_bytes(&b->space, MESSAGE_BYTES + 1);
    pattern_put(space, MESSAGE_BYTES + 1);
    CHECK(optes_application_write(guarded(b, a), space, MESSAGE_BYTES + 1) == 0);
    CHECK(memcmp(space, expected, MESSAGE_BYTES) == 0);
    pattern_expect(space, MESSAGE_BYTES, MESSAGE_BYTES + 1);
}

// Writing into n bytes is refused with this number, and the space stays.
static void refused(const struct buffers *b, const struct optes_application *a, size_t n, uint32_t number)
{
    uint8_t *space = guarded_bytes(&b->space, n);
    pattern_put(space, n);
    CHECK(optes_application_write(guarded(b, a), space, n) == number);
    pattern_expect(space, 0, n);
}

// Read and then written: the same bytes.
static void read_then_written(const struct buffers *b)
{
    const uint8_t *m = guarded_copy(&b->message, message, MESSAGE_BYTES);
    uint8_t *space = guarded_bytes(&b->space, MESSAGE_BYTES);
    struct optes_application *a = untouched(b);
    pattern_put(space, MESSAGE_BYTES);
    CHECK(optes_application_read(a, m, MESSAGE_BYTES) == 0);
    CHECK(optes_application_write(a, space, MESSAGE_BYTES) == 0);
    CHECK(memcmp(space, message, MESSAGE_BYTES) == 0);
}

// Written and then read: the same struct.
static void written_then_read(const struct buffers *b)
{
    struct optes_application expected = valid();
    uint8_t *space = guarded_bytes(&b->space, MESSAGE_BYTES);
    pattern_put(space, MESSAGE_BYTES);
    CHECK(optes_application_write(guarded(b, &expected), space, MESSAGE_BYTES) == 0);
    struct optes_application *a = untouched(b);
    CHECK(optes_application_read(a, space, MESSAGE_BYTES) == 0);
    expect_same(a, &expected);
}

// Digit field k of the six without its number, or after them place k - 6, in the application that is expected.
static void without_number(struct optes_application *a, size_t k)
{
    uint64_t *number[DIGIT_FIELDS] = {&a->sender, &a->recipient, &a->cro, &a->date, &a->time, &a->check};
    uint32_t *flag[DIGIT_FIELDS] = {&a->has_sender, &a->has_recipient, &a->has_cro,
                                    &a->has_date, &a->has_time, &a->has_check};
    a->unread++;
    if (k >= DIGIT_FIELDS) {
        a->places[k - DIGIT_FIELDS] = (struct optes_place){.rate = 0, .amount = 0, .well_formed = 0};
        return;
    }
    *number[k] = 0;
    *flag[k] = 0;
}

// The message with a blank in digit field k of the six, or after them in the slash of place k - 6.
static void damage(uint8_t *m, size_t k)
{
    size_t at = k < DIGIT_FIELDS ? numbers[k].start : rate_of(k - DIGIT_FIELDS)->start + 8;
    m[at] = ' ';
}

// The message with zeros in digit field k of the six, or after them in place k - 6.
static void put_zeros(uint8_t *m, size_t k)
{
    if (k < DIGIT_FIELDS)
        memset(m + numbers[k].start, '0', numbers[k].digits);
    else
        memcpy(m + rate_of(k - DIGIT_FIELDS)->start, "00000000/000000000000000", 24);
}

// What was read of these bytes is not written, whether there is room or not, until unread is 0: then with zeros.
static void not_written_unread(const struct buffers *b, const void *bytes, const void *zeros)
{
    const size_t space[] = {0, 338, 339, 340};
    const uint8_t *m = guarded_copy(&b->message, bytes, MESSAGE_BYTES);
    struct optes_application a;
    CHECK(optes_application_read(&a, m, MESSAGE_BYTES) == 0);
    for (size_t i = 0; i < sizeof space / sizeof space[0]; i++)
        refused(b, &a, space[i], 17);
    a.unread = 0;
    written_as(b, &a, zeros);
    refused(b, &a, 338, 18);
}

// A blank in each digit field in turn, and in each place: only that one has no numbers.
static void without_numbers(const struct buffers *b)
{
    for (size_t k = 0; k < DIGIT_FIELDS + PLACES; k++) {
        struct optes_application expected = valid();
        uint8_t m[MESSAGE_BYTES], zeros[MESSAGE_BYTES];
        memcpy(m, message, MESSAGE_BYTES);
        memcpy(zeros, message, MESSAGE_BYTES);
        damage(m, k);
        put_zeros(zeros, k);
        without_number(&expected, k);
        reads_as(b, m, &expected);
        not_written_unread(b, m, zeros);
    }
}

// A blank in one digit field and place after the other, until none has a number.
static void without_all_numbers(const struct buffers *b)
{
    struct optes_application expected = valid();
    uint8_t m[MESSAGE_BYTES], zeros[MESSAGE_BYTES];
    memcpy(m, message, MESSAGE_BYTES);
    memcpy(zeros, message, MESSAGE_BYTES);
    for (size_t k = 0; k < DIGIT_FIELDS + PLACES; k++) {
        damage(m, k);
        put_zeros(zeros, k);
        without_number(&expected, k);
        CHECK(expected.unread == k + 1);
        reads_as(b, m, &expected);
        not_written_unread(b, m, zeros);
    }
}

// Digits that are no date and no time read as their numbers.
static void no_date(const struct buffers *b)
{
    struct optes_application expected = valid();
    uint8_t m[MESSAGE_BYTES];
    memcpy(m, message, MESSAGE_BYTES);
    memset(m + 39, '9', 8);
    memset(m + 50, '9', 6);
    expected.date = 99999999;
    expected.time = 999999;
    reads_as(b, m, &expected);
}

// Every length but 339, and each tag and length byte raised by one.
static void unreadables(const struct buffers *b)
{
    uint8_t m[400] = {0};
    memcpy(m, message, MESSAGE_BYTES);
    for (size_t n = 0; n <= sizeof m; n++)
        if (n != 339)
            unreadable(b, m, n);
    for (size_t k = 0; k < FIELDS; k++) {
        for (size_t at = fields[k].start - 3; at < fields[k].start; at++) {
            m[at]++;
            unreadable(b, m, MESSAGE_BYTES);
            m[at]--;
        }
    }
}

// The flags are not looked at.
static void other_flags(const struct buffers *b)
{
    struct optes_application a = valid();
    a.has_sender = a.has_recipient = a.has_cro = 0;
    a.has_date = a.has_time = a.has_check = UINT32_MAX;
    for (uint32_t k = 0; k < PLACES; k++)
        a.places[k].well_formed = k % 3;
    written_as(b, &a, message);
}

// A number too wide, a rate that 32 bits would cut to the first bid's, a malformed identifier, a number that was
// not read: 17, with room or without; an application that fits: 18 where there is no room.
static void refusals(const struct buffers *b)
{
    const size_t space[] = {0, 338, 339, 340};
    for (size_t i = 0; i < sizeof space / sizeof space[0]; i++) {
        struct optes_application sender = valid(), rate = valid(), amount = valid(), identifier = valid();
        struct optes_application unread = valid();
        unread.unread = UINT32_MAX;
        sender.sender = 100000;
        rate.places[0].rate = 4294967296 + 150000;
        amount.places[9].amount = 1000000000000000;
        identifier.identifier[6] = '-';
        refused(b, &sender, space[i], 17);
        refused(b, &rate, space[i], 17);
        refused(b, &amount, space[i], 17);
        refused(b, &identifier, space[i], 17);
        refused(b, &unread, space[i], 17);
    }
    struct optes_application a = valid();
    refused(b, &a, 0, 18);
    refused(b, &a, 338, 18);
}

void application_cases(const struct buffers *b)
{
    struct optes_application a = valid();
    reads_as(b, message, &a);
    written_as(b, &a, message);
    read_then_written(b);
    written_then_read(b);
    without_numbers(b);
    without_all_numbers(b);
    no_date(b);
    unreadables(b);
    other_flags(b);
    refusals(b);
}
