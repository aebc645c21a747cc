// The struct of a 6G1 with addresses of the long form.
#include <string.h>

#include "address.h"
#include "cases.h"
#include "check.h"
#include "optes.h"
#include "pattern.h"

// What the struct has of an address beside its code: zeros where it is short or was not read.
static void expect_address(const struct optes_address *found, const struct address *address)
{
    const uint8_t none[2] = {0, 0};
    const int is_long = address->length == ADDRESS_MOST && address->read;
    CHECK(found->is_long == (is_long ? 1 : 0));
    CHECK(found->branch == (is_long ? address->branch : 0));
    CHECK(memcmp(found->text, is_long ? address->bytes + 12 : none, 2) == 0);
}

// Reads the message into a struct against the guard, each byte of it 0x5a before.
static struct optes_application read_of(const struct buffers *b, const struct addressed *a)
{
    const uint8_t *m = guarded_copy(&b->message, a->bytes, a->length);
    uint8_t *bytes = guarded_bytes(&b->application, sizeof(struct optes_application));
    memset(bytes, 0x5a, sizeof(struct optes_application));
    struct optes_application *read = (struct optes_application *)(void *)bytes;
    CHECK(optes_application_read(read, m, a->length) == 0);
    return *read;
}

// The application is written into so much space, and the answer is this one; a refused write leaves the space.
static const uint8_t *write_of(const struct buffers *b, const struct optes_application *a, size_t n,
    uint32_t answer)
{
    const uint8_t *lent = guarded_copy(&b->application, a, sizeof *a);
    uint8_t *space = guarded_bytes(&b->space, n);
    pattern_put(space, n);
    CHECK(optes_application_write((const struct optes_application *)(const void *)lent, space, n) == answer);
    if (answer != 0)
        pattern_expect(space, 0, n);
    return space;
}

// The application is written as this message, into enough space and no less, and the byte past it stays.
static void written_as(const struct buffers *b, const struct optes_application *a, const struct addressed *m)
{
    CHECK(optes_application_length(a) == m->length);
    CHECK(memcmp(write_of(b, a, m->length, 0), m->bytes, m->length) == 0);
    write_of(b, a, m->length - 1, 18);
    const uint8_t *space = write_of(b, a, m->length + 1, 0);
    CHECK(memcmp(space, m->bytes, m->length) == 0);
    pattern_expect(space, m->length, m->length + 1);
}

// The addresses read as they must, and all else as in the short form.
static void expect_read(const struct optes_application *read, const struct addressed *a)
{
    CHECK(read->sender == a->sender.code && read->has_sender == a->sender.read);
    CHECK(read->recipient == a->recipient.code && read->has_recipient == a->recipient.read);
    CHECK(read->unread == 2 - a->sender.read - a->recipient.read);
    expect_address(&read->sender_address, &a->sender);
    expect_address(&read->recipient_address, &a->recipient);
    CHECK(read->cro == 17 && read->date == 12032012 && read->time == 102900 && read->check == 12345);
    CHECK(read->has_cro && read->has_date && read->has_time && read->has_check);
    for (size_t k = 0; k < PLACES; k++) {
        CHECK(read->places[k].rate == rate_of(k)->value && read->places[k].amount == amount_of(k)->value);
        CHECK(read->places[k].well_formed == 1);
    }
    CHECK(memcmp(read->type, "6G1", 3) == 0 && memcmp(read->identifier, "T/2012/0001", 11) == 0);
    CHECK(memcmp(read->name, "CONTACT \x00 \xff end", 15) == 0);
}

// Each mixture read, and what was read written again: the same bytes.
static void return_trips(const struct buffers *b)
{
    for (size_t k = 0; k < MIXTURES; k++) {
        const struct addressed a = mixture(k);
        const struct optes_application read = read_of(b, &a);
        expect_read(&read, &a);
        written_as(b, &read, &a);
    }
}

// An address that is not read: the number counts as unread and nothing is written, until unread is 0. Then the
// address is a short one of zeros.
static void not_read(const struct buffers *b, const struct address *sender, const struct address *recipient)
{
    const struct address zeros = {"00000", 5, 1, 0, 0};
    const struct addressed a = addressed(sender, recipient);
    const struct addressed again = addressed(sender->read ? sender : &zeros, recipient->read ? recipient : &zeros);
    struct optes_application read = read_of(b, &a);
    expect_read(&read, &a);
    write_of(b, &read, MESSAGE_MOST, 17);
    write_of(b, &read, 0, 17);
    read.unread = 0;
    written_as(b, &read, &again);
}

// Each byte before the text of each address, and of both, damaged.
static void not_read_addresses(const struct buffers *b)
{
    for (size_t at = 0; at < 12; at++) {
        struct address sender = long_sender, recipient = long_recipient;
        sender.bytes[at] = recipient.bytes[at] = 'x';
        sender.read = recipient.read = 0;
        sender.code = sender.branch = recipient.code = recipient.branch = 0;
        not_read(b, &sender, &short_recipient);
        not_read(b, &sender, &long_recipient);
        not_read(b, &short_sender, &recipient);
        not_read(b, &long_sender, &recipient);
        not_read(b, &sender, &recipient);
    }
}

// Where is_long is 0 a branch and a text are not written, and every other number is as 1.
static void other_flags(const struct buffers *b)
{
    const uint32_t flags[] = {1, 2, 256, UINT32_C(0x80000000), UINT32_MAX};
    const struct addressed both = mixture(3), none = mixture(0);
    struct optes_application a = read_of(b, &both);
    for (size_t k = 0; k < sizeof flags / sizeof *flags; k++) {
        a.sender_address.is_long = a.recipient_address.is_long = flags[k];
        written_as(b, &a, &both);
    }
    a.sender_address.is_long = a.recipient_address.is_long = 0;
    a.sender_address.branch = a.recipient_address.branch = UINT64_MAX;
    written_as(b, &a, &none);
}

// A branch or a code that is too wide: 17, with space or without.
static void refusals(const struct buffers *b)
{
    const struct addressed m = mixture(3);
    struct optes_application sender = read_of(b, &m), recipient = sender, code = sender;
    sender.sender_address.branch = 100000;
    recipient.recipient_address.branch = UINT64_MAX;
    code.recipient = 100000;
    for (size_t n = 0; n <= MESSAGE_MOST; n += MESSAGE_MOST) {
        write_of(b, &sender, n, 17);
        write_of(b, &recipient, n, 17);
        write_of(b, &code, n, 17);
    }
}

// A message of a wrong length leaves a struct as it was.
static void unreadables(const struct buffers *b)
{
    for (size_t k = 0; k < MIXTURES; k++) {
        const struct addressed a = mixture(k);
        struct optes_application read;
        memset(&read, 0x5a, sizeof read);
        const struct optes_application before = read;
        CHECK(optes_application_read(&read, guarded_copy(&b->message, a.bytes, a.length - 1), a.length - 1) == 12);
        CHECK(memcmp(&read, &before, sizeof read) == 0);
    }
}

void long_application_cases(const struct buffers *b)
{
    return_trips(b);
    not_read_addresses(b);
    other_flags(b);
    refusals(b);
    unreadables(b);
}
