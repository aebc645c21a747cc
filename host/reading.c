// What is readable as a 6G1, and where its fields stand.
#include <string.h>

#include "cases.h"
#include "check.h"
#include "expect.h"
#include "message.h"
#include "optes.h"

// The message as it is: its fields and their bytes, its numbers and its places.
static void valid(const struct buffers *b)
{
    const uint8_t *m = guarded_copy(&b->message, message, MESSAGE_BYTES);
    expect_fields(m);
    for (uint32_t k = 0; k < FIELDS; k++) {
        const uint8_t *bytes = m + optes_6g1_start(m, MESSAGE_BYTES, k);
        CHECK(memcmp(bytes, fields[k].bytes, fields[k].length) == 0);
    }
    expect_numbers(m, 0);
    expect_places(m, 0);
    CHECK(memcmp(m, message, MESSAGE_BYTES) == 0);
}

// A tag or length byte with each other value: 12.
static void head_byte(const struct buffers *b, size_t at)
{
    uint8_t *m = guarded_copy(&b->message, message, MESSAGE_BYTES);
    for (int other = 1; other <= 255; other++) {
        m[at] = (uint8_t)(message[at] + other);
        CHECK(optes_6g1_read(m, MESSAGE_BYTES) == 12);
    }
    m[at] = (uint8_t)(message[at] + 1);
    expect_unreadable(m, MESSAGE_BYTES);
}

// The tag and the two length bytes of each field.
static void heads(const struct buffers *b)
{
    for (size_t k = 0; k < FIELDS; k++) {
        head_byte(b, fields[k].start - 3);
        head_byte(b, fields[k].start - 2);
        head_byte(b, fields[k].start - 1);
    }
}

// Each byte that a field holds, altered: the message stays readable.
static void contents(const struct buffers *b)
{
    uint8_t *m = guarded_copy(&b->message, message, MESSAGE_BYTES);
    for (size_t k = 0; k < FIELDS; k++) {
        for (size_t i = 0; i < fields[k].length; i++) {
            size_t at = fields[k].start + i;
            m[at] = (uint8_t)(message[at] + 1);
            expect_fields(m);
            m[at] = (uint8_t)message[at];
        }
    }
}

// Every length from 0 to 400, the message and then zeros: only 339 is readable.
static void lengths(const struct buffers *b)
{
    uint8_t longest[400] = {0};
    memcpy(longest, message, MESSAGE_BYTES);
    for (size_t n = 0; n <= sizeof longest; n++) {
        const uint8_t *m = guarded_copy(&b->message, longest, n);
        if (n == 339)
            expect_fields(m);
        else
            expect_unreadable(m, n);
    }
}

// Sender and recipient, of the same length, in the other order: 12.
static void order(const struct buffers *b)
{
    uint8_t *m = guarded_copy(&b->message, message, MESSAGE_BYTES);
    memcpy(m + 6, message + 14, 8);
    memcpy(m + 14, message + 6, 8);
    expect_unreadable(m, MESSAGE_BYTES);
}

// Numbers of fields and of places that no 6G1 has.
static void out_of_range(const struct buffers *b)
{
    const uint32_t no_field[] = {10, 11, 255, 256, 257, 65537, UINT32_MAX - 1, UINT32_MAX};
    const uint8_t *m = guarded_copy(&b->message, message, MESSAGE_BYTES);
    for (size_t i = 0; i < sizeof no_field / sizeof no_field[0]; i++) {
        expect_no_field(m, MESSAGE_BYTES, no_field[i]);
        expect_no_place(m, MESSAGE_BYTES, no_field[i]);
        expect_no_field(m, MESSAGE_BYTES - 1, no_field[i]);
        expect_no_place(m, MESSAGE_BYTES - 1, no_field[i]);
    }
}

void reading_cases(const struct buffers *b)
{
    valid(b);
    heads(b);
    contents(b);
    lengths(b);
    order(b);
    out_of_range(b);
}
