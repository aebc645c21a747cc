// The OPTES 6G1 application in C and C++: read from bytes, written from numbers and texts.
//
// Threads: the library keeps no state, so calls may run at the same time. While a call runs, no other
// thread may write what it reads, or touch what it writes.
// Refusals: a call that is refused returns the number of the refusal and changes nothing. Nothing else
// can go wrong.
// Pointers: each pointer is followed by how many bytes or numbers it points to, unless it points to a struct or
// the comment says how many. It must not be null, even if it points to none. What a call writes must not overlap
// what it reads.
#ifndef OPTES_H
#define OPTES_H

#include <stddef.h>
#include <stdint.h>
#include <string.h>

// OPTES_VERSION, what the calls return, and its texts. Reading is refused with OPTES_UNREADABLE alone, writing
// with OPTES_UNFIT and OPTES_NO_ROOM.
#include "optes_common.h"

// The fields of a message by their numbers, and how many there are.
#define OPTES_6G1_TYPE 0
#define OPTES_6G1_SENDER 1
#define OPTES_6G1_RECIPIENT 2
#define OPTES_6G1_CRO 3
#define OPTES_6G1_DATE 4
#define OPTES_6G1_TIME 5
#define OPTES_6G1_CHECK 6
#define OPTES_6G1_IDENTIFIER 7
#define OPTES_6G1_BIDS 8
#define OPTES_6G1_NAME 9
#define OPTES_6G1_FIELDS 10

// The sizes of a message: with both addresses of the short form, with one of the long form, either one, and with
// both. The ten places of its bids are numbered from 0.
#define OPTES_6G1_BYTES 339
#define OPTES_6G1_ONE_LONG_BYTES 348
#define OPTES_6G1_BOTH_LONG_BYTES 357
#define OPTES_6G1_DIGIT_FIELDS 6
#define OPTES_6G1_PLACES 10
#define OPTES_6G1_PLACE_BYTES 24
#define OPTES_6G1_BIDS_BYTES 240

// How long the texts are.
#define OPTES_6G1_TYPE_BYTES 3
#define OPTES_6G1_IDENTIFIER_BYTES 11
#define OPTES_6G1_NAME_BYTES 15

// The lengths of an address, which is the sender or the recipient: a code of five digits; or that, a slash, a
// branch of five digits, a slash, and a text of any two bytes.
#define OPTES_ADDRESS_SHORT 5
#define OPTES_ADDRESS_LONG 14
#define OPTES_ADDRESS_TEXT_BYTES 2

// How many digits each digit field has, and each number of a place; of sender and recipient, their codes.
#define OPTES_6G1_SENDER_DIGITS 5
#define OPTES_6G1_RECIPIENT_DIGITS 5
#define OPTES_6G1_CRO_DIGITS 11
#define OPTES_6G1_DATE_DIGITS 8
#define OPTES_6G1_TIME_DIGITS 6
#define OPTES_6G1_CHECK_DIGITS 5
#define OPTES_6G1_RATE_DIGITS 8
#define OPTES_6G1_AMOUNT_DIGITS 15

// How many numbers optes_6g1_numbers has to give, and the index of each. A digit field has two: its
// number, and then 1 if it has one, else 0. The number of an address is its code.
#define OPTES_6G1_NUMBERS 51
#define OPTES_6G1_NUMBERS_SENDER 0
#define OPTES_6G1_NUMBERS_RECIPIENT 2
#define OPTES_6G1_NUMBERS_CRO 4
#define OPTES_6G1_NUMBERS_DATE 6
#define OPTES_6G1_NUMBERS_TIME 8
#define OPTES_6G1_NUMBERS_CHECK 10

// A place has three: its rate, its amount, and then 1 if it is well formed, else 0. The ten places
// follow one another.
#define OPTES_6G1_NUMBERS_PLACES 12
#define OPTES_6G1_PLACE_NUMBERS 3

// A text has one: the index of its first byte in the message.
#define OPTES_6G1_NUMBERS_TYPE 42
#define OPTES_6G1_NUMBERS_IDENTIFIER 43
#define OPTES_6G1_NUMBERS_NAME 44

// An address has three more: 1 if it is of the long form and was read, else 0; then its branch and the index of
// its text in the message, both 0 where there are none.
#define OPTES_6G1_NUMBERS_SENDER_ADDRESS 45
#define OPTES_6G1_NUMBERS_RECIPIENT_ADDRESS 48
#define OPTES_6G1_ADDRESS_NUMBERS 3

#ifdef __cplusplus
extern "C" {
#endif

// OPTES_OK if the n bytes at m can be read as a 6G1, else OPTES_UNREADABLE.
uint32_t optes_6g1_read(const uint8_t *m, size_t n);

// 1 if the message can be read and has a field of this number, else 0.
uint32_t optes_6g1_has_field(const uint8_t *m, size_t n, uint32_t field);

// The index of the field's first byte in m, or 0 if there is no such field.
size_t optes_6g1_start(const uint8_t *m, size_t n, uint32_t field);

// How many bytes the field has, or 0 if there is no such field. Of an address it tells the form.
size_t optes_6g1_length(const uint8_t *m, size_t n, uint32_t field);

// 1 if the field is a digit field, SENDER to CHECK, and holds only digits, else 0. An address of the long form
// has a number if all its digits and slashes are in place.
uint32_t optes_6g1_has_number(const uint8_t *m, size_t n, uint32_t field);

// The number of a digit field, which is the code of an address, or 0 if it has none.
uint64_t optes_6g1_number(const uint8_t *m, size_t n, uint32_t field);

// 1 if the place of this number is well formed, else 0.
uint32_t optes_6g1_has_place(const uint8_t *m, size_t n, uint32_t place);

// The rate of a place in hundred-thousandths of a percent, or 0 if the place is not well formed.
uint32_t optes_6g1_rate(const uint8_t *m, size_t n, uint32_t place);

// The amount of a place in eurocents, or 0 if the place is not well formed.
uint64_t optes_6g1_amount(const uint8_t *m, size_t n, uint32_t place);

// Reads a whole message, and tests it once, while each call above tests it again. The array at numbers
// has count entries: it gets as many of the OPTES_6G1_NUMBERS numbers as it has room for, and any entries
// past them stay as they were. A number that the message does not have is 0. Returns OPTES_OK, or
// OPTES_UNREADABLE and leaves the array as it was.
uint32_t optes_6g1_numbers(const uint8_t *m, size_t n, uint64_t *numbers, size_t count);

// Writes a 6G1 with addresses of the short form to the first OPTES_6G1_BYTES of the n bytes of the space, and
// leaves the bytes past them as they were. Returns OPTES_OK, or OPTES_UNFIT or OPTES_NO_ROOM and leaves the space
// as it was. A rate is passed in 64 bits, so that one that is too wide is refused and never cut.
uint32_t optes_6g1_write(
    uint64_t sender, uint64_t recipient, uint64_t cro, uint64_t date, uint64_t time, uint64_t check,
    uint64_t rate0, uint64_t rate1, uint64_t rate2, uint64_t rate3, uint64_t rate4,
    uint64_t rate5, uint64_t rate6, uint64_t rate7, uint64_t rate8, uint64_t rate9,
    uint64_t amount0, uint64_t amount1, uint64_t amount2, uint64_t amount3, uint64_t amount4,
    uint64_t amount5, uint64_t amount6, uint64_t amount7, uint64_t amount8, uint64_t amount9,
    const uint8_t *type, size_t type_length,
    const uint8_t *identifier, size_t identifier_length,
    const uint8_t *name, size_t name_length,
    uint8_t *space, size_t n);

// Writes a 6G1 with addresses of either form. The length of each is OPTES_ADDRESS_SHORT, and then its branch and
// its text are not looked at, or OPTES_ADDRESS_LONG. Another length, a branch of more than five digits and a text
// that is not of OPTES_ADDRESS_TEXT_BYTES are OPTES_UNFIT. The message has 329 bytes plus the two lengths, and a
// space of fewer is OPTES_NO_ROOM. All else is as for optes_6g1_write.
uint32_t optes_6g1_write_addresses(
    uint64_t sender, uint64_t sender_length, uint64_t sender_branch,
    uint64_t recipient, uint64_t recipient_length, uint64_t recipient_branch,
    uint64_t cro, uint64_t date, uint64_t time, uint64_t check,
    uint64_t rate0, uint64_t rate1, uint64_t rate2, uint64_t rate3, uint64_t rate4,
    uint64_t rate5, uint64_t rate6, uint64_t rate7, uint64_t rate8, uint64_t rate9,
    uint64_t amount0, uint64_t amount1, uint64_t amount2, uint64_t amount3, uint64_t amount4,
    uint64_t amount5, uint64_t amount6, uint64_t amount7, uint64_t amount8, uint64_t amount9,
    const uint8_t *sender_text, size_t sender_text_length,
    const uint8_t *recipient_text, size_t recipient_text_length,
    const uint8_t *type, size_t type_length,
    const uint8_t *identifier, size_t identifier_length,
    const uint8_t *name, size_t name_length,
    uint8_t *space, size_t n);

// A place of the bids: a rate in hundred-thousandths of a percent and an amount in eurocents.
struct optes_place {
    uint64_t rate;
    uint64_t amount;
    uint32_t well_formed; // 1 if the two numbers were read. Where it is 0, they are 0.
};

// What an address has beside its code. Zeros stand for the short form.
struct optes_address {
    uint64_t branch;
    uint8_t text[OPTES_ADDRESS_TEXT_BYTES];
    uint32_t is_long; // 1 if the address is of the long form. Where it is 0, it has no branch and no text.
};

// The numbers and texts of a 6G1. To fill one by hand start from zeros, as {0} in C and {} in C++ give them.
struct optes_application {
    uint64_t sender;
    uint64_t recipient;
    uint64_t cro;
    uint64_t date; // ddmmyyyy
    uint64_t time; // hhmmss
    uint64_t check;
    uint32_t has_sender; // 1 if the number was read. Where it is 0, the number is 0. So for the next five.
    uint32_t has_recipient;
    uint32_t has_cro;
    uint32_t has_date;
    uint32_t has_time;
    uint32_t has_check;
    struct optes_place places[OPTES_6G1_PLACES];
    uint8_t type[OPTES_6G1_TYPE_BYTES];
    uint8_t identifier[OPTES_6G1_IDENTIFIER_BYTES];
    uint8_t name[OPTES_6G1_NAME_BYTES];
    uint32_t unread; // How many of the six numbers and ten places above were not read.
    struct optes_address sender_address; // Zeros too where the sender was not read, and so for the recipient.
    struct optes_address recipient_address;
};

// What the three numbers of an address in the message at m stand for. Hosts need it only with optes_6g1_numbers.
static inline struct optes_address optes_address_told(const uint64_t *numbers, const uint8_t *m)
{
    struct optes_address address = {0, {0, 0}, (uint32_t)numbers[0]};
    address.branch = numbers[1];
    if (address.is_long)
        memcpy(address.text, m + numbers[2], OPTES_ADDRESS_TEXT_BYTES);
    return address;
}

// How many bytes an address has in a message.
static inline size_t optes_address_length(const struct optes_address *address)
{
    return address->is_long ? OPTES_ADDRESS_LONG : OPTES_ADDRESS_SHORT;
}

// How many bytes the application has when it is written.
static inline size_t optes_application_length(const struct optes_application *a)
{
    return OPTES_6G1_BYTES - 2 * OPTES_ADDRESS_SHORT + optes_address_length(&a->sender_address)
        + optes_address_length(&a->recipient_address);
}

// Reads the n bytes at m. Returns OPTES_OK, or OPTES_UNREADABLE and leaves the application as it was. A message
// may lack a number: unread is then not 0, and whoever puts numbers of their own there sets it to 0.
static inline uint32_t optes_application_read(struct optes_application *a, const uint8_t *m, size_t n)
{
    uint64_t numbers[OPTES_6G1_NUMBERS];
    uint32_t refusal = optes_6g1_numbers(m, n, numbers, OPTES_6G1_NUMBERS);
    if (refusal != OPTES_OK)
        return refusal;
    a->sender = numbers[OPTES_6G1_NUMBERS_SENDER];
    a->recipient = numbers[OPTES_6G1_NUMBERS_RECIPIENT];
    a->cro = numbers[OPTES_6G1_NUMBERS_CRO];
    a->date = numbers[OPTES_6G1_NUMBERS_DATE];
    a->time = numbers[OPTES_6G1_NUMBERS_TIME];
    a->check = numbers[OPTES_6G1_NUMBERS_CHECK];
    a->has_sender = (uint32_t)numbers[OPTES_6G1_NUMBERS_SENDER + 1];
    a->has_recipient = (uint32_t)numbers[OPTES_6G1_NUMBERS_RECIPIENT + 1];
    a->has_cro = (uint32_t)numbers[OPTES_6G1_NUMBERS_CRO + 1];
    a->has_date = (uint32_t)numbers[OPTES_6G1_NUMBERS_DATE + 1];
    a->has_time = (uint32_t)numbers[OPTES_6G1_NUMBERS_TIME + 1];
    a->has_check = (uint32_t)numbers[OPTES_6G1_NUMBERS_CHECK + 1];
    uint32_t found = a->has_sender + a->has_recipient + a->has_cro + a->has_date + a->has_time + a->has_check;
    for (uint32_t k = 0; k < OPTES_6G1_PLACES; k++) {
        const uint64_t *place = numbers + OPTES_6G1_NUMBERS_PLACES + OPTES_6G1_PLACE_NUMBERS * k;
        a->places[k].rate = place[0];
        a->places[k].amount = place[1];
        a->places[k].well_formed = (uint32_t)place[2];
        found += a->places[k].well_formed;
    }
    a->unread = OPTES_6G1_DIGIT_FIELDS + OPTES_6G1_PLACES - found;
    memcpy(a->type, m + numbers[OPTES_6G1_NUMBERS_TYPE], OPTES_6G1_TYPE_BYTES);
    memcpy(a->identifier, m + numbers[OPTES_6G1_NUMBERS_IDENTIFIER], OPTES_6G1_IDENTIFIER_BYTES);
    memcpy(a->name, m + numbers[OPTES_6G1_NUMBERS_NAME], OPTES_6G1_NAME_BYTES);
    a->sender_address = optes_address_told(numbers + OPTES_6G1_NUMBERS_SENDER_ADDRESS, m);
    a->recipient_address = optes_address_told(numbers + OPTES_6G1_NUMBERS_RECIPIENT_ADDRESS, m);
    return OPTES_OK;
}

// Writes the application to the n bytes of the space, as optes_6g1_write_addresses does; it takes
// optes_application_length bytes. While unread is not 0 it returns OPTES_UNFIT before anything else, since zeros
// would stand for what the message did not have. It does not look at well_formed and the has_ flags: it writes
// the numbers that stand there.
static inline uint32_t optes_application_write(const struct optes_application *a, uint8_t *space, size_t n)
{
    const struct optes_place *p = a->places;
    const struct optes_address *from = &a->sender_address, *to = &a->recipient_address;
    if (a->unread != 0)
        return OPTES_UNFIT;
    return optes_6g1_write_addresses(
        a->sender, optes_address_length(from), from->branch,
        a->recipient, optes_address_length(to), to->branch,
        a->cro, a->date, a->time, a->check,
        p[0].rate, p[1].rate, p[2].rate, p[3].rate, p[4].rate,
        p[5].rate, p[6].rate, p[7].rate, p[8].rate, p[9].rate,
        p[0].amount, p[1].amount, p[2].amount, p[3].amount, p[4].amount,
        p[5].amount, p[6].amount, p[7].amount, p[8].amount, p[9].amount,
        from->text, OPTES_ADDRESS_TEXT_BYTES, to->text, OPTES_ADDRESS_TEXT_BYTES,
        a->type, OPTES_6G1_TYPE_BYTES,
        a->identifier, OPTES_6G1_IDENTIFIER_BYTES,
        a->name, OPTES_6G1_NAME_BYTES,
        space, n);
}

#ifdef __cplusplus
}
#endif

#endif
