#include "messages.h"

#include <string.h>

// Each field is a tag, two bytes of length and what it holds.
const char announcement[ANNOUNCEMENT_BYTES + 1] =
    "\x01\x00\x03" "6G0"
    "\x04\x00\x05" "01000"
    "\x05\x00\x05" "90001"
    "\x02\x00\x0b" "00000000001"
    "\x31\x00\x08" "12032012"
    "\x60\x00\x06" "093000"
    "\x70\x00\x0b" "T/2012/0001"
    "\x71\x00\x12" "NC/FD/LP/R/Y/VR/MR"
    "\x72\x00\x64" "12032012/03/000000000100000/000000000010000/000000000010000"
                   "/000000000000000/000000000000000/00100000"
    "\x73\x00\x08" "14032012"
    "\x74\x00\x08" "15032012"
    "\x75\x00\x06" "110000";

#define NO_BID "00000000/000000000000000"

static const char application[APPLICATION_BYTES + 1] =
    "\x01\x00\x03" "6G1"
    "\x04\x00\x05" "90002"
    "\x05\x00\x05" "01000"
    "\x02\x00\x0b" "00000000017"
    "\x31\x00\x08" "12032012"
    "\x60\x00\x06" "102900"
    "\x10\x00\x05" "12345"
    "\x70\x00\x0b" "T/2012/0001"
    "\x76\x00\xf0" NO_BID NO_BID NO_BID NO_BID NO_BID NO_BID NO_BID NO_BID NO_BID NO_BID
    "\x7f\x00\x0f" "CONTACT \x00 \xff end";

void put_text(uint8_t *m, size_t at, const char *text)
{
    memcpy(m + at, text, strlen(text));
}

// Puts a number in with so many digits.
static void put_number(uint8_t *m, size_t at, size_t digits, uint64_t number)
{
    for (size_t i = digits; i > 0; i--) {
        m[at + i - 1] = (uint8_t)('0' + number % 10);
        number /= 10;
    }
}

void announcement_with(uint8_t *m, size_t at, const char *text)
{
    memcpy(m, announcement, ANNOUNCEMENT_BYTES);
    put_text(m, at, text);
}

void application_of(uint8_t *m, uint64_t code, uint64_t time, const struct bid *bids, size_t count)
{
    memcpy(m, application, APPLICATION_BYTES);
    put_number(m, P_SENDER, 5, code);
    put_number(m, P_TIME, 6, time);
    for (size_t k = 0; k < count; k++) {
        put_number(m, P_BIDS + PLACE_BYTES * k, 8, bids[k].rate);
        put_number(m, P_BIDS + PLACE_BYTES * k + 9, 15, bids[k].amount);
    }
}

// Puts an address with its length byte, behind which it stands, at an index; gives the index past it.
static size_t put_address(uint8_t *m, size_t at, struct address address)
{
    m[at - 1] = (uint8_t)address.length;
    memcpy(m + at, address.bytes, address.length);
    return at + address.length;
}

size_t with_addresses(uint8_t *to, const void *m, size_t n, struct address sender, struct address recipient)
{
    const uint8_t *from = m;
    const size_t past = P_RECIPIENT + 5;
    memcpy(to, from, P_SENDER);
    size_t at = put_address(to, P_SENDER, sender);
    memcpy(to + at, from + P_SENDER + 5, 3);
    at = put_address(to, at + 3, recipient);
    memcpy(to + at, from + past, n - past);
    return at + n - past;
}

size_t confirmation_to(uint8_t *reply, const uint8_t *m, uint64_t time, struct address sender)
{
    const char head[] = "\x01\x00\x03" "6G2" "\x04\x00\x05" "01000" "\x05\x00.";
    const char tail[] = "\x22\x00\x0b" "..........." "\x60\x00\x06" "......" "\x70\x00\x0b" "T/2012/0001";
    memcpy(reply, head, sizeof head - 1);
    size_t at = put_address(reply, sizeof head - 1, sender);
    memcpy(reply + at, tail, sizeof tail - 1);
    memcpy(reply + at + 3, m + P_CRO, 11);
    put_number(reply, at + 17, 6, time);
    return at + sizeof tail - 1;
}

size_t confirmation_of(uint8_t *reply, const uint8_t *m, uint64_t time)
{
    return confirmation_to(reply, m, time, (struct address){(const char *)m + P_SENDER, 5});
}

size_t returned_of(uint8_t *reply, const uint8_t *m, size_t n, const char *errors)
{
    const char head[] = "\x98\x00\x18" "*** MESSAGGIO ERRATO ***" "\x98\x00";
    size_t length = strlen(errors);
    memcpy(reply, m, n);
    memcpy(reply + n, head, sizeof head - 1);
    reply[n + sizeof head - 1] = (uint8_t)length;
    memcpy(reply + n + sizeof head, errors, length);
    return n + sizeof head + length;
}

size_t returned_with(uint8_t *reply, const uint8_t *m, const char *errors)
{
    return returned_of(reply, m, APPLICATION_BYTES, errors);
}
