// A host in C: an example of both calls on the struct, and the cases of reading and writing a 6G1,
// held to what document 01 says.
#include <string.h>

#include "cases.h"
#include "check.h"
#include "optes.h"

unsigned long checks = 0;

// The sizes and numbers of the header, as document 01 gives them.
static void constants(void)
{
    CHECK(OPTES_OK == 0 && OPTES_UNREADABLE == 12 && OPTES_UNFIT == 17 && OPTES_NO_ROOM == 18);
    CHECK(OPTES_6G1_BYTES == 339 && OPTES_6G1_FIELDS == 10 && OPTES_6G1_PLACES == 10);
    CHECK(OPTES_6G1_DIGIT_FIELDS == 6);
    CHECK(OPTES_6G1_TYPE == 0 && OPTES_6G1_SENDER == 1 && OPTES_6G1_RECIPIENT == 2);
    CHECK(OPTES_6G1_CRO == 3 && OPTES_6G1_DATE == 4 && OPTES_6G1_TIME == 5 && OPTES_6G1_CHECK == 6);
    CHECK(OPTES_6G1_IDENTIFIER == 7 && OPTES_6G1_BIDS == 8 && OPTES_6G1_NAME == 9);
    CHECK(OPTES_6G1_TYPE_BYTES == 3 && OPTES_6G1_IDENTIFIER_BYTES == 11 && OPTES_6G1_NAME_BYTES == 15);
    CHECK(OPTES_6G1_PLACE_BYTES == 24 && OPTES_6G1_BIDS_BYTES == 240);
    CHECK(OPTES_6G1_SENDER_DIGITS == 5 && OPTES_6G1_RECIPIENT_DIGITS == 5 && OPTES_6G1_CRO_DIGITS == 11);
    CHECK(OPTES_6G1_DATE_DIGITS == 8 && OPTES_6G1_TIME_DIGITS == 6 && OPTES_6G1_CHECK_DIGITS == 5);
    CHECK(OPTES_6G1_RATE_DIGITS == 8 && OPTES_6G1_AMOUNT_DIGITS == 15);
    CHECK(OPTES_6G1_ONE_LONG_BYTES == 348 && OPTES_6G1_BOTH_LONG_BYTES == 357);
    CHECK(OPTES_ADDRESS_SHORT == 5 && OPTES_ADDRESS_LONG == 14 && OPTES_ADDRESS_TEXT_BYTES == 2);
    CHECK(OPTES_6G1_NUMBERS == 51 && OPTES_6G1_PLACE_NUMBERS == 3 && OPTES_6G1_ADDRESS_NUMBERS == 3);
    CHECK(OPTES_6G1_NUMBERS_SENDER_ADDRESS == 45 && OPTES_6G1_NUMBERS_RECIPIENT_ADDRESS == 48);
    CHECK(sizeof(struct optes_application) == 384 && sizeof(struct optes_place) == 24);
    CHECK(sizeof(struct optes_address) == 16 && offsetof(struct optes_application, unread) == 344);
}

// One application written and read back, as a maker would.
static void example(void)
{
    struct optes_application sent = {
        .sender = 90002, .recipient = 1000, .cro = 17,
        .date = 12032012, .time = 102900, .check = 12345,
        .places = {{.rate = 150000, .amount = 60000}},
    };
    memcpy(sent.type, "6G1", OPTES_6G1_TYPE_BYTES);
    memcpy(sent.identifier, "T/2012/0001", OPTES_6G1_IDENTIFIER_BYTES);
    memcpy(sent.name, "Contact name   ", OPTES_6G1_NAME_BYTES);

    uint8_t bytes[OPTES_6G1_BYTES];
    CHECK(optes_application_write(&sent, bytes, sizeof bytes) == OPTES_OK);

    struct optes_application received;
    CHECK(optes_application_read(&received, bytes, sizeof bytes) == OPTES_OK);
    CHECK(received.has_sender && received.sender == 90002);
    CHECK(received.places[0].well_formed);
    CHECK(received.places[0].rate == 150000 && received.places[0].amount == 60000);
}

// Every case, with the page that may not be touched on one side of each buffer.
static void cases(enum guard guard)
{
    struct buffers b;
    buffers_open(&b, guard);
    CHECK(guarded_stops(&b.message));
    CHECK(guarded_stops(&b.space));
    reading_cases(&b);
    number_cases(&b);
    whole_cases(&b);
    writing_cases(&b);
    application_cases(&b);
    long_reading_cases(&b);
    long_writing_cases(&b);
    long_application_cases(&b);
    buffers_close(&b);
}

int main(void)
{
    constants();
    text_cases();
    example();
    cases(GUARD_AFTER);
    cases(GUARD_BEFORE);
    printf("host: %lu checks passed\n", checks);
    return 0;
}
