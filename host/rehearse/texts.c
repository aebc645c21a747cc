#include "texts.h"

#include <stddef.h>

#include "optes_book.h"

#define TIME_TAG 0x60

// The field that an error is about, by its code.
static const struct {
    uint64_t code;
    const char *field;
} error_fields[] = {
    {OPTES_ERROR_TYPE, "001"}, {OPTES_ERROR_SENDER, "040"}, {OPTES_ERROR_NOT_ADMITTED, "040"},
    {OPTES_ERROR_RECIPIENT, "050"}, {OPTES_ERROR_CRO, "020"}, {OPTES_ERROR_DATE, "D31"},
    {OPTES_ERROR_OTHER_DATE, "D31"}, {OPTES_ERROR_TIME, "601"}, {OPTES_ERROR_OLD, "601"},
    {OPTES_ERROR_CHECK, "010"}, {OPTES_ERROR_IDENTIFIER, "6G0"}, {OPTES_ERROR_PLACE, "6G6"},
    {OPTES_ERROR_GAP, "6G6"}, {OPTES_ERROR_MANY, "6G6"}, {OPTES_ERROR_RATE, "6G6"},
    {OPTES_ERROR_BELOW_MINIMUM, "6G6"}, {OPTES_ERROR_INCREMENT, "6G6"}, {OPTES_ERROR_MAXIMUM, "6G6"},
    {OPTES_ERROR_LATE, "6G5"},
};

static const struct {
    uint8_t tag;
    const char *name;
} fields[] = {
    {0x01, "01  type"}, {0x04, "040 sender"}, {0x05, "050 recipient"}, {0x02, "020 CRO"},
    {0x22, "022 original CRO"}, {0x31, "D31 reference date"}, {TIME_TAG, "601 reference time"},
    {0x10, "010 check digit"}, {0x70, "6G0 identifier"}, {0x76, "6G6 bids"}, {0x7f, "6GG contact name"},
    {0x98, "098 text"},
};

// A rehearsal lends the tender as the last call left it, so that there is none only before an announcement.
const char *refusal_text(uint64_t number)
{
    if (number == OPTES_NO_TENDER)
        return "there is no tender, since no announcement was accepted yet";
    return optes_refusal_text(number);
}

const char *error_field(uint64_t code)
{
    for (size_t k = 0; k < sizeof error_fields / sizeof *error_fields; k++)
        if (error_fields[k].code == code)
            return error_fields[k].field;
    return "???";
}

const char *state_text(uint64_t state)
{
    switch (state) {
    case OPTES_STATE_OPEN:
        return "open";
    case OPTES_STATE_CLOSED:
        return "closed";
    case OPTES_STATE_ANNOUNCED:
        return "announced";
    case OPTES_STATE_REVOKED:
        return "revoked";
    default:
        return "no tender";
    }
}

const char *field_name(uint8_t tag, bool returned)
{
    if (tag == TIME_TAG && !returned)
        return "601 time of reception";
    for (size_t k = 0; k < sizeof fields / sizeof *fields; k++)
        if (fields[k].tag == tag)
            return fields[k].name;
    return "??? field";
}
