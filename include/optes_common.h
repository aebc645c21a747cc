// What optes.h and optes_book.h share: the version, the numbers of refusals and errors, and their texts.
// Either header includes this one.
#ifndef OPTES_COMMON_H
#define OPTES_COMMON_H

#include <stdint.h>

// The version of headers and archives, and as a number for #if: major * 10000 + minor * 100 + patch.
#define OPTES_VERSION "0.4.0"
#define OPTES_VERSION_NUMBER 400

// What a call returns: OPTES_OK, or the number of the first refusal that applies. optes_refusal_text says what
// each means, and the headers say which ones a call has.
#define OPTES_OK 0
#define OPTES_NOT_ANNOUNCEMENT 1
#define OPTES_OTHER_ORIGIN 2
#define OPTES_MALFORMED 3
#define OPTES_UNKNOWN_TYPE 4
#define OPTES_IMPOSSIBLE 5
#define OPTES_DISORDERED 6
#define OPTES_BAD_CODES 7
#define OPTES_ALREADY_REVOKED 8
#define OPTES_ALREADY_OVER 9
#define OPTES_CLOCK_INVALID 10
#define OPTES_SPACE_SHORT 11
#define OPTES_UNREADABLE 12
#define OPTES_BEFORE_CUT_OFF 13
#define OPTES_STILL_OPEN 14
#define OPTES_ALREADY_ANNOUNCED 15
#define OPTES_BIDS_EXCEED 16
#define OPTES_UNFIT 17
#define OPTES_NO_ROOM 18
#define OPTES_LIMITS_MISCOUNTED 19
#define OPTES_LIMIT_TOO_LONG 20
#define OPTES_NO_TENDER 100

// The errors with which a message is returned. optes_error_text says what each means; on the right is the
// field that it is about.
#define OPTES_ERROR_TYPE 900          // 001
#define OPTES_ERROR_SENDER 309        // 040
#define OPTES_ERROR_NOT_ADMITTED 300  // 040
#define OPTES_ERROR_RECIPIENT 599     // 050
#define OPTES_ERROR_CRO 521           // 020
#define OPTES_ERROR_DATE 502          // D31
#define OPTES_ERROR_OTHER_DATE 522    // D31
#define OPTES_ERROR_TIME 503          // 601
#define OPTES_ERROR_OLD 302           // 601
#define OPTES_ERROR_CHECK 908         // 010
#define OPTES_ERROR_IDENTIFIER 303    // 6G0
#define OPTES_ERROR_PLACE 901         // 6G6
#define OPTES_ERROR_GAP 902           // 6G6
#define OPTES_ERROR_MANY 903          // 6G6
#define OPTES_ERROR_RATE 904          // 6G6
#define OPTES_ERROR_BELOW_MINIMUM 905 // 6G6
#define OPTES_ERROR_INCREMENT 906     // 6G6
#define OPTES_ERROR_MAXIMUM 907       // 6G6
#define OPTES_ERROR_LATE 301          // 6G5

#ifdef __cplusplus
extern "C" {
#endif

// What a call returned, in words. Every number has a text, also one that no call returns; it is never null
// and never changes.
static inline const char *optes_refusal_text(uint64_t number)
{
    switch (number) {
    case OPTES_OK: return "not refused";
    case OPTES_NOT_ANNOUNCEMENT: return "the announcement's fields, order or lengths are wrong";
    case OPTES_OTHER_ORIGIN: return "the announcement's type is not 6G0 or its sender not 01000";
    case OPTES_MALFORMED:
        return "a digit field, date, time, slash or identifier of the announcement is malformed";
    case OPTES_UNKNOWN_TYPE: return "the announcement's field 6G1 is none of the types of operation";
    case OPTES_IMPOSSIBLE:
        return "most bids is not 1 to 10, or the amount offered, the minimum or the increment is zero, or the "
               "maximum is below the minimum";
    case OPTES_DISORDERED:
        return "the reference date is after the execution date, the spot date before it, or the forward date "
               "not after the spot date";
    case OPTES_BAD_CODES:
        return "the admitted codes are none, over 64 or not strictly rising, or one is over 99999";
    case OPTES_ALREADY_REVOKED: return "the tender is revoked";
    case OPTES_ALREADY_OVER: return "the tender is closed or announced";
    case OPTES_CLOCK_INVALID: return "the clock's date or time is invalid";
    case OPTES_SPACE_SHORT: return "the space for the reply is under 436 bytes";
    case OPTES_UNREADABLE: return "the message cannot be read as a 6G1";
    case OPTES_BEFORE_CUT_OFF: return "the cut-off has not passed";
    case OPTES_STILL_OPEN: return "the tender is open";
    case OPTES_ALREADY_ANNOUNCED: return "the tender is announced";
    case OPTES_BIDS_EXCEED: return "the bids exceed 999,999,999,999,999,999 eurocents";
    case OPTES_UNFIT:
        return "a number is too wide or was not read, a text is not of its length, an address is neither short "
               "nor long, or the identifier is malformed";
    case OPTES_NO_ROOM: return "the space for the message is under its 339, 348 or 357 bytes";
    case OPTES_LIMITS_MISCOUNTED: return "the credit limits are not as many as the admitted codes";
    case OPTES_LIMIT_TOO_LONG: return "a credit limit has over fifteen digits";
    case OPTES_NO_TENDER: return "there is no tender: what was lent is not as opening or another call left it";
    default: return "a number that no call returns";
    }
}

// An error of a returned message, in words. Every code has a text, also one that no message is returned with;
// it is never null and never changes.
static inline const char *optes_error_text(uint64_t code)
{
    switch (code) {
    case OPTES_ERROR_TYPE: return "the type is not 6G1";
    case OPTES_ERROR_SENDER: return "the sender is not digits, or a slash of its long form is misplaced";
    case OPTES_ERROR_NOT_ADMITTED: return "the sender is not admitted";
    case OPTES_ERROR_RECIPIENT: return "the recipient's first five characters are not 01000";
    case OPTES_ERROR_CRO: return "the CRO is not digits";
    case OPTES_ERROR_DATE: return "the reference date is no date";
    case OPTES_ERROR_OTHER_DATE: return "the reference date is not the execution date";
    case OPTES_ERROR_TIME: return "the reference time is no time";
    case OPTES_ERROR_OLD: return "the reference time is not later than the one that is held";
    case OPTES_ERROR_CHECK: return "the check digit is not digits";
    case OPTES_ERROR_IDENTIFIER: return "the identifier is not this tender's";
    case OPTES_ERROR_PLACE: return "a place is malformed";
    case OPTES_ERROR_GAP: return "a filled place stands after a zero one";
    case OPTES_ERROR_MANY: return "more places are filled than the announcement allows";
    case OPTES_ERROR_RATE: return "a rate has one of its last three digits not zero";
    case OPTES_ERROR_BELOW_MINIMUM: return "an amount is below the minimum";
    case OPTES_ERROR_INCREMENT: return "an amount is not the minimum plus a multiple of the increment";
    case OPTES_ERROR_MAXIMUM: return "the total is above the maximum";
    case OPTES_ERROR_LATE: return "received later than the cut-off";
    default: return "a code that no message is returned with";
    }
}

#ifdef __cplusplus
}
#endif

#endif
