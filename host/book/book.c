// A host in C of the tender book: every call and every refusal, held to what document 01 says.
#include <string.h>

#include "cases.h"
#include "check.h"

unsigned long checks = 0;

// The sizes of the header, and the refusals by document 01's numbers.
static void constants(void)
{
    CHECK(OPTES_BOOK_WORDS == 1560 && OPTES_BOOK_CODES == 64 && OPTES_BOOK_PLACES == 640);
    CHECK(OPTES_BOOK_CODE_PLACES == 10 && OPTES_BOOK_ERRORS == 16 && OPTES_REPLY_BYTES == 436);
    CHECK(OPTES_BOOK_IDENTIFIER_BYTES == 11 && OPTES_BOOK_CODE_MOST == 99999);
    CHECK(OPTES_BOOK_LIMIT_MOST == UINT64_C(999999999999999) && OPTES_BOOK_LIMITS_NUMBERS == 65);
    CHECK(OPTES_OK == 0 && OPTES_NOT_ANNOUNCEMENT == 1 && OPTES_OTHER_ORIGIN == 2 && OPTES_MALFORMED == 3);
    CHECK(OPTES_UNKNOWN_TYPE == 4 && OPTES_IMPOSSIBLE == 5 && OPTES_DISORDERED == 6 && OPTES_BAD_CODES == 7);
    CHECK(OPTES_ALREADY_REVOKED == 8 && OPTES_ALREADY_OVER == 9 && OPTES_CLOCK_INVALID == 10);
    CHECK(OPTES_SPACE_SHORT == 11 && OPTES_UNREADABLE == 12 && OPTES_BEFORE_CUT_OFF == 13);
    CHECK(OPTES_STILL_OPEN == 14 && OPTES_ALREADY_ANNOUNCED == 15 && OPTES_BIDS_EXCEED == 16);
    CHECK(OPTES_LIMITS_MISCOUNTED == 19 && OPTES_LIMIT_TOO_LONG == 20);
    CHECK(OPTES_NO_TENDER == 100 && OPTES_SIDE_LA == 0 && OPTES_SIDE_LP == 1);
    CHECK(OPTES_STATE_OPEN == 0 && OPTES_STATE_CLOSED == 1);
    CHECK(OPTES_STATE_ANNOUNCED == 2 && OPTES_STATE_REVOKED == 3);
    CHECK(OPTES_ERROR_TYPE == 900 && OPTES_ERROR_SENDER == 309 && OPTES_ERROR_NOT_ADMITTED == 300);
    CHECK(OPTES_ERROR_RECIPIENT == 599 && OPTES_ERROR_CRO == 521 && OPTES_ERROR_DATE == 502);
    CHECK(OPTES_ERROR_OTHER_DATE == 522 && OPTES_ERROR_TIME == 503 && OPTES_ERROR_OLD == 302);
    CHECK(OPTES_ERROR_CHECK == 908 && OPTES_ERROR_IDENTIFIER == 303 && OPTES_ERROR_PLACE == 901);
    CHECK(OPTES_ERROR_GAP == 902 && OPTES_ERROR_MANY == 903 && OPTES_ERROR_RATE == 904);
    CHECK(OPTES_ERROR_BELOW_MINIMUM == 905 && OPTES_ERROR_INCREMENT == 906);
    CHECK(OPTES_ERROR_MAXIMUM == 907 && OPTES_ERROR_LATE == 301);
}

// The version and the texts are there with this header alone; host/texts.c looks at all of them.
static void texts(void)
{
    CHECK(OPTES_VERSION[0] == '0' + OPTES_VERSION_NUMBER / 10000);
    CHECK(strcmp(optes_refusal_text(OPTES_STILL_OPEN), "the tender is open") == 0);
    CHECK(strcmp(optes_error_text(OPTES_ERROR_CRO), "the CRO is not digits") == 0);
}

// The structs that are passed as arrays have no room between their numbers.
static void sizes(void)
{
    CHECK(sizeof(struct optes_book) == 1560 * sizeof(uint64_t));
    CHECK(sizeof(struct optes_answer) == 18 * sizeof(uint64_t));
    CHECK(sizeof(struct optes_allotment) == 642 * sizeof(uint64_t));
    CHECK(offsetof(struct optes_allotment, marginal) == sizeof(uint64_t));
    CHECK(sizeof(struct optes_codes) == 65 * sizeof(uint64_t));
    CHECK(sizeof(struct optes_limits) == 65 * sizeof(uint64_t));
    CHECK(sizeof(struct optes_held) == 23 * sizeof(uint64_t));
}

// Every case, with the page that may not be touched on one side of each buffer.
static void cases(enum guard guard)
{
    struct desk d;
    desk_open(&d, guard);
    CHECK(guarded_stops(&d.words) && guarded_stops(&d.space) && guarded_stops(&d.told));
    CHECK(guarded_stops(&d.awards) && guarded_stops(&d.message) && guarded_stops(&d.codes));
    CHECK(guarded_stops(&d.limits));
    guarded_read_only(&d.words);
    CHECK(guarded_stops_writing(&d.words));
    guarded_writable(&d.words);
    opening_cases(&d);
    receiving_cases(&d);
    error_cases(&d);
    branch_cases(&d);
    limit_cases(&d);
    ending_cases(&d);
    preview_cases(&d);
    telling_cases(&d);
    saving_cases(&d);
    struct_cases(&d);
    damage_cases(&d);
    desk_close(&d);
}

int main(void)
{
    constants();
    texts();
    sizes();
    lent_cases();
    cases(GUARD_AFTER);
    cases(GUARD_BEFORE);
    printf("book: %lu checks passed\n", checks);
    return 0;
}
