#include "reply.h"

#include <inttypes.h>
#include <stdio.h>
#include <string.h>

#include "texts.h"

#define HEAD_BYTES 3
#define BIDS_TAG 0x76
#define PLACE_BYTES 24
#define NO_BID "00000000/000000000000000"

// Shows a byte that is no letter, digit or sign as a question mark, and a text that starts or ends with a
// blank in quotes.
static void show_text(const uint8_t *text, size_t n)
{
    bool quoted = n > 0 && (text[0] == ' ' || text[n - 1] == ' ');
    fputs(quoted ? "\"" : "", stdout);
    for (size_t i = 0; i < n; i++)
        putchar(text[i] >= ' ' && text[i] <= '~' ? text[i] : '?');
    puts(quoted ? "\"" : "");
}

// Each place that is not zeros on a line of its own.
static void show_places(const uint8_t *bids, size_t n)
{
    size_t zeros = 0;
    for (size_t at = 0; at + PLACE_BYTES <= n; at += PLACE_BYTES) {
        if (memcmp(bids + at, NO_BID, PLACE_BYTES) == 0) {
            zeros++;
            continue;
        }
        printf("            place %-13zu", at / PLACE_BYTES + 1);
        show_text(bids + at, PLACE_BYTES);
    }
    printf("            zero places        %zu\n", zeros);
}

static void show_field(const char *name, uint8_t tag, const uint8_t *held, size_t n)
{
    if (tag == BIDS_TAG) {
        printf("        %s\n", name);
        show_places(held, n);
        return;
    }
    printf("        %-23s", name);
    show_text(held, n);
}

static void show_fields(const uint8_t *reply, size_t length, bool returned)
{
    size_t at = 0;
    while (at + HEAD_BYTES <= length) {
        size_t n = (size_t)reply[at + 1] << 8 | reply[at + 2];
        if (n > length - at - HEAD_BYTES)
            return;
        show_field(field_name(reply[at], returned), reply[at], reply + at + HEAD_BYTES, n);
        at += HEAD_BYTES + n;
    }
}

static void show_errors(const struct optes_answer *answer)
{
    for (uint64_t k = 0; k < answer->errors && k < OPTES_BOOK_ERRORS; k++) {
        uint64_t code = answer->codes[k];
        printf("    error %s - %" PRIu64 ": %s\n", error_field(code), code, optes_error_text(code));
    }
}

void show_reply(const uint8_t *reply, const struct optes_answer *answer)
{
    if (answer->errors == 0)
        printf("    confirmed with a 6G2 of %" PRIu64 " bytes\n", answer->length);
    else
        printf("    returned with an RE01 of %" PRIu64 " bytes\n", answer->length);
    show_fields(reply, (size_t)answer->length, answer->errors > 0);
    show_errors(answer);
}
