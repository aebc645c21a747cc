// Measures receptions by one tender, each by the tender that the reception before it gave, so that the
// book is kept from one to the next: by value, and in place in a buffer through the C interface. The
// announcement is that of document 01's worked session, and the applications are its first one with other
// senders, times and amounts; the session is read from the file that the first argument names. With --check
// it only compares what the tender holds after receptions, and the last reply.
#define _POSIX_C_SOURCE 200809L
#include <stdbool.h>
#include <stddef.h>
#include <stdint.h>
#include <stdio.h>
#include <stdlib.h>
#include <string.h>
#include <time.h>

#include "optes_book.h"

enum { HEAD = 3, CLOCK = 14, ANNOUNCEMENT = 0xA1, RECEPTION = 0xA2, CONFIRMATION = 59 };
enum { SPACE = OPTES_REPLY_BYTES };
enum { RUNS = 200, RECEPTIONS = 2000, COMPARED = 200, FEW_CODES = 3, MOST_CODES = 64, FIRST_CODE = 90001 };

// The bytes of an application, and where three of its numbers stand in it.
enum { APPLICATION = 339, SENDER = 9, TIME = 50, AMOUNT = 90 };

// The export of crate measured_receptions.
uint64_t measured_receptions(const uint8_t *announcement, size_t announcement_length, const uint32_t *codes,
    size_t codes_length, const uint64_t *limits, size_t limits_length, const uint8_t *messages,
    size_t messages_length, uint64_t date, uint64_t time, uint8_t *space, size_t space_length);

struct part {
    const uint8_t *bytes;
    size_t length;
};

static uint8_t session[1 << 16];
static size_t session_length;
static uint8_t applications[RECEPTIONS][APPLICATION];

static void fail(const char *what)
{
    fprintf(stderr, "receptions: %s\n", what);
    exit(1);
}

static void read_session(const char *name)
{
    FILE *file = fopen(name, "rb");
    if (!file)
        fail("the session cannot be read");
    session_length = fread(session, 1, sizeof session, file);
    fclose(file);
}

// The contents of the first field with a tag.
static struct part first_field(uint8_t tag)
{
    size_t at = 0;
    while (at + HEAD <= session_length) {
        size_t length = (size_t)session[at + 1] * 256 + session[at + 2];
        if (at + HEAD + length > session_length)
            break;
        if (session[at] == tag)
            return (struct part){session + at + HEAD, length};
        at += HEAD + length;
    }
    fail("a field is missing from the session");
    return (struct part){0};
}

static void put_digits(uint8_t *bytes, size_t width, uint64_t number)
{
    while (width-- > 0) {
        bytes[width] = (uint8_t)('0' + number % 10);
        number /= 10;
    }
}

// What the application at an index bids: no two bid the same.
static uint64_t amount_at(size_t k)
{
    return 10000 * (k + 1);
}

// The counterparties apply in turn, each time a second later.
static void compose(size_t codes)
{
    struct part reception = first_field(RECEPTION);
    if (reception.length != CLOCK + APPLICATION)
        fail("the first reception of the session has no application");
    for (size_t k = 0; k < RECEPTIONS; k++) {
        memcpy(applications[k], reception.bytes + CLOCK, APPLICATION);
        put_digits(applications[k] + SENDER, 5, FIRST_CODE + k % codes);
        put_digits(applications[k] + TIME, 6, k / 3600 * 10000 + k / 60 % 60 * 100 + k % 60);
        put_digits(applications[k] + AMOUNT, 15, amount_at(k));
    }
}

// A way to receive the first applications by a tender for so many codes; gives the eurocents that it holds then.
typedef uint64_t receiver(size_t codes, size_t receptions, uint8_t space[SPACE]);

static void admit(size_t codes, uint32_t admitted[MOST_CODES])
{
    for (size_t c = 0; c < codes; c++)
        admitted[c] = (uint32_t)(FIRST_CODE + c);
}

static uint64_t by_value(size_t codes, size_t receptions, uint8_t space[SPACE])
{
    struct part announcement = first_field(ANNOUNCEMENT);
    static const uint64_t uncapped[MOST_CODES] = {0};
    uint32_t admitted[MOST_CODES];
    admit(codes, admitted);
    return measured_receptions(announcement.bytes, announcement.length, admitted, codes, uncapped, codes,
        applications[0], receptions * APPLICATION, 12032012, 103000, space, SPACE);
}

static uint64_t held_in(const struct optes_book *book, size_t codes)
{
    uint64_t sum = 0;
    for (size_t c = 0; c < codes; c++) {
        struct optes_held held;
        if (optes_book_held(book, FIRST_CODE + c, &held) != OPTES_OK)
            fail("the buffer holds no tender");
        for (size_t k = 0; k < OPTES_BOOK_CODE_PLACES; k++)
            sum += held.amounts[k];
    }
    return sum;
}

static uint64_t in_place(size_t codes, size_t receptions, uint8_t space[SPACE])
{
    static struct optes_book book;
    struct part announcement = first_field(ANNOUNCEMENT);
    uint32_t admitted[MOST_CODES];
    admit(codes, admitted);
    if (optes_book_open(&book, announcement.bytes, announcement.length, admitted, codes) != OPTES_OK)
        fail("the tender is not opened");
    for (size_t k = 0; k < receptions; k++) {
        struct optes_answer answer;
        optes_book_receive(&book, applications[k], APPLICATION, 12032012, 103000, space, SPACE, &answer);
    }
    return held_in(&book, codes);
}

// The same by counting: the last application of each counterparty is the one that is held.
static uint64_t expected(size_t codes, size_t receptions)
{
    uint64_t sum = 0;
    size_t from = receptions < codes ? 0 : receptions - codes;
    for (size_t k = from; k < receptions; k++)
        sum += amount_at(k);
    return sum;
}

// After each reception, so that one that was not accepted is seen.
static void compare(const char *way, receiver *receive, size_t codes)
{
    compose(codes);
    for (size_t n = 1; n <= COMPARED; n++) {
        uint8_t space[SPACE];
        memset(space, 0xEE, sizeof space);
        if (receive(codes, n, space) != expected(codes, n))
            fail("the tender does not hold the last application of each counterparty");
        if (memcmp(space + HEAD, "6G2", 3) != 0)
            fail("the application is not confirmed");
        if (space[CONFIRMATION] != 0xEE || space[SPACE - 1] != 0xEE)
            fail("a byte past the confirmation was written");
    }
    printf("%d receptions %s, %zu codes: each is confirmed and held, and the bytes past a confirmation stay\n",
        COMPARED, way, codes);
}

static double now(void)
{
    struct timespec t;
    clock_gettime(CLOCK_PROCESS_CPUTIME_ID, &t);
    return (double)t.tv_sec * 1e9 + (double)t.tv_nsec;
}

static void measure(const char *way, receiver *receive, size_t codes)
{
    uint8_t space[SPACE];
    double least = 1e18;
    compose(codes);
    for (int run = 0; run < RUNS; run++) {
        double start = now();
        receive(codes, RECEPTIONS, space);
        double each = (now() - start) / RECEPTIONS;
        least = each < least ? each : least;
    }
    printf("an application received %s and held, %2zu codes %10.2f ns\n", way, codes, least);
}

int main(int argc, char **argv)
{
    bool only_compare = argc == 3 && strcmp(argv[2], "--check") == 0;
    if (argc != 2 && !only_compare) {
        fprintf(stderr, "usage: receptions SESSION [--check]\n");
        return 2;
    }
    read_session(argv[1]);
    compare("by value", by_value, FEW_CODES);
    compare("by value", by_value, MOST_CODES);
    compare("in place", in_place, FEW_CODES);
    compare("in place", in_place, MOST_CODES);
    if (!only_compare) {
        measure("by value", by_value, FEW_CODES);
        measure("by value", by_value, MOST_CODES);
        measure("in place", in_place, FEW_CODES);
        measure("in place", in_place, MOST_CODES);
    }
    return 0;
}
