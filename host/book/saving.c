// A tender that is copied or saved goes on as the one that it was copied from.
#include <string.h>

#include "cases.h"
#include "check.h"
#include "worked.h"

// Closes and allots, and gives the award of the first place of the first code.
static uint64_t first_award(const struct desk *d, struct optes_book b)
{
    ended(d, &b);
    return desk_awards(d)[0];
}

// Two copies take different messages, and neither sees those of the other. A preview of one is none of the other.
static void copied(const struct desk *d)
{
    const uint64_t before = 103100, after = 103200;
    const struct bid bids[] = {{120000, 50000}, {160000, 30000}};
    struct optes_book one = filled(d), other = one;
    confirmed(d, &other, 90001, after, bids[1]);
    expect_held(d, &one, 90001, &before, &bids[0], 1);
    expect_held(d, &other, 90001, &after, &bids[1], 1);
    CHECK(first_award(d, one) == 22223);
    CHECK(first_award(d, other) == 30000);
    CHECK(call_revoke(d, &other) == 0);
    CHECK(call_state(d, &one) == 0 && call_state(d, &other) == 3);
}

static struct optes_book read_back(const struct optes_book *b)
{
    struct optes_book read;
    FILE *file = tmpfile();
    CHECK(file != NULL);
    CHECK(fwrite(b, sizeof *b, 1, file) == 1);
    rewind(file);
    CHECK(fread(&read, sizeof read, 1, file) == 1);
    CHECK(fclose(file) == 0);
    return read;
}

// A tender that is written to a file after every call and read again, to the awards.
static void saved(const struct desk *d)
{
    struct optes_book first = opened(d), b = read_back(&first);
    confirmed(d, &b, 90002, 102900, (struct bid){150000, 60000});
    b = read_back(&b);
    confirmed(d, &b, 90001, 103100, (struct bid){120000, 50000});
    b = read_back(&b);
    confirmed(d, &b, 90003, 103400, (struct bid){120000, 40000});
    const struct optes_allotment shown = previewed(d, &b);
    b = read_back(&b);
    expect_preview(d, &b, &shown);
    CHECK(call_close(d, &b, past_cut_off) == 0);
    b = read_back(&b);
    CHECK(call_state(d, &b) == 1);
    expect_preview(d, &b, &shown);
    CHECK(call_allot(d, &b) == 0);
    expect_given(d, &shown);
    CHECK(desk_awards(d)[0] == 22223 && desk_awards(d)[10] == 60000 && desk_awards(d)[20] == 17777);
    b = read_back(&b);
    CHECK(call_state(d, &b) == 2 && call_allot(d, &b) == 15 && call_preview(d, &b) == 15);
}

// The limits go with the tender, copied or saved, until its awards.
static void limits_kept(const struct desk *d)
{
    const uint64_t limits[CODES] = {40000, 0, OPTES_BOOK_LIMIT_MOST};
    struct optes_book first = opened_limits(d, 0, "", limits), b = read_back(&first), copy;
    confirmed(d, &b, 90001, 102900, (struct bid){150000, 100000});
    b = read_back(&b);
    confirmed(d, &b, 90002, 102900, (struct bid){150000, 100000});
    copy = read_back(&b);
    CHECK(call_limits(d, &copy) == 0 && memcmp(desk_told(d) + 1, limits, sizeof limits) == 0);
    CHECK(first_award(d, b) == 28572 && first_award(d, copy) == 28572);
}

void saving_cases(const struct desk *d)
{
    copied(d);
    saved(d);
    limits_kept(d);
}
