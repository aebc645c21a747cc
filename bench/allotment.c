// Compares the library's shares, allotments and previews with a plain reference in C, then measures both on
// the same input in one run. With --check it only compares.
#define _POSIX_C_SOURCE 200809L
#include <inttypes.h>
#include <stdbool.h>
#include <stddef.h>
#include <stdint.h>
#include <stdio.h>
#include <stdlib.h>
#include <string.h>
#include <time.h>

#include "optes_book.h"

enum { CODES = 64, EACH = 10, PLACES = CODES * EACH, BOOKS = 3000, SHARES = 1024, RUNS = 25 };

// The numbers past every rate that crate measured answers with.
#define NO_RATE UINT64_C(4294967296)
#define EXCEEDS UINT64_C(4294967297)

#define MOST_BIDS UINT64_C(999999999999999999)
#define WIDEST_AMOUNT UINT64_C(999999999999999)

// The day and the second of the cut-off of a tender.
enum { DAY = 12032012, CUT_OFF = 110000 };

// Where the archive keeps what a tender has: its form, how many codes there are, its terms, and its book.
enum { FORM = 0, COUNT = 2, SIDE_AT = 14, DAY_AT = 15, CUT_OFF_AT = 16, OFFERED_AT = 18, LIMIT_AT = 23 };
enum { FIRST_CODE = 24, FIRST_RATE = 216, FIRST_AMOUNT = 856, FIRST_LIMIT = 1496, THE_FORM = 2 };

typedef unsigned __int128 wide;

// The exports of crate measured.
uint64_t measured_share(uint64_t a, uint64_t m, uint64_t e);
uint64_t measured_allot(bool lp, uint32_t limit, uint64_t offered, const uint64_t *limits,
    size_t limits_length, const uint32_t *rates, size_t rates_length, const uint64_t *amounts,
    size_t amounts_length, uint64_t *awards, size_t awards_length);

// An offer, the credit limits of the counterparties (zero for none), and the places of a book.
struct book {
    bool lp;
    uint32_t limit;
    uint64_t offered;
    uint64_t limits[CODES];
    uint32_t rates[PLACES];
    uint64_t amounts[PLACES];
};

// The marginal rate or a number past every rate, and the awards.
struct allotment {
    uint64_t marginal;
    uint64_t awards[PLACES];
};

struct bid {
    uint32_t rate;
    uint64_t amount;
    size_t place;
};

// The numbers of one share: an amount, what is left of the offer, and the total at the amount's rate.
struct share {
    uint64_t a;
    uint64_t m;
    uint64_t e;
};

// ---- Library and reference ----

static void library_allot(const struct book *b, struct allotment *result)
{
    result->marginal = measured_allot(b->lp, b->limit, b->offered, b->limits, CODES, b->rates, PLACES,
        b->amounts, PLACES, result->awards, PLACES);
}

// An open tender that holds the book. Its words are set here, for messages could not bring every book there.
static void open_tender(const struct book *b, struct optes_book *tender)
{
    uint64_t *words = tender->words;
    memset(tender, 0, sizeof *tender);
    words[FORM] = THE_FORM;
    words[COUNT] = CODES;
    words[SIDE_AT] = b->lp ? OPTES_SIDE_LP : OPTES_SIDE_LA;
    words[DAY_AT] = DAY;
    words[CUT_OFF_AT] = CUT_OFF;
    words[OFFERED_AT] = b->offered;
    words[LIMIT_AT] = b->limit;
    for (size_t i = 0; i < CODES; i++) {
        words[FIRST_CODE + i] = i;
        words[FIRST_LIMIT + i] = b->limits[i];
    }
    for (size_t i = 0; i < PLACES; i++) {
        words[FIRST_RATE + i] = b->rates[i];
        words[FIRST_AMOUNT + i] = b->amounts[i];
    }
}

// Allots a copy of the tender that is closed a second past its cut-off.
static uint64_t allot_copy(const struct optes_book *tender, struct optes_allotment *told)
{
    struct optes_book copy = *tender;
    uint64_t refusal = optes_book_close(&copy, DAY, CUT_OFF + 1);
    return refusal == OPTES_OK ? optes_book_allot(&copy, told) : refusal;
}

// The answer of a call on a tender as crate measured gives it, which has zeros where the bids exceed.
static void take_answer(uint64_t refusal, const struct optes_allotment *told, struct allotment *result)
{
    memset(result->awards, 0, sizeof result->awards);
    result->marginal = refusal == OPTES_BIDS_EXCEED ? EXCEEDS : UINT64_MAX;
    if (refusal != OPTES_OK)
        return;
    memcpy(result->awards, told->awards, sizeof result->awards);
    result->marginal = told->has_marginal ? told->marginal : NO_RATE;
}

// A call that tells what an open tender would be given.
typedef uint64_t teller(const struct optes_book *tender, struct optes_allotment *told);

static void ask_tender(const struct book *b, teller *call, struct allotment *result)
{
    struct optes_book tender, before;
    struct optes_allotment told;
    memset(&told, 0xff, sizeof told);
    open_tender(b, &tender);
    before = tender;
    take_answer(call(&tender, &told), &told, result);
    if (memcmp(&tender, &before, sizeof tender) != 0) {
        fprintf(stderr, "bench: a word of a tender was written that is only asked\n");
        exit(1);
    }
}

static void library_preview(const struct book *b, struct allotment *result)
{
    ask_tender(b, optes_book_preview, result);
}

static void library_copy(const struct book *b, struct allotment *result)
{
    ask_tender(b, allot_copy, result);
}

// The ways in which the library allots a book.
static const struct way {
    const char *name;
    void (*allot)(const struct book *b, struct allotment *result);
} ways[] = {
    {"an allotment", library_allot},
    {"a preview", library_preview},
    {"an allotment of a closed copy", library_copy},
};
enum { WAYS = sizeof ways / sizeof ways[0] };

__attribute__((noinline)) static uint64_t reference_share(uint64_t a, uint64_t m, uint64_t e)
{
    return (uint64_t)((wide)a * m / e);
}

static int by_place(const struct bid *x, const struct bid *y)
{
    return (x->place > y->place) - (x->place < y->place);
}

static int lowest_first(const void *left, const void *right)
{
    const struct bid *x = left, *y = right;
    return x->rate != y->rate ? (x->rate > y->rate ? 1 : -1) : by_place(x, y);
}

static int highest_first(const void *left, const void *right)
{
    const struct bid *x = left, *y = right;
    return x->rate != y->rate ? (x->rate < y->rate ? 1 : -1) : by_place(x, y);
}

static wide total(const struct book *b)
{
    wide sum = 0;
    for (size_t i = 0; i < PLACES; i++)
        sum += b->amounts[i];
    return sum;
}

static bool is_in(const struct book *b, size_t i)
{
    bool filled = b->rates[i] != 0 || b->amounts[i] != 0;
    return filled && (b->lp ? b->rates[i] >= b->limit : b->rates[i] <= b->limit);
}

// The bids in at some of the places, best rate first and at one rate in book order.
static size_t bids_in(const struct book *b, size_t from, size_t to, struct bid *bids)
{
    size_t n = 0;
    for (size_t i = from; i < to; i++)
        if (is_in(b, i))
            bids[n++] = (struct bid){b->rates[i], b->amounts[i], i};
    qsort(bids, n, sizeof bids[0], b->lp ? highest_first : lowest_first);
    return n;
}

// Walks the bids in of one counterparty, and cuts those that its limit does not cover.
static void cut_bids(struct book *b, size_t code)
{
    struct bid bids[EACH];
    size_t n = bids_in(b, EACH * code, EACH * (code + 1), bids);
    uint64_t left = b->limits[code];
    for (size_t i = 0; i < n; i++) {
        if (bids[i].amount <= left) {
            left -= bids[i].amount;
            continue;
        }
        b->amounts[bids[i].place] = left;
        if (left == 0)
            b->rates[bids[i].place] = 0;
        left = 0;
    }
}

static bool any_limit(const struct book *b)
{
    for (size_t i = 0; i < CODES; i++)
        if (b->limits[i] != 0)
            return true;
    return false;
}

// The book whose bids are taken: the same, or where limits cut a copy with the bids cut.
static const struct book *taken(const struct book *b, struct book *cut)
{
    if (!b->lp || !any_limit(b))
        return b;
    *cut = *b;
    for (size_t i = 0; i < CODES; i++)
        if (b->limits[i] != 0)
            cut_bids(cut, i);
    return cut;
}

// Shares what is left of the offer among the bids of one rate, then gives the leftover cents.
static void share_out(const struct bid *bids, size_t n, uint64_t left, uint64_t at_rate,
    uint64_t awards[PLACES])
{
    uint64_t cents = left;
    for (size_t i = 0; i < n; i++) {
        uint64_t share = reference_share(bids[i].amount, left, at_rate);
        awards[bids[i].place] = share;
        cents -= share;
    }
    for (size_t i = 0; i < n && i < cents; i++)
        awards[bids[i].place]++;
}

static void serve_in_full(const struct bid *bids, size_t n, uint64_t awards[PLACES])
{
    for (size_t i = 0; i < n; i++)
        awards[bids[i].place] = bids[i].amount;
}

// How many of the bids stand at the rate of the first, and their total.
static size_t at_one_rate(const struct bid *bids, size_t n, uint64_t *sum)
{
    size_t i = 0;
    *sum = 0;
    for (; i < n && bids[i].rate == bids[0].rate; i++)
        *sum += bids[i].amount;
    return i;
}

// Serves the rates best first until the offer is reached.
__attribute__((noinline)) static void reference_allot(const struct book *b,
    struct allotment *result)
{
    struct bid bids[PLACES];
    struct book cut;
    memset(result->awards, 0, sizeof result->awards);
    if (total(b) > MOST_BIDS) {
        result->marginal = EXCEEDS;
        return;
    }
    size_t n = bids_in(taken(b, &cut), 0, PLACES, bids);
    uint64_t left = b->offered;
    for (size_t i = 0; i < n;) {
        uint64_t sum;
        size_t some = at_one_rate(bids + i, n - i, &sum);
        if (sum <= left)
            serve_in_full(bids + i, some, result->awards);
        else
            share_out(bids + i, some, left, sum, result->awards);
        if (sum >= left) {
            result->marginal = bids[i].rate;
            return;
        }
        left -= sum;
        i += some;
    }
    result->marginal = NO_RATE;
}

// Whether a rate is better than another.
static bool better(const struct book *b, uint32_t rate, uint32_t other)
{
    return b->lp ? rate > other : rate < other;
}

// The best rate of the bids in, past the last one if there was one, and their total; 0 where none is left.
static bool next_rate(const struct book *b, bool some, uint32_t last, uint32_t *rate, uint64_t *sum)
{
    bool found = false;
    *sum = 0;
    for (size_t i = 0; i < PLACES; i++) {
        uint32_t here = b->rates[i];
        if (!is_in(b, i) || (some && !better(b, last, here)))
            continue;
        if (!found || better(b, here, *rate))
            *sum = 0;
        else if (here != *rate)
            continue;
        found = true;
        *rate = here;
        *sum += b->amounts[i];
    }
    return found;
}

// The marginal rate by a look at all places for every rate, to see what sorting them once saves.
__attribute__((noinline)) static uint64_t scanned_marginal(const struct book *b)
{
    uint64_t left = b->offered, sum;
    uint32_t rate = 0;
    struct book cut;
    if (total(b) > MOST_BIDS)
        return EXCEEDS;
    b = taken(b, &cut);
    for (bool some = false; next_rate(b, some, rate, &rate, &sum); some = true) {
        if (sum >= left)
            return rate;
        left -= sum;
    }
    return NO_RATE;
}

// ---- Random books ----

static uint64_t seed = UINT64_C(88172645463325252);

static uint64_t random_number(void)
{
    seed ^= seed << 13;
    seed ^= seed >> 7;
    seed ^= seed << 17;
    return seed;
}

// A number below n.
static uint64_t random_below(uint64_t n)
{
    return random_number() % n;
}

// An amount: none, a few cents, up to fifteen digits or, rarely, enough for condition 16.
static uint64_t random_amount(bool small)
{
    if (random_below(8) == 0)
        return 0;
    if (small)
        return random_below(20);
    if (random_below(20000) == 0)
        return random_number();
    return random_below(WIDEST_AMOUNT + 1);
}

// The bids in at a rate and at better ones, together.
static wide total_up_to(const struct book *b, uint32_t rate)
{
    wide sum = 0;
    for (size_t i = 0; i < PLACES; i++)
        if (is_in(b, i) && (b->lp ? b->rates[i] >= rate : b->rates[i] <= rate))
            sum += b->amounts[i];
    return sum;
}

// An offer of few cents, of exactly what some rate reaches after the cuts, or of anything up to more than
// all bids.
static uint64_t random_offer(const struct book *b)
{
    struct book cut;
    const struct book *bids = taken(b, &cut);
    wide all = total(b);
    switch (random_below(8)) {
    case 0:
        return random_below(3);
    case 1:
        return (uint64_t)total_up_to(bids, bids->rates[random_below(PLACES)]);
    default:
        return (uint64_t)(random_number() % (all + all / 8 + 2));
    }
}

// The amounts of one counterparty's bids, together.
static wide total_of(const struct book *b, size_t code)
{
    wide sum = 0;
    for (size_t i = EACH * code; i < EACH * (code + 1); i++)
        sum += b->amounts[i];
    return sum;
}

// No limits, or for some counterparties a limit of one cent, of anything up to more than their bids, or
// of exactly the first of them.
static void random_limits(struct book *b)
{
    bool none = random_below(3) == 0;
    for (size_t i = 0; i < CODES; i++) {
        wide all = total_of(b, i);
        uint64_t any = (uint64_t)(random_number() % (all + all / 8 + 2));
        uint64_t choices[] = {0, 1, any, b->amounts[EACH * i]};
        b->limits[i] = none ? 0 : choices[random_below(4)];
    }
}

// A book with few or many rates, some of its places empty.
static void random_book(struct book *b)
{
    uint64_t rates = 1 + random_below(random_below(3) == 0 ? PLACES : 12);
    uint64_t empty = 1 + random_below(6);
    uint32_t step = random_below(4) == 0 ? 1 : 1000;
    bool small = random_below(4) == 0;
    b->lp = random_below(2) == 0;
    b->limit = (uint32_t)random_below(rates) * step / (b->lp ? 2 : 1);
    for (size_t i = 0; i < PLACES; i++) {
        bool filled = random_below(empty + 1) != 0;
        b->rates[i] = filled ? (uint32_t)random_below(rates) * step : 0;
        b->amounts[i] = filled ? random_amount(small) : 0;
    }
    random_limits(b);
    b->offered = random_offer(b);
}

// A share as an allotment has it: the amount is part of the total, of which less is left of the offer.
static void random_share(struct share *s)
{
    s->a = WIDEST_AMOUNT - random_below(WIDEST_AMOUNT / 10 * 9);
    s->e = s->a + random_below(MOST_BIDS - s->a + 1);
    s->m = random_below(s->e);
}

// ---- Comparison ----

static void print_number(const char *name, uint64_t number)
{
    fprintf(stderr, "  %s %" PRIu64 "\n", name, number);
}

// Prints the offer and the first place at which the awards differ, and stops.
static void fail_book(const struct book *b, const struct allotment *library,
    const struct allotment *reference)
{
    size_t i = 0;
    while (i < PLACES - 1 && library->awards[i] == reference->awards[i])
        i++;
    fprintf(stderr, "  %s\n", b->lp ? "LP" : "LA");
    print_number("limit", b->limit);
    print_number("offered", b->offered);
    print_number("marginal rate, library", library->marginal);
    print_number("marginal rate, reference", reference->marginal);
    print_number("place", i);
    print_number("its limit", b->limits[i / EACH]);
    print_number("its rate", b->rates[i]);
    print_number("its amount", b->amounts[i]);
    print_number("its award, library", library->awards[i]);
    print_number("its award, reference", reference->awards[i]);
    exit(1);
}

// Compares one way of the library with what the reference gave.
static void compare_way(int k, const struct way *way, const struct book *b,
    const struct allotment *reference)
{
    struct allotment library;
    memset(library.awards, 0xff, sizeof library.awards);
    way->allot(b, &library);
    if (library.marginal != reference->marginal
        || memcmp(library.awards, reference->awards, sizeof library.awards) != 0) {
        fprintf(stderr, "bench: %s of book %d differs\n", way->name, k);
        fail_book(b, &library, reference);
    }
}

// Compares the library with the reference, and both ways to find the marginal rate.
static void compare_book(int k, const struct book *b, struct allotment *reference)
{
    reference_allot(b, reference);
    for (size_t i = 0; i < WAYS; i++)
        compare_way(k, &ways[i], b, reference);
    if (scanned_marginal(b) != reference->marginal) {
        fprintf(stderr, "bench: the marginal rate of book %d differs by a look at all places\n", k);
        exit(1);
    }
}

enum kind { MET, NOT_MET, REFUSED, CUT, CUT_EXACT, KINDS };
static const char *const kind_names[KINDS] = {"offer met", "not met", "refused", "bids cut",
    "cut bids exactly the offer"};

// Counts the kinds of an allotment.
static void count_kinds(unsigned counts[KINDS], const struct book *b, uint64_t marginal)
{
    counts[MET] += marginal < NO_RATE;
    counts[NOT_MET] += marginal == NO_RATE;
    counts[REFUSED] += marginal == EXCEEDS;
    struct book cut;
    const struct book *bids = taken(b, &cut);
    if (marginal == EXCEEDS || memcmp(bids->amounts, b->amounts, sizeof b->amounts) == 0)
        return;
    counts[CUT]++;
    counts[CUT_EXACT] += marginal < NO_RATE && total_up_to(bids, (uint32_t)marginal) == b->offered;
}

// Prints how many books there are of each kind, and stops where there is none.
static void print_kinds(const unsigned counts[KINDS])
{
    printf("%d books equal, by an allotment, a preview and an allotment of a closed copy:", BOOKS);
    for (size_t i = 0; i < KINDS; i++) {
        printf("%s %s in %u", i == 0 ? "" : ",", kind_names[i], counts[i]);
        if (counts[i] == 0) {
            fprintf(stderr, "bench: no book is of the kind: %s\n", kind_names[i]);
            exit(1);
        }
    }
    putchar('\n');
}

// Compares random books, and counts each kind of answer so that none is missing.
static void compare_books(void)
{
    unsigned counts[KINDS] = {0};
    for (int k = 0; k < BOOKS; k++) {
        struct book b;
        struct allotment reference;
        random_book(&b);
        compare_book(k, &b, &reference);
        count_kinds(counts, &b, reference.marginal);
    }
    print_kinds(counts);
}

static void compare_shares(void)
{
    for (int k = 0; k < 100 * SHARES; k++) {
        struct share s;
        random_share(&s);
        uint64_t library = measured_share(s.a, s.m, s.e);
        uint64_t reference = reference_share(s.a, s.m, s.e);
        if (library != reference) {
            fprintf(stderr, "bench: share %d differs\n", k);
            print_number("amount", s.a);
            print_number("left of the offer", s.m);
            print_number("total at the rate", s.e);
            print_number("library", library);
            print_number("reference", reference);
            exit(1);
        }
    }
    printf("%d shares equal\n", 100 * SHARES);
}

// ---- Measuring ----

// What is measured adds to this, so that no call can be left out.
static volatile uint64_t sink;

static struct share shares[SHARES];
static struct book measured_book;
static struct optes_book measured_tender;

static void library_shares(void)
{
    for (size_t i = 0; i < SHARES; i++)
        sink += measured_share(shares[i].a, shares[i].m, shares[i].e);
}

static void reference_shares(void)
{
    for (size_t i = 0; i < SHARES; i++)
        sink += reference_share(shares[i].a, shares[i].m, shares[i].e);
}

static void library_book(void)
{
    struct allotment result;
    library_allot(&measured_book, &result);
    sink += result.marginal + result.awards[0];
}

static void reference_book(void)
{
    struct allotment result;
    reference_allot(&measured_book, &result);
    sink += result.marginal + result.awards[0];
}

static void previewed_tender(void)
{
    struct optes_allotment told;
    sink += optes_book_preview(&measured_tender, &told);
    sink += told.marginal + told.awards[0];
}

static void copied_tender(void)
{
    struct optes_allotment told;
    sink += allot_copy(&measured_tender, &told);
    sink += told.marginal + told.awards[0];
}

static void scanned_book(void)
{
    sink += scanned_marginal(&measured_book);
}

// Nanoseconds of processor time.
static double now(void)
{
    struct timespec t;
    clock_gettime(CLOCK_PROCESS_CPUTIME_ID, &t);
    return (double)t.tv_sec * 1e9 + (double)t.tv_nsec;
}

// The time of one call in a run of many.
static double time_of(void (*call)(void), int calls)
{
    double start = now();
    for (int i = 0; i < calls; i++)
        call();
    return (now() - start) / calls;
}

// The shortest of alternating runs, in units of so many nanoseconds, and how they compare.
static void measure(const char *name, void (*library)(void), void (*reference)(void), double unit,
    const char *unit_name)
{
    double best_library = 1e18, best_reference = 1e18;
    for (int k = 0; k < RUNS; k++) {
        double time = time_of(library, 50);
        best_library = time < best_library ? time : best_library;
        time = time_of(reference, 50);
        best_reference = time < best_reference ? time : best_reference;
    }
    printf("%-32s %9.2f %s %9.2f %s %7.2f\n", name, best_library / unit, unit_name,
        best_reference / unit, unit_name, best_library / best_reference);
}

static void swap_rates(uint32_t *x, uint32_t *y)
{
    uint32_t kept = *x;
    *x = *y;
    *y = kept;
}

// A full book in LP with amounts of fifteen digits, half of their total offered, and no limits; the rates
// are a step apart and shuffled.
static void fill_book(uint32_t step)
{
    struct book *b = &measured_book;
    b->lp = true;
    b->limit = 100000;
    memset(b->limits, 0, sizeof b->limits);
    for (uint32_t i = 0; i < PLACES; i++) {
        b->rates[i] = 100000 + step * i;
        b->amounts[i] = WIDEST_AMOUNT - random_below(WIDEST_AMOUNT / 10 * 9);
    }
    for (size_t i = PLACES - 1; i > 0; i--)
        swap_rates(&b->rates[i], &b->rates[random_below(i + 1)]);
    b->offered = (uint64_t)(total(b) / 2);
}

// Limits every counterparty to half of its bids, and offers half of what that leaves.
static void limit_book(void)
{
    struct book *b = &measured_book;
    for (size_t i = 0; i < CODES; i++)
        b->limits[i] = (uint64_t)(total_of(b, i) / 2);
    b->offered = (uint64_t)(total(b) / 4);
}

// A preview of an open tender that holds the book, and what a host without previews would do instead.
static void measure_preview(const char *name)
{
    open_tender(&measured_book, &measured_tender);
    measure(name, previewed_tender, reference_book, 1000, "us");
    measure("the same, a closed copy allotted", copied_tender, reference_book, 1000, "us");
}

static void measure_all(void)
{
    printf("%-32s %12s %12s %7s\n", "", "Rattle", "reference", "ratio");
    for (size_t i = 0; i < SHARES; i++)
        random_share(&shares[i]);
    measure("a share of 15 digits", library_shares, reference_shares, SHARES, "ns");
    fill_book(0);
    measure("an allotment, 640 bids, one rate", library_book, reference_book, 1000, "us");
    measure_preview("a preview, 640 bids, one rate");
    fill_book(1000);
    measure("an allotment, 640 bids and rates", library_book, reference_book, 1000, "us");
    measure("the same, all places each rate", library_book, scanned_book, 1000, "us");
    measure_preview("a preview, 640 bids and rates");
    limit_book();
    measure("640 bids, every code capped", library_book, reference_book, 1000, "us");
}

int main(int argc, char **argv)
{
    bool only_compare = argc == 2 && strcmp(argv[1], "--check") == 0;
    if (argc > 1 && !only_compare) {
        fprintf(stderr, "usage: allotment [--check]\n");
        return 2;
    }
    compare_shares();
    compare_books();
    if (!only_compare)
        measure_all();
    return 0;
}
