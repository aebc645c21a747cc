#include "book.h"

#include <inttypes.h>
#include <stdio.h>
#include <string.h>

#include "figures.h"

// The least width of a column of amounts.
#define LEAST_WIDTH 10

static void show_amount(const char *name, uint64_t cents)
{
    printf("        %-20s%s euro\n", name, euro(cents).text);
}

// The limit of each code that is capped.
static void show_limits(const struct optes_book *book, uint64_t side)
{
    struct optes_codes admitted;
    struct optes_limits capped;
    if (optes_book_codes(book, &admitted) != OPTES_OK || optes_book_limits(book, &capped) != OPTES_OK)
        return;
    for (size_t k = 0; k < capped.count; k++)
        if (capped.limits[k] > 0)
            printf("        limit of %05" PRIu64 "      %s euro%s\n", admitted.codes[k], euro(capped.limits[k]).text,
                side == OPTES_SIDE_LP ? "" : ", which cuts nothing in LA");
}

void show_terms(const struct optes_book *book)
{
    struct optes_terms t;
    if (optes_book_terms(book, &t) != OPTES_OK)
        return;
    const char *side = t.side == OPTES_SIDE_LP ? "LP, the highest rate is best" : "LA, the lowest rate is best";
    printf("        identifier          %.*s\n", OPTES_BOOK_IDENTIFIER_BYTES, (const char *)t.identifier);
    printf("        side                %s\n", side);
    printf("        execution date      %s\n", day(t.execution).text);
    printf("        cut-off             %s\n", hour(t.cut_off).text);
    printf("        most bids           %" PRIu64 "\n", t.most_bids);
    show_amount("offered", t.offered);
    show_amount("minimum", t.minimum);
    show_amount("increment", t.increment);
    if (t.maximum == 0)
        printf("        maximum             none\n");
    else
        show_amount("maximum", t.maximum);
    show_amount("minimum allocation", t.minimum_allocation);
    printf("        limit rate          %s %%\n", percent(t.limit_rate).text);
    show_limits(book, t.side);
}

// Whether there is a bid in a place.
static int is_filled(const struct optes_held *h, size_t place)
{
    return h->rates[place] != 0 || h->amounts[place] != 0;
}

void show_held(const struct optes_book *book, uint64_t code)
{
    struct optes_held h;
    if (optes_book_held(book, code, &h) != OPTES_OK)
        return;
    printf("    held for %05" PRIu64 " with the reference time %s\n", code, hour(h.time).text);
    size_t bids = 0;
    for (size_t k = 0; k < OPTES_BOOK_CODE_PLACES; k++) {
        if (!is_filled(&h, k))
            continue;
        printf("        place %-17zu%s euro at %s %%\n", k + 1, euro(h.amounts[k]).text,
            percent(h.rates[k]).text);
        bids++;
    }
    if (bids == 0)
        puts("        no bids");
}

// The bids and awards of the whole book.
struct totals {
    uint64_t places;
    uint64_t bids;
    uint64_t awards;
};

// The columns of the awards: how wide those of amounts are, or 0 where nothing is shown; the limits that cut; and
// how wide their column is, or 0 where nobody is capped.
struct columns {
    int width;
    struct optes_limits limits;
    int limit_width;
};

// The limits of a tender in LP. In LA none cuts.
static struct optes_limits limits_that_cut(const struct optes_book *book)
{
    const struct optes_limits none = {0};
    struct optes_limits limits;
    struct optes_terms t;
    if (optes_book_terms(book, &t) != OPTES_OK || t.side != OPTES_SIDE_LP)
        return none;
    return optes_book_limits(book, &limits) == OPTES_OK ? limits : none;
}

// The width of a column that has this one so far, and these cents too.
static int widened(int width, uint64_t cents)
{
    int length = (int)strlen(euro(cents).text);
    width = width < LEAST_WIDTH ? LEAST_WIDTH : width;
    return width < length ? length : width;
}

static struct columns columns_of(const struct optes_book *book, uint64_t bids)
{
    struct columns columns = {.width = widened(0, bids), .limits = limits_that_cut(book)};
    for (size_t k = 0; k < columns.limits.count; k++)
        if (columns.limits.limits[k] > 0)
            columns.limit_width = widened(columns.limit_width, columns.limits.limits[k]);
    return columns;
}

static void show_row(const char *head, const char *rate, uint64_t bid, uint64_t award, int width)
{
    printf("        %-11s  %9s  %*s  %*s", head, rate, width, euro(bid).text, width, euro(award).text);
}

static void show_limit(uint64_t limit, int width)
{
    if (limit > 0)
        printf("  %*s", width, euro(limit).text);
    putchar('\n');
}

// Adds the bids of the code of this index, and shows them where there is a width to show them in.
static void add_code(struct totals *totals, const struct optes_held *h, uint64_t code, size_t index,
    const uint64_t *awards, const struct columns *columns)
{
    for (size_t k = 0; k < OPTES_BOOK_CODE_PLACES; k++) {
        if (!is_filled(h, k))
            continue;
        totals->places++;
        totals->bids += h->amounts[k];
        totals->awards += awards[k];
        if (columns->width > 0) {
            char head[FIGURE_ROOM];
            snprintf(head, sizeof head, "%05" PRIu64 " %5zu", code, k + 1);
            show_row(head, percent(h->rates[k]).text, h->amounts[k], awards[k], columns->width);
            show_limit(columns->limits.limits[index], columns->limit_width);
        }
    }
}

static struct totals add_codes(const struct optes_book *book, const struct optes_allotment *given,
    const struct columns *columns)
{
    struct totals totals = {0};
    struct optes_codes admitted = {0};
    struct optes_held h;
    if (optes_book_codes(book, &admitted) != OPTES_OK)
        return totals;
    for (size_t k = 0; k < admitted.count; k++)
        if (optes_book_held(book, admitted.codes[k], &h) == OPTES_OK)
            add_code(&totals, &h, admitted.codes[k], k, given->awards + OPTES_BOOK_CODE_PLACES * k, columns);
    return totals;
}

static void show_table(const struct optes_book *book, const struct optes_allotment *given,
    const struct totals *totals, const struct columns *columns)
{
    const int width = columns->width;
    puts("    awards in euro");
    printf("        %-11s  %9s  %*s  %*s", "code  place", "rate in %", width, "bid", width, "award");
    if (columns->limit_width > 0)
        printf("  %*s", columns->limit_width, "limit");
    putchar('\n');
    add_codes(book, given, columns);
    show_row("total", "", totals->bids, totals->awards, width);
    putchar('\n');
}

void show_awards(const struct optes_book *book, const struct optes_allotment *given)
{
    const struct columns none = {0};
    struct totals totals = add_codes(book, given, &none);
    const struct columns columns = columns_of(book, totals.bids);
    if (totals.places == 0)
        puts("    there are no bids");
    else
        show_table(book, given, &totals, &columns);
    if (given->has_marginal)
        printf("    marginal rate %s %%\n", percent(given->marginal).text);
    else
        printf("    no marginal rate: the bids within the limit rate%s do not reach the amount offered\n",
            columns.limit_width > 0 ? " and the credit limits" : "");
}
