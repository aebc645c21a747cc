// What the header lends where a tender is opened without limits, and for a preview. The library refuses too many codes
// before it looks at the limits, and touches no more words and awards than there are, so that it does not tell how
// many it was lent: here other functions stand in its place.
#define optes_words_open lent_open
#define optes_words_preview lent_preview
#include "optes_book.h"
#undef optes_words_open
#undef optes_words_preview

#include "cases.h"
#include "check.h"

#define MOST_LENT 100

static size_t codes_lent, limits_lent;
static struct optes_book book;
static struct optes_allotment allotment;

uint64_t lent_open(uint64_t *words, size_t count, const uint8_t *m, size_t n, const uint32_t *codes,
    size_t admitted, const uint64_t *limits, size_t limited)
{
    CHECK(words != NULL && count == OPTES_BOOK_WORDS && m != NULL && n == 1 && codes != NULL);
    CHECK(limited <= OPTES_BOOK_CODES);
    for (size_t k = 0; k < limited; k++)
        CHECK(limits[k] == 0);
    codes_lent = admitted;
    limits_lent = limited;
    return OPTES_OK;
}

uint64_t lent_preview(const uint64_t *words, size_t count, uint64_t *awards, size_t places, uint64_t *told,
    size_t numbers)
{
    CHECK(words == book.words && count == OPTES_BOOK_WORDS);
    CHECK(awards == allotment.awards && places == OPTES_BOOK_PLACES);
    CHECK(told == &allotment.has_marginal && numbers == OPTES_BOOK_MARGINAL_NUMBERS);
    return OPTES_BIDS_EXCEED;
}

// As many zeros are lent as there are codes, and never more than there are.
static void uncapped(void)
{
    const uint32_t codes[MOST_LENT] = {0};
    const uint8_t message = 0;
    struct optes_book b = {{0}};
    for (size_t n = 0; n <= MOST_LENT; n++) {
        CHECK(optes_book_open(&b, &message, 1, codes, n) == OPTES_OK);
        CHECK(codes_lent == n && limits_lent == (n < OPTES_BOOK_CODES ? n : OPTES_BOOK_CODES));
    }
}

void lent_cases(void)
{
    uncapped();
    CHECK(optes_book_preview(&book, &allotment) == OPTES_BIDS_EXCEED);
}
