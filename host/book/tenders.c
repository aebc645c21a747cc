// Two threads with a tender each, and one that both preview, at the same time, held to what each does alone.
// tenders [ROUNDS] takes each thread through so many tenders. Barriers are not in C11 itself.
#define _DEFAULT_SOURCE
#include <pthread.h>
#include <string.h>

#include "check.h"
#include "messages.h"
#include "optes_book.h"

#define THREADS 2
#define RECEPTIONS 200

// The rounds of one thread: its numbers start from the seed, and the sum is over all that the calls gave.
struct work {
    uint64_t seed;
    uint64_t rounds;
    uint64_t sum;
    uint64_t confirmed;
    uint64_t returned;
    uint64_t wrong;
};

unsigned long checks = 0;
static pthread_barrier_t start;
static struct optes_book common; // The tender that both preview, which nobody writes then.

// A number below the limit, another one at each call.
static uint64_t next(uint64_t *seed, uint64_t limit)
{
    *seed = *seed * UINT64_C(6364136223846793005) + UINT64_C(1442695040888963407);
    return (*seed >> 13) % limit;
}

static void add(struct work *w, const void *from, size_t n)
{
    const uint8_t *bytes = from;
    for (size_t i = 0; i < n; i++)
        w->sum = (w->sum ^ bytes[i]) * UINT64_C(1099511628211);
}

// Up to three bids of one of seventy codes, of which 64 are admitted; one half of them from a branch.
static size_t some_application(uint8_t *m, uint64_t *seed)
{
    struct bid bids[3];
    uint8_t brief[APPLICATION_BYTES];
    char sender[] = "...../12345/AB";
    size_t count = next(seed, 4);
    for (size_t k = 0; k < count; k++)
        bids[k] = (struct bid){1000 * (95 + next(seed, 10)), 5000 * (2 + next(seed, 20))};
    uint64_t code = 90001 + next(seed, 70);
    application_of(brief, code, 100000 + next(seed, 60), bids, count);
    memcpy(sender, brief + P_SENDER, 5);
    return with_addresses(m, brief, sizeof brief, (struct address){sender, next(seed, 2) ? 14 : 5}, ADDRESS("01000"));
}

static void receive(struct work *w, uint64_t *seed, struct optes_book *b)
{
    uint8_t m[APPLICATION_MOST], space[OPTES_REPLY_BYTES] = {0};
    struct optes_answer answer = {0};
    size_t n = some_application(m, seed);
    w->wrong += optes_book_receive(b, m, n, 12032012, 103000, space, sizeof space, &answer) != 0;
    w->confirmed += answer.errors == 0;
    w->returned += answer.errors > 0;
    add(w, space, sizeof space);
    add(w, &answer, sizeof answer);
}

static struct optes_allotment preview(struct work *w, const struct optes_book *b)
{
    struct optes_allotment a = {0};
    w->wrong += optes_book_preview(b, &a) != 0;
    add(w, &a, sizeof a);
    return a;
}

// A tender with many receptions, in which every other code is capped, previewed between them.
static void fill(struct work *w, uint64_t *seed, struct optes_book *b)
{
    uint32_t codes[OPTES_BOOK_CODES];
    uint64_t limits[OPTES_BOOK_CODES];
    for (uint32_t k = 0; k < OPTES_BOOK_CODES; k++) {
        codes[k] = 90001 + k;
        limits[k] = k % 2 == 0 ? 0 : 1 + next(seed, 100000);
    }
    w->wrong += optes_book_open_limits(b, (const uint8_t *)announcement, ANNOUNCEMENT_BYTES, codes,
        OPTES_BOOK_CODES, limits, OPTES_BOOK_CODES) != 0;
    for (int k = 0; k < RECEPTIONS; k++) {
        receive(w, seed, b);
        if (k % 4 == 0)
            preview(w, b);
    }
}

// A tender from its announcement to its awards, which are those of its preview.
static void tender(struct work *w, uint64_t *seed)
{
    struct optes_book b = {{0}};
    struct optes_allotment a = {0};
    fill(w, seed, &b);
    preview(w, &common);
    const struct optes_allotment shown = preview(w, &b);
    w->wrong += optes_book_close(&b, 12032012, 110001) != 0;
    w->wrong += optes_book_allot(&b, &a) != 0;
    w->wrong += optes_book_state(&b) != OPTES_STATE_ANNOUNCED;
    w->wrong += memcmp(&shown, &a, sizeof a) != 0;
    add(w, &b, sizeof b);
    add(w, &a, sizeof a);
}

static void run(struct work *w)
{
    uint64_t seed = w->seed;
    for (uint64_t i = 0; i < w->rounds; i++)
        tender(w, &seed);
}

static void *run_together(void *w)
{
    pthread_barrier_wait(&start);
    run(w);
    return NULL;
}

int main(int count, char **words)
{
    struct work alone[THREADS], together[THREADS], filling = {.seed = THREADS};
    pthread_t threads[THREADS];
    fill(&filling, &filling.seed, &common);
    CHECK(filling.wrong == 0);
    for (int k = 0; k < THREADS; k++) {
        alone[k] = (struct work){.seed = k, .rounds = count > 1 ? strtoull(words[1], NULL, 10) : 100};
        together[k] = alone[k];
        run(&alone[k]);
        CHECK(alone[k].wrong == 0 && alone[k].confirmed > 0 && alone[k].returned > 0);
    }
    CHECK(alone[0].sum != alone[1].sum);
    CHECK(pthread_barrier_init(&start, NULL, THREADS) == 0);
    for (int k = 0; k < THREADS; k++)
        CHECK(pthread_create(&threads[k], NULL, run_together, &together[k]) == 0);
    for (int k = 0; k < THREADS; k++) {
        CHECK(pthread_join(threads[k], NULL) == 0);
        CHECK(together[k].wrong == 0 && together[k].confirmed == alone[k].confirmed);
        CHECK(together[k].sum == alone[k].sum);
    }
    printf("tenders: %lu checks passed\n", checks);
    return 0;
}
