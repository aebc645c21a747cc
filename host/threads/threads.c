// Two threads that write and read applications at the same time, held to what each does alone.
// threads [ROUNDS] makes so many rounds in each thread. Barriers are not in C11 itself.
#define _DEFAULT_SOURCE
#include <pthread.h>

#include "check.h"
#include "optes.h"

#define THREADS 2
#define CRO_MOST UINT64_C(99999999999)

// The rounds of one thread: its numbers start from the seed, and the sum is over all that it wrote.
struct work {
    uint64_t seed;
    uint64_t rounds;
    uint64_t sum;
    uint64_t wrong;
};

unsigned long checks = 0;
static pthread_barrier_t start;

// A number below the limit, another one at each call.
static uint64_t next(uint64_t *seed, uint64_t limit)
{
    *seed = *seed * UINT64_C(6364136223846793005) + UINT64_C(1442695040888963407);
    return (*seed >> 13) % limit;
}

// An address of either form.
static struct optes_address address(uint64_t *seed)
{
    struct optes_address a = {0};
    if (next(seed, 2) == 0)
        return a;
    a.is_long = 1;
    a.branch = next(seed, 100000);
    a.text[0] = (uint8_t)next(seed, 256);
    a.text[1] = (uint8_t)next(seed, 256);
    return a;
}

// An application that fits, except that one in eleven has a CRO that is too wide.
static struct optes_application application(uint64_t *seed)
{
    struct optes_application a = {.sender = next(seed, 100000), .recipient = next(seed, 100000),
        .cro = next(seed, CRO_MOST / 10 * 11), .date = next(seed, 100000000),
        .time = next(seed, 1000000), .check = next(seed, 100000)};
    for (int k = 0; k < OPTES_6G1_PLACES; k++) {
        a.places[k].rate = next(seed, 100000000);
        a.places[k].amount = next(seed, UINT64_C(1000000000000000));
    }
    memcpy(a.type, "6G1", sizeof a.type);
    memcpy(a.identifier, "T/2012/0001", sizeof a.identifier);
    memcpy(a.name, "Contact name   ", sizeof a.name);
    a.sender_address = address(seed);
    a.recipient_address = address(seed);
    return a;
}

// Whether an application is refused where it must be, and otherwise is read and written as it was.
static int round_trip(const struct optes_application *a, uint8_t *bytes)
{
    struct optes_application read;
    uint8_t again[OPTES_6G1_BOTH_LONG_BYTES];
    const size_t n = optes_application_length(a);
    uint32_t refusal = optes_application_write(a, bytes, n);
    if (a->cro > CRO_MOST)
        return refusal == OPTES_UNFIT;
    return refusal == OPTES_OK && optes_application_read(&read, bytes, n) == OPTES_OK
        && optes_application_write(&read, again, n) == OPTES_OK && memcmp(bytes, again, n) == 0;
}

static void run(struct work *w)
{
    uint8_t bytes[OPTES_6G1_BOTH_LONG_BYTES] = {0};
    uint64_t seed = w->seed;
    for (uint64_t i = 0; i < w->rounds; i++) {
        struct optes_application a = application(&seed);
        w->wrong += !round_trip(&a, bytes);
        for (size_t j = 0; j < sizeof bytes; j++)
            w->sum = (w->sum ^ bytes[j]) * UINT64_C(1099511628211);
    }
}

static void *run_together(void *w)
{
    pthread_barrier_wait(&start);
    run(w);
    return NULL;
}

int main(int count, char **words)
{
    struct work alone[THREADS], together[THREADS];
    pthread_t threads[THREADS];
    for (int k = 0; k < THREADS; k++) {
        alone[k] = (struct work){.seed = k, .rounds = count > 1 ? strtoull(words[1], NULL, 10) : 200000};
        together[k] = alone[k];
        run(&alone[k]);
        CHECK(alone[k].wrong == 0);
    }
    CHECK(alone[0].sum != alone[1].sum);
    CHECK(pthread_barrier_init(&start, NULL, THREADS) == 0);
    for (int k = 0; k < THREADS; k++)
        CHECK(pthread_create(&threads[k], NULL, run_together, &together[k]) == 0);
    for (int k = 0; k < THREADS; k++) {
        CHECK(pthread_join(threads[k], NULL) == 0);
        CHECK(together[k].wrong == 0);
        CHECK(together[k].sum == alone[k].sum);
    }
    printf("threads: %lu checks passed\n", checks);
    return 0;
}
