#include "write.h"

#include <string.h>

#include "check.h"
#include "pattern.h"

static const struct given short_form = {5, 0, {"", 0}};

struct writing writing_of(size_t index)
{
    struct writing w = {
        .sender = index & 1 ? (struct given){14, 12345, TEXT("AB")} : short_form,
        .recipient = index & 2 ? (struct given){14, 70, TEXT("\x00\xff")} : short_form,
        .type = TEXT("6G1"),
        .identifier = TEXT("T/2012/0001"),
        .name = TEXT("CONTACT \x00 \xff end"),
        .space = mixture(index).length,
    };
    for (size_t k = 0; k < NUMBERS; k++)
        w.numbers[k] = numbers[k].value;
    return w;
}

const uint8_t *lend(const struct guarded *g, struct text t)
{
    return guarded_copy(g, t.bytes, t.length);
}

void expect_kept(const uint8_t *bytes, struct text t)
{
    CHECK(memcmp(bytes, t.bytes, t.length) == 0);
}

void expect_refused(write_call *call, const struct buffers *b, const struct writing *w, uint32_t number)
{
    uint8_t *space = guarded_bytes(&b->space, w->space);
    pattern_put(space, w->space);
    CHECK(call(b, w, space) == number);
    pattern_expect(space, 0, w->space);
}

void expect_written(write_call *call, const struct buffers *b, const struct writing *w, const void *bytes,
    size_t length)
{
    uint8_t *space = guarded_bytes(&b->space, w->space);
    pattern_put(space, w->space);
    CHECK(call(b, w, space) == 0);
    CHECK(memcmp(space, bytes, length) == 0);
    pattern_expect(space, length, w->space);
}
