// Which addresses are written, into how much space, and what a refused write leaves.
#include "cases.h"
#include "optes.h"
#include "write.h"

// The texts of a write, each against its guard.
struct lent {
    const uint8_t *sender;
    const uint8_t *recipient;
    const uint8_t *type;
    const uint8_t *identifier;
    const uint8_t *name;
};

static uint32_t call(const struct buffers *b, const struct writing *w, uint8_t *space)
{
    const uint64_t *n = w->numbers;
    const struct lent t = {lend(&b->sender_text, w->sender.text), lend(&b->recipient_text, w->recipient.text),
        lend(&b->type, w->type), lend(&b->identifier, w->identifier), lend(&b->name, w->name)};
    uint32_t answer = optes_6g1_write_addresses(
        n[0], w->sender.length, w->sender.branch, n[1], w->recipient.length, w->recipient.branch,
        n[2], n[3], n[4], n[5],
        n[6], n[7], n[8], n[9], n[10], n[11], n[12], n[13], n[14], n[15],
        n[16], n[17], n[18], n[19], n[20], n[21], n[22], n[23], n[24], n[25],
        t.sender, w->sender.text.length, t.recipient, w->recipient.text.length,
        t.type, w->type.length, t.identifier, w->identifier.length, t.name, w->name.length,
        space, w->space);
    expect_kept(t.sender, w->sender.text);
    expect_kept(t.recipient, w->recipient.text);
    expect_kept(t.type, w->type);
    expect_kept(t.identifier, w->identifier);
    expect_kept(t.name, w->name);
    return answer;
}

static void refused(const struct buffers *b, const struct writing *w, uint32_t number)
{
    expect_refused(call, b, w, number);
}

// The write gives the message with these addresses.
static void written(const struct buffers *b, const struct writing *w, const struct addressed *a)
{
    expect_written(call, b, w, a->bytes, a->length);
}

// What does not fit is 17 with enough space and with too little, none too.
static void unfit(const struct buffers *b, struct writing w)
{
    refused(b, &w, 17);
    w.space--;
    refused(b, &w, 17);
    w.space = 0;
    refused(b, &w, 17);
}

// What does not fit a long address, 17, is not looked at for a short one.
static void unfit_if_long(const struct buffers *b, const struct writing *w, const struct addressed *a, size_t is_long)
{
    if (is_long)
        unfit(b, *w);
    else
        written(b, w, a);
}

// This branch and this text, of which one does not fit, with either address of each mixture.
static void unfit_given(const struct buffers *b, uint64_t branch, struct text text)
{
    for (size_t k = 0; k < MIXTURES; k++) {
        const struct addressed a = mixture(k);
        struct writing sender = writing_of(k), recipient = writing_of(k);
        sender.sender.branch = recipient.recipient.branch = branch;
        sender.sender.text = recipient.recipient.text = text;
        unfit_if_long(b, &sender, &a, k & 1);
        unfit_if_long(b, &recipient, &a, k & 2);
    }
}

// Each mixture into every space from 0 to 400: 18 below its length, 338, 347 and 356 too.
static void spaces(const struct buffers *b)
{
    for (size_t k = 0; k < MIXTURES; k++) {
        const struct addressed a = mixture(k);
        struct writing w = writing_of(k);
        for (w.space = 0; w.space <= 400; w.space++) {
            if (w.space < a.length)
                refused(b, &w, 18);
            else
                written(b, &w, &a);
        }
    }
}

// Lengths that no address has, also where their low bits are one that it has.
static void lengths(const struct buffers *b)
{
    const uint64_t wide = UINT64_C(4294967296);
    const uint64_t others[] = {0, 1, 4, 6, 9, 13, 15, 19, 28, 255, 256 + 5, 256 + 14, 65536 + 14, wide + 5,
        wide + 14, UINT64_MAX - 4, UINT64_MAX};
    for (size_t k = 0; k < MIXTURES; k++) {
        for (size_t i = 0; i < sizeof others / sizeof *others; i++) {
            struct writing sender = writing_of(k), recipient = writing_of(k);
            sender.sender.length = others[i];
            recipient.recipient.length = others[i];
            unfit(b, sender);
            unfit(b, recipient);
        }
    }
}

// Branches of more than five digits.
static void wide_branches(const struct buffers *b)
{
    const uint64_t wide = UINT64_C(4294967296);
    const uint64_t others[] = {100000, 999999, wide, wide + 12345, UINT64_MAX};
    for (size_t i = 0; i < sizeof others / sizeof *others; i++)
        unfit_given(b, others[i], TEXT("AB"));
}

// Texts that are not of two bytes.
static void other_texts(const struct buffers *b)
{
    const struct text others[] = {TEXT(""), TEXT("A"), TEXT("ABC"), TEXT("14 characters.")};
    for (size_t i = 0; i < sizeof others / sizeof *others; i++)
        unfit_given(b, 12345, others[i]);
}

// Addresses with other numbers and texts, of any two bytes.
static void other_addresses(const struct buffers *b)
{
    static const struct {
        struct address address;
        struct text text;
    } others[] = {
        {{"00000/00000/\x00\x00", 14, 1, 0, 0}, {"\x00\x00", 2}},
        {{"99999/99999///", 14, 1, 99999, 99999}, {"//", 2}},
        {{"00001/10000/\xff\x80", 14, 1, 1, 10000}, {"\xff\x80", 2}},
    };
    for (size_t k = 0; k < sizeof others / sizeof *others; k++) {
        const struct address *address = &others[k].address;
        const struct addressed sent = addressed(address, &long_recipient), taken = addressed(&short_sender, address);
        struct writing sender = writing_of(3), recipient = writing_of(2);
        sender.numbers[0] = recipient.numbers[1] = address->code;
        sender.sender = recipient.recipient = (struct given){14, address->branch, others[k].text};
        written(b, &sender, &sent);
        written(b, &recipient, &taken);
    }
}

// Each number one too wide, the codes too, in every mixture: 17.
static void wide_numbers(const struct buffers *b)
{
    for (size_t k = 0; k < MIXTURES; k++) {
        for (size_t i = 0; i < NUMBERS; i++) {
            struct writing w = writing_of(k);
            w.numbers[i] = 1;
            for (size_t digit = 0; digit < numbers[i].digits; digit++)
                w.numbers[i] *= 10;
            unfit(b, w);
            w.numbers[i] = UINT64_MAX;
            unfit(b, w);
        }
    }
}

// The other texts one short, and a malformed identifier, in every mixture: 17.
static void unfit_texts(const struct buffers *b)
{
    for (size_t k = 0; k < MIXTURES; k++) {
        struct writing type = writing_of(k), identifier = writing_of(k), malformed = writing_of(k);
        struct writing name = writing_of(k);
        type.type.length--;
        identifier.identifier.length--;
        name.name.length--;
        malformed.identifier = TEXT("T/2012-0001");
        unfit(b, type);
        unfit(b, identifier);
        unfit(b, name);
        unfit(b, malformed);
    }
}

void long_writing_cases(const struct buffers *b)
{
    spaces(b);
    lengths(b);
    wide_branches(b);
    other_texts(b);
    other_addresses(b);
    wide_numbers(b);
    unfit_texts(b);
}
