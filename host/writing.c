// Which applications are written, and what a refused write leaves.
#include <string.h>

#include "cases.h"
#include "optes.h"
#include "write.h"

// The writing that gives the message.
static struct writing valid(void)
{
    return writing_of(0);
}

// The call, with each text and the space against its guard.
static uint32_t call(const struct buffers *b, const struct writing *w, uint8_t *space)
{
    const uint64_t *n = w->numbers;
    const uint8_t *type = lend(&b->type, w->type);
    const uint8_t *identifier = lend(&b->identifier, w->identifier);
    const uint8_t *name = lend(&b->name, w->name);
    uint32_t answer = optes_6g1_write(
        n[0], n[1], n[2], n[3], n[4], n[5],
        n[6], n[7], n[8], n[9], n[10], n[11], n[12], n[13], n[14], n[15],
        n[16], n[17], n[18], n[19], n[20], n[21], n[22], n[23], n[24], n[25],
        type, w->type.length, identifier, w->identifier.length, name, w->name.length,
        space, w->space);
    expect_kept(type, w->type);
    expect_kept(identifier, w->identifier);
    expect_kept(name, w->name);
    return answer;
}

static void refused(const struct buffers *b, const struct writing *w, uint32_t number)
{
    expect_refused(call, b, w, number);
}

// The write gives these bytes of a message.
static void written(const struct buffers *b, const struct writing *w, const char *expected)
{
    expect_written(call, b, w, expected, MESSAGE_BYTES);
}

// The least number that has more digits than this.
static uint64_t power_of_ten(size_t digits)
{
    uint64_t n = 1;
    for (size_t i = 0; i < digits; i++)
        n *= 10;
    return n;
}

// Number k at its widest and at its least, which are nines and zeros.
static void number_written(const struct buffers *b, size_t k)
{
    struct writing w = valid();
    char expected[MESSAGE_BYTES];
    memcpy(expected, message, MESSAGE_BYTES);
    w.numbers[k] = power_of_ten(numbers[k].digits) - 1;
    memset(expected + numbers[k].start, '9', numbers[k].digits);
    written(b, &w, expected);
    w.numbers[k] = 0;
    memset(expected + numbers[k].start, '0', numbers[k].digits);
    written(b, &w, expected);
}

// Number k one wider, and at the widest that 64 bits hold: 17.
static void number_refused(const struct buffers *b, size_t k)
{
    struct writing w = valid();
    w.numbers[k] = power_of_ten(numbers[k].digits);
    refused(b, &w, 17);
    w.numbers[k] = UINT64_MAX;
    refused(b, &w, 17);
}

static void each_number(const struct buffers *b)
{
    for (size_t k = 0; k < NUMBERS; k++) {
        number_written(b, k);
        number_refused(b, k);
    }
}

// Rates around 32 bits, one of which has the first bid's rate in its low 32 bits: 17.
static void wide_rates(const struct buffers *b)
{
    const uint64_t two32 = 4294967296;
    const uint64_t wide[] = {two32 - 1, two32, two32 + 150000, two32 * 2, UINT64_MAX - 1, UINT64_MAX};
    for (size_t k = 0; k < PLACES; k++) {
        for (size_t i = 0; i < sizeof wide / sizeof wide[0]; i++) {
            struct writing w = valid();
            w.numbers[DIGIT_FIELDS + k] = wide[i];
            refused(b, &w, 17);
        }
    }
}

static void with_type(const struct buffers *b, struct text type)
{
    struct writing w = valid();
    w.type = type;
    refused(b, &w, 17);
}

static void with_identifier(const struct buffers *b, struct text identifier)
{
    struct writing w = valid();
    w.identifier = identifier;
    refused(b, &w, 17);
}

static void with_name(const struct buffers *b, struct text name)
{
    struct writing w = valid();
    w.name = name;
    refused(b, &w, 17);
}

// Each text empty, one short and one long: 17.
static void texts(const struct buffers *b)
{
    with_type(b, TEXT(""));
    with_type(b, TEXT("6G"));
    with_type(b, TEXT("6G1 "));
    with_identifier(b, TEXT(""));
    with_identifier(b, TEXT("T/2012/001"));
    with_identifier(b, TEXT("T/2012/00001"));
    with_name(b, TEXT(""));
    with_name(b, TEXT("CONTACT \x00 \xff en"));
    with_name(b, TEXT("CONTACT \x00 \xff end "));
}

// Identifiers of the right length that are not T/yyyy/nnnn: 17.
static void malformed_identifiers(const struct buffers *b)
{
    with_identifier(b, TEXT("t/2012/0001"));
    with_identifier(b, TEXT("T-2012/0001"));
    with_identifier(b, TEXT("T/ 012/0001"));
    with_identifier(b, TEXT("T/2012 0001"));
    with_identifier(b, TEXT("T/2012/000:"));
    with_identifier(b, TEXT("00000000000"));
    for (size_t i = 0; i < 11; i++) {
        for (size_t j = 0; j < NO_DIGITS; j++) {
            char identifier[] = "T/2012/0001";
            if (identifier[i] == '/' && no_digits[j] == '/')
                continue;
            identifier[i] = (char)no_digits[j];
            with_identifier(b, (struct text){identifier, 11});
        }
    }
}

// Other texts that are written: any three bytes for a type, any digits in an identifier, any bytes
// for a name.
static void other_texts(const struct buffers *b)
{
    char expected[MESSAGE_BYTES];
    memcpy(expected, message, MESSAGE_BYTES);
    struct writing w = valid();
    w.type = TEXT("\x00\xff ");
    memcpy(expected + 3, "\x00\xff ", 3);
    written(b, &w, expected);
    w.identifier = TEXT("T/0000/9999");
    memcpy(expected + 67, "T/0000/9999", 11);
    written(b, &w, expected);
    w.name = TEXT("\xff/9:\x00\x01 \x7f\x00\x0f" "6G1\n\xff");
    memcpy(expected + 324, "\xff/9:\x00\x01 \x7f\x00\x0f" "6G1\n\xff", 15);
    written(b, &w, expected);
}

// Every length of the space from 0 to 400: 18 below 339.
static void spaces(const struct buffers *b)
{
    for (size_t n = 0; n <= 400; n++) {
        struct writing w = valid();
        w.space = n;
        if (n < 339)
            refused(b, &w, 18);
        else
            written(b, &w, message);
    }
}

// What does not fit, into a space that is too short: 17, which comes before 18.
static void first_refusal(const struct buffers *b)
{
    const size_t space[] = {0, 338, 340};
    for (size_t i = 0; i < sizeof space / sizeof space[0]; i++) {
        struct writing type = valid(), identifier = valid(), name = valid(), amount = valid();
        type.type = TEXT("6G");
        identifier.identifier = TEXT("t/2012/0001");
        name.name = TEXT("");
        amount.numbers[NUMBERS - 1] = 1000000000000000;
        type.space = identifier.space = name.space = amount.space = space[i];
        refused(b, &type, 17);
        refused(b, &identifier, 17);
        refused(b, &name, 17);
        refused(b, &amount, 17);
    }
}

void writing_cases(const struct buffers *b)
{
    struct writing w = valid();
    written(b, &w, message);
    each_number(b);
    wide_rates(b);
    texts(b);
    malformed_identifiers(b);
    other_texts(b);
    spaces(b);
    first_refusal(b);
}
