#include "application.h"

#include <stddef.h>
#include <string.h>

#include "address.h"
#include "keys.h"
#include "optes.h"

#define AT(member) offsetof(struct optes_application, member)

static const char form[] = "apply DATE TIME CODE REFTIME RATE/AMOUNT .. KEY VALUE ..";

static const struct value sender_value = {"code", ADDRESS_FORM, OPTES_6G1_SENDER_DIGITS};
static const struct value time_value = {"reference time", "REFTIME hhmmss", OPTES_6G1_TIME_DIGITS};
static const struct value rate_value = {"rate", "RATE in hundred-thousandths of a percent",
    OPTES_6G1_RATE_DIGITS};
static const struct value amount_value = {"amount", "AMOUNT in eurocents", OPTES_6G1_AMOUNT_DIGITS};

static const struct key keys[] = {
    {{"recipient", ADDRESS_FORM, OPTES_6G1_RECIPIENT_DIGITS}, TAKES_ADDRESS, AT(recipient)},
    {{"cro", "a number", OPTES_6G1_CRO_DIGITS}, TAKES_DIGITS, AT(cro)},
    {{"date", "ddmmyyyy", OPTES_6G1_DATE_DIGITS}, TAKES_DIGITS, AT(date)},
    {{"check", "a number", OPTES_6G1_CHECK_DIGITS}, TAKES_DIGITS, AT(check)},
    {{"type", "a type such as 6G1", OPTES_6G1_TYPE_BYTES}, TAKES_TEXT, AT(type)},
    {{"identifier", "T/yyyy/nnnn", OPTES_6G1_IDENTIFIER_BYTES}, TAKES_TEXT, AT(identifier)},
    {{"name", "a contact name", OPTES_6G1_NAME_BYTES}, TAKES_PADDED, AT(name)},
};

static void put(const struct line *line, const struct key *key, const struct word *word, void *into)
{
    struct optes_application *a = into;
    uint8_t *place = (uint8_t *)into + key->start;
    if (key->takes == TAKES_ADDRESS) {
        a->recipient = address_of(line, word, &key->value, &a->recipient_address);
    } else if (key->takes == TAKES_DIGITS) {
        uint64_t number = number_of(line, word, &key->value);
        memcpy(place, &number, sizeof number);
    } else if (key->takes == TAKES_PADDED) {
        put_padded(place, line, word, &key->value);
    } else {
        put_text(place, line, word, &key->value);
    }
}

// The worked example's values for what a line does not give.
static struct optes_application worked(void)
{
    struct optes_application a = {.recipient = 1000, .cro = 1, .date = 12032012};
    memcpy(a.type, "6G1", OPTES_6G1_TYPE_BYTES);
    memcpy(a.identifier, "T/2012/0001", OPTES_6G1_IDENTIFIER_BYTES);
    memcpy(a.name, "CONTACT NAME   ", OPTES_6G1_NAME_BYTES);
    return a;
}

static struct optes_place bid_of(const struct line *line, const struct word *word)
{
    const char *slash = memchr(word->text, '/', word->length);
    if (slash == NULL || word->quoted)
        refuse(line, "bid '%s' is not RATE/AMOUNT, such as 150000/60000", shown(word).text);
    size_t left = (size_t)(slash - word->text);
    struct word rate = {word->text, left, false};
    struct word amount = {slash + 1, word->length - left - 1, false};
    return (struct optes_place){
        .rate = number_of(line, &rate, &rate_value),
        .amount = number_of(line, &amount, &amount_value),
    };
}

static bool starts_key(const struct word *word)
{
    return !word->quoted && word->text[0] >= 'a' && word->text[0] <= 'z';
}

// Reads the bids from word from on, and gives the index of the first word after them.
static size_t read_bids(struct optes_application *a, const struct line *line, size_t from)
{
    size_t i = from;
    for (; i < line->count && !starts_key(&line->words[i]); i++) {
        struct optes_place bid = bid_of(line, &line->words[i]);
        if (i - from == OPTES_6G1_PLACES)
            refuse(line, "bid '%s' is one too many: expected at most %d bids", shown(&line->words[i]).text,
                OPTES_6G1_PLACES);
        a->places[i - from] = bid;
    }
    return i;
}

void add_application(struct bytes *to, const struct line *line)
{
    add_clock(to, line, form);
    expect_words(line, 5, form);
    struct optes_application a = worked();
    a.sender = address_of(line, &line->words[3], &sender_value, &a.sender_address);
    a.time = number_of(line, &line->words[4], &time_value);
    size_t next = read_bids(&a, line, 5);
    put_keys(line, next, keys, sizeof keys / sizeof *keys, put, &a);

    uint8_t message[OPTES_6G1_BOTH_LONG_BYTES];
    struct word identifier = {(const char *)a.identifier, sizeof a.identifier, false};
    if (optes_application_write(&a, message, sizeof message) != OPTES_OK)
        refuse(line, "identifier '%s' is not T/yyyy/nnnn", shown(&identifier).text);
    bytes_add(to, message, optes_application_length(&a));
}
