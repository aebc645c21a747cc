#include "address.h"

#include <string.h>

static const struct value branch_value = {"branch", "BRANCH of CODE/BRANCH/TEXT", 5};
static const struct value text_value = {"text", "TEXT of CODE/BRANCH/TEXT", OPTES_ADDRESS_TEXT_BYTES};

// The part of a word from one of its characters up to another.
static struct word part(const char *from, const char *to)
{
    return (struct word){from, (size_t)(to - from), false};
}

uint64_t address_of(const struct line *line, const struct word *word, const struct value *value,
    struct optes_address *address)
{
    const char *end = word->text + word->length, *first = memchr(word->text, '/', word->length);
    *address = (struct optes_address){0};
    if (first == NULL)
        return number_of(line, word, value);
    const char *second = memchr(first + 1, '/', (size_t)(end - first - 1));
    if (second == NULL)
        refuse(line, "%s '%s' has one slash: expected %s, such as 90001/12345/AB", value->name, shown(word).text,
            value->form);
    struct word left = part(word->text, first), branch = part(first + 1, second), text = part(second + 1, end);
    uint64_t code = number_of(line, &left, value);
    address->is_long = 1;
    address->branch = number_of(line, &branch, &branch_value);
    put_text(address->text, line, &text, &text_value);
    return code;
}
