#include "keys.h"

#include <stdint.h>

static _Noreturn void refuse_key(const struct line *line, const struct word *word,
    const struct key *keys, size_t count)
{
    struct bytes names = {0};
    for (size_t k = 0; k < count; k++)
        bytes_add_name(&names, keys[k].value.name);
    refuse(line, "key '%s' is not known; keys of %s are %.*s", shown(word).text, shown(&line->words[0]).text,
        (int)names.length, (const char *)names.at);
}

static size_t key_index(const struct line *line, const struct word *word,
    const struct key *keys, size_t count)
{
    for (size_t k = 0; k < count; k++)
        if (word_is(word, keys[k].value.name))
            return k;
    refuse_key(line, word, keys, count);
}

void put_keys(const struct line *line, size_t from, const struct key *keys, size_t count,
    put_value *put, void *into)
{
    uint32_t given = 0;
    for (size_t i = from; i < line->count; i += 2) {
        const struct word *word = &line->words[i];
        size_t k = key_index(line, word, keys, count);
        if (given & UINT32_C(1) << k)
            refuse(line, "key '%s' stands twice: expected each key once", keys[k].value.name);
        if (i + 1 == line->count)
            refuse(line, "key '%s' has no value: expected %s after it", keys[k].value.name, keys[k].value.form);
        given |= UINT32_C(1) << k;
        put(line, &keys[k], &line->words[i + 1], into);
    }
}
