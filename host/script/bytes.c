#include "bytes.h"

#include <stdio.h>
#include <stdlib.h>
#include <string.h>

#include "program.h"

#define FIRST_ROOM 64

static _Noreturn void no_memory(void)
{
    fprintf(stderr, "%s: no memory\n", program);
    exit(2);
}

void *grown(void *elements, size_t count, size_t *room, size_t size)
{
    if (count < *room)
        return elements;
    if (*room > SIZE_MAX / size / 2)
        no_memory();
    *room = *room == 0 ? FIRST_ROOM : *room * 2;
    void *more = realloc(elements, *room * size);
    if (more == NULL)
        no_memory();
    return more;
}

void bytes_add(struct bytes *b, const void *from, size_t n)
{
    if (n > SIZE_MAX / 2 - b->length)
        no_memory();
    while (b->room - b->length < n)
        b->at = grown(b->at, b->room, &b->room, 1);
    if (n > 0)
        memcpy(b->at + b->length, from, n);
    b->length += n;
}

void bytes_add_one(struct bytes *b, uint8_t byte)
{
    bytes_add(b, &byte, 1);
}

void bytes_add_name(struct bytes *names, const char *name)
{
    bytes_add(names, ", ", names->length == 0 ? 0 : 2);
    bytes_add(names, name, strlen(name));
}

void bytes_free(struct bytes *b)
{
    free(b->at);
    *b = (struct bytes){0};
}
