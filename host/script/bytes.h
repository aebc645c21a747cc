// Bytes that grow at their end.
#ifndef SCRIPT_BYTES_H
#define SCRIPT_BYTES_H

#include <stddef.h>
#include <stdint.h>

// Starts as {0}, without any bytes.
struct bytes {
    uint8_t *at;
    size_t length;
    size_t room;
};

// Adds n bytes at the end, or ends the program where there is no memory for them.
void bytes_add(struct bytes *b, const void *from, size_t n);

// Adds one byte at the end.
void bytes_add_one(struct bytes *b, uint8_t byte);

// Adds a name to a list of them, after a comma where it is not the first.
void bytes_add_name(struct bytes *names, const char *name);

// Gives the memory back and leaves no bytes.
void bytes_free(struct bytes *b);

// Makes room for one element more where count of them fill the room, or ends the program.
void *grown(void *elements, size_t count, size_t *room, size_t size);

#endif
