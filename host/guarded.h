// Buffers that stand directly against a page that may not be touched, so that one byte too far stops
// the program.
#ifndef HOST_GUARDED_H
#define HOST_GUARDED_H

#include <stddef.h>
#include <stdint.h>

// Where the page that may not be touched stands.
enum guard { GUARD_AFTER, GUARD_BEFORE };

// Some pages between two that may not be touched.
struct guarded {
    enum guard guard;
    uint8_t *pages;
    size_t size;
};

// Opens pages for at least n bytes.
void guarded_open(struct guarded *g, enum guard guard, size_t n);
void guarded_close(struct guarded *g);

// The buffers of one run with a 6G1, each on a page of its own.
struct buffers {
    struct guarded message;
    struct guarded sender_text;
    struct guarded recipient_text;
    struct guarded type;
    struct guarded identifier;
    struct guarded name;
    struct guarded space;
    struct guarded application;
};

void buffers_open(struct buffers *b, enum guard guard);
void buffers_close(struct buffers *b);

// n bytes against the guard.
uint8_t *guarded_bytes(const struct guarded *g, size_t n);

// A copy of n bytes against the guard.
uint8_t *guarded_copy(const struct guarded *g, const void *from, size_t n);

// From the first call to the second the pages may be read but not written.
void guarded_read_only(const struct guarded *g);
void guarded_writable(const struct guarded *g);

// 1 where a program that touches the byte beyond the buffer is stopped, else 0.
int guarded_stops(const struct guarded *g);

// 1 where a program that writes the first byte of the pages is stopped, and one that writes the last, else 0.
int guarded_stops_writing(const struct guarded *g);

#endif
