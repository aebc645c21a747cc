// A 6G1 application with its reception, written by the library from numbers and texts.
#ifndef SCRIPT_APPLICATION_H
#define SCRIPT_APPLICATION_H

#include "bytes.h"
#include "line.h"

// Adds the clock and the application of a line `apply DATE TIME CODE REFTIME ..`.
void add_application(struct bytes *to, const struct line *line);

#endif
