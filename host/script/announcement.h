// A 6G0 announcement: the worked example's, with the values of the keys in its place.
#ifndef SCRIPT_ANNOUNCEMENT_H
#define SCRIPT_ANNOUNCEMENT_H

#include "bytes.h"
#include "line.h"

// Adds the announcement of a line `announce KEY VALUE ..`.
void add_announcement(struct bytes *to, const struct line *line);

#endif
