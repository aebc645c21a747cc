// A script: the bytes of a file, taken line by line.
#ifndef SCRIPT_SCRIPT_H
#define SCRIPT_SCRIPT_H

#include "bytes.h"
#include "line.h"

// The name of the file as errors give it, and its bytes.
struct script {
    const char *name;
    struct bytes bytes;
};

// Takes a line that has words.
typedef void take_line(const struct line *line, void *into);

// The script in the file of this name, or in standard input where there is none; or ends the program.
struct script script_read(const char *name);

// Hands over each line that has words, in the order of the script. A byte order mark of UTF-8 at its start is
// passed over, and one of UTF-16 ends the program.
void script_lines(const struct script *script, take_line *take, void *into);

// Ends the program with status 2 and says of what is named here that this is wrong with it.
_Noreturn void script_fail(const char *name, const char *wrong);

#endif
