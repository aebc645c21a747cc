// The sender or the recipient of an application: CODE, or CODE/BRANCH/TEXT such as 90001/12345/AB.
#ifndef SCRIPT_ADDRESS_H
#define SCRIPT_ADDRESS_H

#include "line.h"
#include "optes.h"
#include "values.h"

// How the value of an address is written, as errors give it.
#define ADDRESS_FORM "CODE/BRANCH/TEXT or CODE"

// Gives the code of a word and sets what the address has beside it. The line is refused where the word is no
// address. One of the long form may stand in quotes, since its text may be blanks; a code alone may not.
uint64_t address_of(const struct line *line, const struct word *word, const struct value *value,
    struct optes_address *address);

#endif
