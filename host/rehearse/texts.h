// Refusals, states and fields in words; the texts of errors are those of the library's header.
#ifndef REHEARSE_TEXTS_H
#define REHEARSE_TEXTS_H

#include <stdbool.h>
#include <stdint.h>

const char *refusal_text(uint64_t number);
const char *state_text(uint64_t state);

// The field that an error is about, as it stands before the code in a reply.
const char *error_field(uint64_t code);

// The name of a field by its tag, in a message that is returned or in a confirmation.
const char *field_name(uint8_t tag, bool returned);

#endif
