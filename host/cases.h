// The cases, by what they concern. Each runs with the buffers of one guard.
#ifndef HOST_CASES_H
#define HOST_CASES_H

#include "guarded.h"

void reading_cases(const struct buffers *b);
void number_cases(const struct buffers *b);
void whole_cases(const struct buffers *b);
void writing_cases(const struct buffers *b);
void application_cases(const struct buffers *b);

// The same with addresses of the long form.
void long_reading_cases(const struct buffers *b);
void long_writing_cases(const struct buffers *b);
void long_application_cases(const struct buffers *b);

// The cases that need no buffers.
void text_cases(void);

#endif
