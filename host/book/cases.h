// The cases, by what they concern. Each runs with the buffers of one guard.
#ifndef HOST_BOOK_CASES_H
#define HOST_BOOK_CASES_H

#include "desk.h"

void opening_cases(const struct desk *d);
void receiving_cases(const struct desk *d);
void error_cases(const struct desk *d);
void branch_cases(const struct desk *d);
void limit_cases(const struct desk *d);
void ending_cases(const struct desk *d);
void preview_cases(const struct desk *d);
void telling_cases(const struct desk *d);
void saving_cases(const struct desk *d);
void struct_cases(const struct desk *d);
void damage_cases(const struct desk *d);

// The cases without a library, which need no buffers.
void lent_cases(void);

#endif
