// The reply to a message: its fields by name, and the errors in words.
#ifndef REHEARSE_REPLY_H
#define REHEARSE_REPLY_H

#include "optes_book.h"

void show_reply(const uint8_t *reply, const struct optes_answer *answer);

#endif
