// What a tender tells of itself: its terms, what it holds and its awards.
#ifndef REHEARSE_BOOK_H
#define REHEARSE_BOOK_H

#include "optes_book.h"

void show_terms(const struct optes_book *book);

// What is held for a code.
void show_held(const struct optes_book *book, uint64_t code);

// Every bid of the book with its award, and the marginal rate.
void show_awards(const struct optes_book *book, const struct optes_allotment *given);

#endif
