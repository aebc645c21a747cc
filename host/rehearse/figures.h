// Amounts in euro, rates in percent, dates and times, as a person writes them.
#ifndef REHEARSE_FIGURES_H
#define REHEARSE_FIGURES_H

#include <stdint.h>

// Room for the longest of them.
#define FIGURE_ROOM 40

struct figure {
    char text[FIGURE_ROOM];
};

// 123456789 is 1,234,567.89.
struct figure euro(uint64_t cents);

// 120000 is 1.20000.
struct figure percent(uint64_t rate);

// 12032012 is 12.03.2012, and 93000 is 09:30:00.
struct figure day(uint64_t date);
struct figure hour(uint64_t time);

#endif
