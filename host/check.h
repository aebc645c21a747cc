// A check that stops the program where it fails, and the number of those that passed.
#ifndef HOST_CHECK_H
#define HOST_CHECK_H

#include <stdio.h>
#include <stdlib.h>

extern unsigned long checks;

#define CHECK(expression)                                                                  \
    do {                                                                                   \
        if (!(expression)) {                                                               \
            fprintf(stderr, "%s:%d: does not hold: %s\n", __FILE__, __LINE__, #expression); \
            exit(1);                                                                       \
        }                                                                                  \
        checks++;                                                                          \
    } while (0)

#endif
