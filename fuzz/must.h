/* A demand on an answer: if it is not met the harness ends, and afl-fuzz keeps the input. */
#ifndef MUST_H
#define MUST_H

#include <stdio.h>
#include <stdlib.h>

#define MUST(demand)                                                          \
    do {                                                                      \
        if (!(demand)) {                                                      \
            fprintf(stderr, "%s:%d: not so: %s\n", __FILE__, __LINE__,        \
                    #demand);                                                 \
            abort();                                                          \
        }                                                                     \
    } while (0)

#endif
