/*
 * What a run reached, for afl-fuzz, without an instrumented compiler: see
 * cover.c. A harness calls cover_start() once and cover_next() before each
 * input; a program gets the same by a preloaded library.
 */
#ifndef COVER_H
#define COVER_H

#include <stdbool.h>

/*
 * Speaks to afl-fuzz, if it is there. In the child of the fork server this
 * returns; without afl-fuzz it returns at once and nothing is watched. A child
 * of a harness may run up to `inputs` inputs, one of a program runs one.
 */
void cover_start(unsigned inputs);

/*
 * Whether there is another input on standard input: true for the first one. It
 * sets all traps that are still wanted.
 */
bool cover_next(void);

#endif
