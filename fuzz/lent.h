/*
 * Memory that is lent to a call. No page before it and none behind it can be
 * read: a slice lies at one end or at the other. What it holds before the call is
 * known, and so are the bytes beside it, so a touched one is seen.
 */
#ifndef LENT_H
#define LENT_H

#include <stdbool.h>
#include <stddef.h>
#include <stdint.h>

struct lent {
    uint8_t *low, *high; /* all that can be read */
    uint8_t *old;        /* what it holds at first */
    uint8_t *start;      /* the slice */
    size_t bytes;
};

/* So many bytes at most, once for each slice of a harness. */
struct lent lent_new(size_t most);

/* A slice of so many bytes at the front or at the end, filled. */
void lend(struct lent *lent, size_t bytes, bool at_end);

/* The same with these bytes, which the call may only read. */
void lend_filled(struct lent *lent, const void *from, size_t bytes,
                 bool at_end);

/* Whether all is as it was, but for the first `written` bytes of the slice. */
bool untouched(const struct lent *lent, size_t written);

/* Whether a slice that was lent filled still has these bytes. */
bool unchanged(const struct lent *lent, const void *from);

#define WORDS(lent) ((uint64_t *)(void *)(lent).start)
#define FLOATS(lent) ((double *)(void *)(lent).start)

#endif
