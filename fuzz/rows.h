/*
 * The slices that a listing writes its rows into, what they must hold after it,
 * and the rows that single pair calls give for the same paths.
 */
#ifndef ROWS_H
#define ROWS_H

#include "faults.h"
#include "lent.h"
#include "take.h"

/* More rows than the code holds back in its buffer. */
#define MOST_ROWS 2600

/* What is listed: one path, or two. */
struct listed {
    struct path paths[2];
    size_t count;
    bool large;
    double epsilon;
};

struct rows {
    struct lent indices, points, counts;
    size_t indices_room, points_room, counts_room, counts_needed;
};

void rows_begin(struct rows *rows);

/* Takes the flags, epsilon and the paths from the input, and lends the paths. */
struct listed take_listed(struct input *in, size_t count, size_t vertices);

/* Whether the lent paths are as they were. */
bool paths_unchanged(const struct listed *listed);

/* Takes the rooms from the input. */
void take_rows(struct rows *rows, struct input *in, size_t counts_needed);

/* Enough room for every listing here. */
void all_rows(struct rows *rows, size_t counts_needed);

/* How many rows there is room for. */
size_t row_room(const struct rows *rows, bool large);

/* Nothing was written. */
void must_be_untouched(const struct rows *rows);

/*
 * The counts are in range, the rows rise, each is a pair of the paths with a class
 * and finite points, and nothing else was written. Answers how many rows.
 */
size_t must_be_rows(const struct rows *rows, const struct listed *listed);

/* How many pairs there are, those that are skipped too. */
uint64_t all_pairs(const struct listed *listed);

/* The rows are those that the pair calls give; for small paths. */
void must_be_pairs(const struct rows *rows, const struct listed *listed,
                   size_t count);

/* Words of a row. */
#define WIDTH(listed) ((listed)->large ? 5u : 3u)

#endif
