/*
 * The first fault of paths, as include/vonjekona.h says it in words: what a call
 * must return, or 0 if nothing is at fault before position, room and the like.
 */
#ifndef FAULTS_H
#define FAULTS_H

#include <stdbool.h>
#include <stddef.h>
#include <stdint.h>

struct path {
    const double *numbers;
    size_t len;
    bool closed;
};

uint64_t refused(uint64_t number, uint64_t item, uint64_t owner,
                 uint64_t index);

uint64_t epsilon_fault(double epsilon);

/* Of each path its length; then of each its numbers and its arcs. */
uint64_t path_faults(const struct path *paths, size_t count, bool large);

/* How many segments it has: of a cut path, if large arcs are cut. */
size_t segments(const struct path *path, bool large);

/* Whether segment i is a large arc. */
bool is_cut(const struct path *path, size_t i);

#endif
