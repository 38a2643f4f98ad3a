/*
 * A path by itself: where does it run back over itself? Neighbours always meet,
 * at the vertex that they share, and a row for each would tell nothing. So they
 * make a row only if they overlap, or have a point that is not near such a
 * vertex. From the repository's root:
 *
 *   tools/make capi
 *   cc -std=c11 -Wall -Wextra -Werror -Iinclude examples/fold.c \
 *      target/staticlib/libcapi.a -o fold && ./fold
 */
#include <inttypes.h>
#include <stdio.h>

#include "vonjekona.h"

#define COUNT(a) (sizeof(a) / sizeof(a)[0])

#define ROWS 8
#define EPSILON (1.0 / 1024.0)

/*
 * x, y, and the bulge and the trace of the segment that starts there, for each
 * vertex. The traces are 0: no pair is skipped for them.
 */

/* The second segment runs back over the first. */
static const double fold[] = { 0, 0, 0, 0,  10, 0, 0, 0,  5, 0, 0, 0 };

/* Back by less than epsilon. */
static const double short_fold[] = {
    0, 0, 0, 0,  10, 0, 0, 0,  10 - EPSILON / 2, 0, 0, 0,
};

static const double corner[] = { 0, 0, 0, 0,  10, 0, 0, 0,  10, 5, 0, 0 };

/* Four segments if it is closed. */
static const double square[] = {
    0, 0, 0, 0,  4, 0, 0, 0,  4, 4, 0, 0,  0, 4, 0, 0,
};

/* The same square, drawn open: its last vertex is where its first one is. */
static const double ends_on_start[] = {
    0, 0, 0, 0,  4, 0, 0, 0,  4, 4, 0, 0,  0, 4, 0, 0,  0, 0, 0, 0,
};

/* Two half circles. If it is closed they share both vertices. */
static const double circle[] = { 0, 0, 1, 0,  4, 0, 1, 0 };

/* A half circle, and a line from its end that crosses it again. */
static const double crossed[] = { 0, 0, 1, 0,  2, 0, 0, 0,  0, -1, 0, 0 };

/* A corner with a segment without length in it. */
static const double twice[] = {
    0, 0, 0, 0,  4, 0, 0, 0,  4, 0, 0, 0,  4, 4, 0, 0,
};

static void show(const uint64_t *index, const double *point)
{
    uint64_t row_class = index[2];

    printf("  segments %" PRIu64 " and %" PRIu64 ", class %" PRIu64
           ": (%g, %g)",
           index[0], index[1], row_class, point[0], point[1]);
    /* only these classes have a second point */
    if (row_class >= 3)
        printf(" and (%g, %g)", point[2], point[3]);
    printf("\n");
}

static void list(const char *name, const double *path, size_t len, bool closed)
{
    uint64_t indices[3 * ROWS], counts[2], row;
    double points[4 * ROWS];
    uint64_t answer = vj_self(path, len, closed, EPSILON, indices,
                              COUNT(indices), points, COUNT(points), counts,
                              COUNT(counts));

    /* nothing was written; VJ_NO_ROOM cannot be, counts has its places */
    if (answer != 0) {
        printf("%s: refused %" PRIu64 "\n", name, VJ_NUMBER(answer));
        return;
    }
    printf("%s: %" PRIu64 " pairs looked at, %" PRIu64 " rows\n", name,
           counts[1], counts[0]);
    for (row = 0; row < counts[0]; row++)
        show(indices + 3 * row, points + 4 * row);
}

int main(void)
{
    list("a fold", fold, COUNT(fold), false);
    list("a fold shorter than epsilon", short_fold, COUNT(short_fold), false);
    list("a corner", corner, COUNT(corner), false);
    list("a square", square, COUNT(square), true);
    list("a path that ends on its start", ends_on_start, COUNT(ends_on_start),
         false);
    list("a circle", circle, COUNT(circle), true);
    list("an arc that is crossed again", crossed, COUNT(crossed), false);
    list("a segment without length", twice, COUNT(twice), false);
    return 0;
}
