/*
 * A panel's cycle: where do two cutting paths meet? A panel has a few
 * milliseconds a cycle, so each cycle asks for one page: a budget of pairs, and
 * room for a few rows. The next cycle starts at the position that this one
 * answered. From the repository's root:
 *
 *   tools/make capi
 *   cc -std=c11 -Wall -Wextra -Werror -Iinclude examples/panel.c \
 *      target/staticlib/libcapi.a -o panel && ./panel
 */
#include <inttypes.h>
#include <stdio.h>

#include "vonjekona.h"

#define COUNT(a) (sizeof(a) / sizeof(a)[0])

/* At most so many pairs a cycle, and room for so many rows. */
#define BUDGET 8
#define ROWS 2
#define EPSILON (1.0 / 1024.0)

/*
 * x, y, and the bulge and the trace of the segment that starts there, for each
 * vertex. The traces are 0: no pair is skipped for them.
 */

/* A track of lines, wound inwards: 7 segments, open. */
static const double track[] = {
    0, 0, 0, 0,  8, 0, 0, 0,  8, 6, 0, 0,  1, 6, 0, 0,
    1, 1, 0, 0,  7, 1, 0, 0,  7, 5, 0, 0,  2, 5, 0, 0,
};

/* A slot across it, one end of which is a half circle: 4 segments, closed. */
static const double slot[] = {
    4, -1, 0, 0,  5, -1, 0, 0,  5, 6.5, -1, 0,  4, 6.5, 0, 0,
};

/* The same with a coordinate beyond the limit. */
static const double bad_slot[] = {
    4, -1, 0, 0,  5, -1, 0, 0,  5, 2000000, -1, 0,  4, 6.5, 0, 0,
};

static void show(const uint64_t *index, const double *point)
{
    static const char *const classes[] = {
        "none", "tangent", "one", "two", "lines", "arcs",
    };
    uint64_t row_class = index[2];

    printf("  segments %" PRIu64 " and %" PRIu64 ", %s: (%g, %g)", index[0],
           index[1], classes[row_class], point[0], point[1]);
    /* only these classes have a second point */
    if (row_class >= 3)
        printf(" and (%g, %g)", point[2], point[3]);
    printf("\n");
}

/* All cycles of a listing of the track with a slot of so many numbers. */
static void list(const double *second, size_t second_len)
{
    uint64_t indices[3 * ROWS], counts[4];
    double points[4 * ROWS];
    uint64_t position = 0, row;
    int cycle = 0;

    do {
        uint64_t answer = vj_mutual_page(
            track, COUNT(track), false, second, second_len, true, EPSILON,
            position, BUDGET, indices, COUNT(indices), points, COUNT(points),
            counts, COUNT(counts));
        /* nothing was written; VJ_NO_ROOM cannot be, counts has its places */
        if (answer != 0) {
            printf("refused %" PRIu64 "\n", VJ_NUMBER(answer));
            return;
        }
        cycle++;
        printf("cycle %d, pairs passed: %" PRIu64 "\n", cycle, counts[1]);
        for (row = 0; row < counts[0]; row++)
            show(indices + 3 * row, points + 4 * row);
        position = counts[2];
    } while (position < counts[3]);
    printf("%d cycles, %" PRIu64 " pairs\n", cycle, position);
}

int main(void)
{
    list(slot, COUNT(slot));
    list(bad_slot, COUNT(bad_slot));
    return 0;
}
