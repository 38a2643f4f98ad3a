/*
 * Two tracks on a sheet, and a pad. Each segment has a trace, the number of its
 * track. Where two segments of one trace touch, they are joined on purpose, and
 * a listing skips them. Where track 2 runs across what belongs to track 1, there
 * is a row. From the repository's root:
 *
 *   tools/make capi
 *   cc -std=c11 -Wall -Wextra -Werror -Iinclude examples/tracks.c \
 *      target/staticlib/libcapi.a -o tracks && ./tracks
 */
#include <inttypes.h>
#include <math.h>
#include <stdio.h>

#include "vonjekona.h"

#define COUNT(a) (sizeof(a) / sizeof(a)[0])

#define ROWS 8
#define EPSILON (1.0 / 1024.0)

/*
 * x, y, and the bulge and the trace of the segment that starts there, for each
 * vertex.
 */

/*
 * Both tracks, open. Track 1 runs to the centre of the pad. Track 2 runs on
 * from there, around, and by mistake back across the pad and track 1.
 */
static const double tracks[] = {
    0, 2, 0, 1,  4, 2, 0, 2,  10, 2, 0, 2,
    10, 6, 0, 2,  3.4, 6, 0, 2,  3.4, 0, 0, 2,
};

/* The pad's edge, closed: its left half is track 1's, its right half 2's. */
static const double pad[] = { 4, 3, 1, 1,  4, 1, 1, 2 };

/* Track 1 alone, which runs back over itself. */
static const double fold[] = { 0, 0, 0, 1,  10, 0, 0, 1,  5, 0, 0, 1 };

/* The same path with every trace 0. */
static const double *plain(const double *path, size_t len, double *copy)
{
    size_t i;

    for (i = 0; i < len; i++)
        copy[i] = i % 4 == 3 ? 0 : path[i];
    return copy;
}

static uint64_t indices[3 * ROWS], counts[4];
static double points[4 * ROWS];

/* Where the fault is. There are other items; these listings give these two. */
static void show_fault(uint64_t word)
{
    const char *path = VJ_OWNER(word) == 0 ? "first path" : "second path";

    printf("refused %" PRIu64 ": ", VJ_NUMBER(word));
    if (VJ_ITEM(word) == VJ_ITEM_TRACE)
        printf("%s, vertex %" PRIu64 ", trace\n", path, VJ_INDEX(word));
    else if (VJ_ITEM(word) == VJ_ITEM_LENGTH)
        printf("%s, length\n", path);
    else
        printf("item %" PRIu64 "\n", VJ_ITEM(word));
}

static void show_rows(void)
{
    uint64_t row;

    for (row = 0; row < counts[0]; row++) {
        const uint64_t *index = indices + 3 * row;
        const double *point = points + 4 * row;

        printf("  segments %" PRIu64 " and %" PRIu64 ", class %" PRIu64
               ": (%g, %g)",
               index[0], index[1], index[2], point[0], point[1]);
        /* only these classes have a second point */
        if (index[2] >= 3)
            printf(" and (%g, %g)", point[2], point[3]);
        printf("\n");
    }
}

/* What a listing answered, in words. */
static void tell(const char *what, uint64_t answer)
{
    printf("%s: ", what);
    /* nothing was written; VJ_NO_ROOM cannot be, counts has its places */
    if (answer != 0) {
        show_fault(answer);
        return;
    }
    printf("%" PRIu64 " pairs looked at, %" PRIu64 " rows\n", counts[1],
           counts[0]);
    show_rows();
}

/* An open path with the pad. */
static void list(const char *what, const double *first, size_t first_len,
                 const double *second)
{
    tell(what, vj_mutual(first, first_len, false, second, COUNT(pad), true,
                         EPSILON, indices, COUNT(indices), points,
                         COUNT(points), counts, COUNT(counts)));
}

/* An open path by itself. */
static void list_self(const char *what, const double *path, size_t len)
{
    tell(what, vj_self(path, len, false, EPSILON, indices, COUNT(indices),
                       points, COUNT(points), counts, COUNT(counts)));
}

/* A page counts skipped pairs too, in its budget and in its counts. */
static void page(uint64_t budget)
{
    uint64_t answer = vj_mutual_page(tracks, COUNT(tracks), false, pad,
                                     COUNT(pad), true, EPSILON, 0, budget,
                                     indices, COUNT(indices), points,
                                     COUNT(points), counts, COUNT(counts));

    if (answer == 0)
        printf("a page of %" PRIu64 " pairs: %" PRIu64 " of %" PRIu64
               " passed, %" PRIu64 " rows\n",
               budget, counts[1], counts[3], counts[0]);
    else
        show_fault(answer);
}

/* The tracks and the pad, with another trace at vertex 3 of the tracks. */
static void list_with(const char *what, double trace)
{
    double changed[COUNT(tracks)];
    size_t i;

    for (i = 0; i < COUNT(tracks); i++)
        changed[i] = i == 4 * 3 + 3 ? trace : tracks[i];
    list(what, changed, COUNT(changed), pad);
}

int main(void)
{
    /* as it was before there were traces: x, y and bulge of five vertices */
    static const double old[] = {
        0, 2, 0,  4, 2, 0,  10, 2, 0,  10, 6, 0,  2, 6, 0,
    };
    double tracks_plain[COUNT(tracks)], pad_plain[COUNT(pad)];
    double fold_plain[COUNT(fold)];

    list("tracks and pad", tracks, COUNT(tracks), pad);
    list("the same without traces",
         plain(tracks, COUNT(tracks), tracks_plain), COUNT(tracks),
         plain(pad, COUNT(pad), pad_plain));
    page(10);
    list_self("the tracks by themselves", tracks, COUNT(tracks));
    list_self("the same without traces", tracks_plain, COUNT(tracks));

    /* what a trace hides: all of it is one track */
    list_self("a fold of one track", fold, COUNT(fold));
    list_self("the same without traces",
              plain(fold, COUNT(fold), fold_plain), COUNT(fold));

    list_with("a trace of 256", 256);
    list_with("a trace of 1.5", 1.5);
    list_with("a trace that is NaN", NAN);
    list("three numbers a vertex", old, COUNT(old), pad);
    return 0;
}
