/*
 * Where do a coil and a pocket meet? This lists the crossings of two paths. If a
 * number is bad it says which one, in words, and the cutter is not released: a
 * check that takes such a number finds no crossing where there was one. From the
 * repository's root:
 *
 *   tools/make capi
 *   cc -std=c11 -Wall -Wextra -Werror -Iinclude examples/listing.c \
 *      target/staticlib/libcapi.a -o listing && ./listing
 */
#include <inttypes.h>
#include <math.h>
#include <stdio.h>

#include "vonjekona.h"

#define COUNT(a) (sizeof(a) / sizeof(a)[0])

#define ROWS 16
#define EPSILON (1.0 / 1024.0)

/* x, y, bulge and trace of each vertex. The coil is wound inwards, open. */
static const double coil[] = {
    0, 0, 0, 0,  8, 0, 0, 0,  8, 6, 0, 0,  1, 6, 0, 0,
    1, 1, 0, 0,  7, 1, 0, 0,  7, 5, 0, 0,  2, 5, 0, 0,
};

/* The pocket is closed. Its last corner reaches into the coil. */
static double pocket[] = {
    10, 1, 0, 0,  12, 3, 0, 0,  10, 5, 0, 0,  6, 3, 0, 0,
};

/* The place of a fault in a path's numbers. */
static void show_place(uint64_t word)
{
    static const char *const owners[] = { "first path", "second path" };

    printf("refused %" PRIu64 ", ", VJ_NUMBER(word));
    switch (VJ_ITEM(word)) {
    case VJ_ITEM_X:
    case VJ_ITEM_Y:
    case VJ_ITEM_BULGE:
    case VJ_ITEM_TRACE:
        printf("%s, vertex %" PRIu64 ", %s\n", owners[VJ_OWNER(word)],
               VJ_INDEX(word),
               VJ_ITEM(word) == VJ_ITEM_X ? "x"
               : VJ_ITEM(word) == VJ_ITEM_Y ? "y"
               : VJ_ITEM(word) == VJ_ITEM_BULGE ? "bulge" : "trace");
        break;
    case VJ_ITEM_CHORD:
        printf("%s, segment %" PRIu64 ", chord\n", owners[VJ_OWNER(word)],
               VJ_INDEX(word));
        break;
    case VJ_ITEM_LENGTH:
        printf("%s, length\n", owners[VJ_OWNER(word)]);
        break;
    default:
        printf("%s\n", VJ_ITEM(word) == VJ_ITEM_ROWS ? "rows" : "epsilon");
    }
}

static void list(const char *what, size_t rows)
{
    uint64_t indices[3 * ROWS], counts[2], row;
    double points[4 * ROWS];
    uint64_t answer = vj_mutual(coil, COUNT(coil), false, pocket,
                                COUNT(pocket), true, EPSILON, indices,
                                3 * rows, points, 4 * rows, counts,
                                COUNT(counts));

    printf("%s: ", what);
    if (answer != 0) {
        show_place(answer);
        return;
    }
    printf("%" PRIu64 " pairs looked at, %" PRIu64 " rows\n", counts[1],
           counts[0]);
    for (row = 0; row < counts[0]; row++)
        printf("  segments %" PRIu64 " and %" PRIu64 ": (%g, %g)\n",
               indices[3 * row], indices[3 * row + 1], points[4 * row],
               points[4 * row + 1]);
}

int main(void)
{
    list("the coil and the pocket", ROWS);
    list("the same, room for one row", 1);
    pocket[12] = NAN;
    list("the corner's x is lost", ROWS);
    pocket[12] = 6;
    pocket[2] = 2;
    list("a bulge of 2", ROWS);
    return 0;
}
