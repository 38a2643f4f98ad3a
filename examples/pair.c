/*
 * How do two segments meet? The pair call takes the two vertices of each segment
 * and answers a class, 0 to 5, and its points. From the repository's root:
 *
 *   tools/make capi
 *   cc -std=c11 -Wall -Wextra -Werror -Iinclude examples/pair.c \
 *      target/staticlib/libcapi.a -o pair && ./pair
 */
#include <inttypes.h>
#include <math.h>
#include <stdio.h>

#include "vonjekona.h"

#define EPSILON (1.0 / 1024.0)

/* Where a segment starts and ends, and how far it bends. */
struct segment {
    double x1, y1, bulge, x2, y2;
};

static void meet(const char *what, struct segment v, struct segment u)
{
    static const char *const classes[] = {
        "no crossing", "tangent", "one point", "two points", "lines overlap",
        "arcs overlap",
    };
    double out[4];
    /* the bulges of the two ends have no effect */
    uint64_t answer = vj_pair(v.x1, v.y1, v.bulge, v.x2, v.y2, 0, u.x1, u.y1,
                              u.bulge, u.x2, u.y2, 0, EPSILON, out, 4);

    printf("%s: ", what);
    if (VJ_IS_REFUSED(answer)) {
        /* nothing was written */
        printf("refused %" PRIu64 ", segment %s\n", VJ_NUMBER(answer),
               VJ_OWNER(answer) == 0 ? "v" : "u");
        return;
    }
    printf("%s", classes[answer]);
    if (answer >= 1)
        printf(" (%g, %g)", out[0], out[1]);
    if (answer >= 3)
        printf(" (%g, %g)", out[2], out[3]);
    printf("\n");
}

int main(void)
{
    const struct segment line = { 0, 0, 0, 4, 0 };
    const struct segment upright = { 1, -2, 0, 1, 2 };
    const struct segment above = { 0, 1, 0, 4, 1 };
    const struct segment along = { 3, 0, 0, 6, 0 };
    /* half circles from the left to the right: below the line, and above it */
    const struct segment below = { 0, 0, 1, 4, 0 };
    const struct segment round = { 0, 0, -1, 4, 0 };
    const struct segment top = { -1, 2, 0, 5, 2 };
    const struct segment bad = { 0, 0, 0, NAN, 0 };

    meet("two lines that cross", line, upright);
    meet("two lines side by side", line, above);
    meet("two lines, one along the other", line, along);
    meet("a line and an arc with the same ends", line, below);
    meet("a line on top of an arc", top, round);
    meet("an arc with itself", round, round);
    meet("a line to nowhere", line, bad);
    return 0;
}
