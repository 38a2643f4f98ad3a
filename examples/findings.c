/*
 * Why a point counted: how some pairs of segments meet, and what is told of each
 * computed point for each segment. From the repository's root:
 *
 *   tools/make capi
 *   cc -std=c11 -Wall -Wextra -Werror -Iinclude examples/findings.c \
 *      target/staticlib/libcapi.a -o findings && ./findings
 */
#include <stdio.h>

#include "vonjekona.h"

static const char *const FINDINGS[] = {
    "outside",      "near the centre", "inside",     "near the start",
    "near the end", "end point",       "not tested",
};

static const char *const CLASSES[] = {"apart", "tangent", "one", "two", "lines", "arcs"};

/* the bulge of a quarter circle, clockwise */
#define QUARTER -0.41421356237309503

/* v and u: x, y and bulge of the first vertex, x and y of the second */
struct pair {
    const char *what;
    double v[5];
    double u[5];
    double epsilon;
};

static const struct pair PAIRS[] = {
    {"a line through a half circle", {0, -2, 0, 0, 2}, {-1, 0, 1, 1, 0}, 1e-5},
    {"the half circle first", {-1, 0, 1, 1, 0}, {0, -2, 0, 0, 2}, 1e-5},
    {"a line that ends on the half circle", {0, -1, 0, 0, 2}, {-1, 0, 1, 1, 0}, 1e-5},
    {"a line that only just touches the half circle's side", {1.0000001, -1, 0, 1.0000001, 1}, {-1, 0, 1, 1, 0}, 1e-3},
    {"a line just below the end of a quarter circle", {-1, -0.0005, 0, 2, -0.0005}, {0, 1, QUARTER, 1, 0}, 1e-3},
    {"two half circles", {-1, 0, 1, 1, 0}, {0, 0, 1, 2, 0}, 1e-5},
    {"half circles of one circle", {-1, 0, 1, 1, 0}, {1, 0, 1, -1, 0}, 1e-5},
    {"two lines", {0, 0, 0, 4, 0}, {2, -1, 0, 2, 1}, 1e-5},
    {"a chord too short for an arc", {0, 0, 1, 0, 0}, {2, -1, 0, 2, 1}, 1e-5},
};

static void show(const struct pair *p)
{
    const double *v = p->v, *u = p->u;
    double points[4];
    uint64_t told[4];
    uint64_t answer = vj_pair_findings(v[0], v[1], v[2], v[3], v[4], 0, u[0], u[1], u[2], u[3], u[4], 0,
                                       p->epsilon, points, 4, told, 4);
    printf("%s: ", p->what);
    if (VJ_IS_REFUSED(answer)) {
        printf("refused %u\n", (unsigned)VJ_NUMBER(answer));
        return;
    }
    printf("%s\n", CLASSES[answer]);
    printf("  first point: for v %s, for u %s\n", FINDINGS[told[0]], FINDINGS[told[1]]);
    printf("  second point: for v %s, for u %s\n", FINDINGS[told[2]], FINDINGS[told[3]]);
}

int main(void)
{
    double points[4];
    uint64_t told[4];
    for (size_t i = 0; i < sizeof PAIRS / sizeof PAIRS[0]; i++)
        show(&PAIRS[i]);
    if (vj_pair_findings(0, 0, 0, 1, 0, 0, 0, 0, 0, 0, 1, 0, 1e-5, points, 4, told, 3) == VJ_NO_ROOM)
        printf("room for three findings: nothing is looked at\n");
    return 0;
}
