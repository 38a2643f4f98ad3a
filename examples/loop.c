/*
 * A tuning loop: a track that runs into nearly a full circle and out of it
 * again. Its bulge is above 1, so it is listed by the calls with large arcs,
 * which cut it into two halves. A row names the segment of the path that was
 * given, and the half. From the repository's root:
 *
 *   tools/make capi capi_large
 *   cc -std=c11 -Wall -Wextra -Werror -Iinclude examples/loop.c \
 *      target/staticlib/libcapi_large.a target/staticlib/libcapi.a \
 *      -o loop && ./loop
 */
#include <inttypes.h>
#include <stdio.h>
#include <string.h>

#include "vonjekona.h"

#define COUNT(a) (sizeof(a) / sizeof(a)[0])

#define ROWS 8
#define EPSILON (1.0 / 1024.0)

/*
 * x, y, bulge and trace of each vertex. The loop, segment 1, runs from (4, 0)
 * to (5, 0) below the track: its bulge is 2, its radius 5/8, and its lowest
 * point is the cut point, (4.5, -1).
 */
static const double track[] = { 0, 0, 0, 0,  4, 0, 2, 0,  5, 0, 0, 0,
                                9, 0, 0, 0 };

/* A line through the loop's centre, and one that stays above it. */
static const double through[] = { 3, -0.375, 0, 0,  6, -0.375, 0, 0 };
static const double above[] = { 3, 1, 0, 0,  6, 1, 0, 0 };

/* The same loop, all of trace 1, and a line of that trace. */
static const double traced[] = { 0, 0, 0, 1,  4, 0, 2, 1,  5, 0, 0, 1,
                                 9, 0, 0, 1 };
static const double through_traced[] = { 3, -0.375, 0, 1,  6, -0.375, 0, 1 };

/* A loop whose ends are 1/8 apart: with epsilon 1/4 they count as one point. */
static const double narrow[] = { 0, 0, 8, 0,  0.125, 0, 0, 0 };

/*
 * The body of an LWPOLYLINE entity, as a drawing has it: the track's loop alone,
 * two vertices, of which the first has the bulge 2.
 */
static const char body[] = "90\n2\n70\n0\n"
                           "10\n4.0\n20\n0.0\n42\n2.0\n"
                           "10\n5.0\n20\n0.0\n";

static uint64_t indices[5 * ROWS], counts[4];
static double points[4 * ROWS];

/* What a half is called. */
static const char *part(uint64_t half)
{
    static const char *const names[] = { "", ", first half", ", second half" };

    return half < COUNT(names) ? names[half] : "?";
}

/* Where the fault is. There are other items; listings give these too. */
static void show_fault(uint64_t word)
{
    const char *path = VJ_OWNER(word) == 0 ? "first path" : "second path";

    printf("refused %" PRIu64 ": %s, ", VJ_NUMBER(word), path);
    switch (VJ_ITEM(word)) {
    case VJ_ITEM_BULGE:
        printf("vertex %" PRIu64 ", bulge\n", VJ_INDEX(word));
        break;
    case VJ_ITEM_CHORD:
        printf("segment %" PRIu64 ", chord\n", VJ_INDEX(word));
        break;
    case VJ_ITEM_CUT_X:
        printf("segment %" PRIu64 ", x of its cut point\n", VJ_INDEX(word));
        break;
    case VJ_ITEM_CUT_Y:
        printf("segment %" PRIu64 ", y of its cut point\n", VJ_INDEX(word));
        break;
    default:
        printf("item %" PRIu64 "\n", VJ_ITEM(word));
    }
}

static void show_points(uint64_t row_class, const double *point)
{
    printf("class %" PRIu64 ": (%g, %g)", row_class, point[0], point[1]);
    /* only these classes have a second point */
    if (row_class >= 3)
        printf(" and (%g, %g)", point[2], point[3]);
    printf("\n");
}

/* What a listing answered, in words. */
static void tell(const char *what, uint64_t answer)
{
    uint64_t row;

    printf("%s: ", what);
    /* nothing was written; VJ_NO_ROOM cannot be, counts has its places */
    if (answer != 0) {
        show_fault(answer);
        return;
    }
    printf("%" PRIu64 " pairs looked at, %" PRIu64 " rows\n", counts[1],
           counts[0]);
    for (row = 0; row < counts[0]; row++) {
        const uint64_t *index = indices + 5 * row;

        printf("  segment %" PRIu64 "%s, and segment %" PRIu64 "%s, ", index[0],
               part(index[1]), index[2], part(index[3]));
        show_points(index[4], points + 4 * row);
    }
}

/* Two open paths. */
static void list(const char *what, const double *first, size_t first_len,
                 const double *second, size_t second_len)
{
    tell(what, vj_mutual_large(first, first_len, false, second, second_len,
                               false, EPSILON, indices, COUNT(indices),
                               points, COUNT(points), counts, COUNT(counts)));
}

/* An open path by itself. */
static void list_self(const char *what, const double *path, size_t len,
                      double epsilon)
{
    tell(what, vj_self_large(path, len, false, epsilon, indices,
                             COUNT(indices), points, COUNT(points), counts,
                             COUNT(counts)));
}

/* The loop and the line through it, as a pair of segments: a result a half. */
static void pair(void)
{
    uint64_t results[3 * 4], result;
    double out[4 * 4];
    uint64_t answer = vj_pair_large(4, 0, 2, 5, 0, 0, 3, -0.375, 0, 6, -0.375,
                                    0, EPSILON, results, COUNT(results), out,
                                    COUNT(out));

    printf("the loop and the line as a pair: %" PRIu64 " results\n", answer);
    for (result = 0; result < answer; result++) {
        printf("  v%s, u%s, ", part(results[3 * result]),
               part(results[3 * result + 1]));
        show_points(results[3 * result + 2], out + 4 * result);
    }
}

/* The track with another bulge, so many steps further up. */
static void list_changed(const char *what, double bulge, double up)
{
    double changed[COUNT(track)];
    size_t i;

    for (i = 0; i < COUNT(track); i++)
        changed[i] = track[i] + (i % 4 == 1 ? up : 0);
    changed[4 * 1 + 2] = bulge;
    list_self(what, changed, COUNT(changed), EPSILON);
}

/* The loop from a drawing, uncut; the call without `_large` refuses it. */
static void drawing(void)
{
    const uint8_t *text = (const uint8_t *)body;
    double path[4 * 2];
    uint8_t again[VJ_DXF_BYTES_LARGE(2)];
    uint64_t told[2], word;

    word = vj_dxf_import_large(text, strlen(body), path, COUNT(path), told,
                               COUNT(told));
    if (word != 0) {
        show_fault(word);
        return;
    }
    printf("a loop from a drawing: %" PRIu64 " vertices, %s, bulge %g\n",
           told[0], told[1] ? "closed" : "open", path[2]);
    list("that loop, and a line through it", path, 4 * told[0], through,
         COUNT(through));
    word = vj_dxf_export_large(path, 4 * told[0], false, again, sizeof again,
                               told, COUNT(told));
    if (word == 0)
        printf("the loop as a drawing again: %" PRIu64 " bytes\n", told[0]);
    printf("the same drawing by the call without large arcs: ");
    show_fault(vj_dxf_import(text, strlen(body), path, COUNT(path), told,
                             COUNT(told)));
}

int main(void)
{
    list("a track with a loop, and a line through the loop", track,
         COUNT(track), through, COUNT(through));
    list("the same track, and a line above", track, COUNT(track), above,
         COUNT(above));
    list("the line through the loop, all of one track", traced, COUNT(traced),
         through_traced, COUNT(through_traced));
    list_self("the track by itself", track, COUNT(track), EPSILON);
    pair();

    list_self("a narrow loop, epsilon 1/1024", narrow, COUNT(narrow), EPSILON);
    list_self("a narrow loop, epsilon 1/4", narrow, COUNT(narrow), 0.25);

    /* 16 is taken. Above the track the loop is 8 high, and may not be beyond
       1048576 there. */
    list_changed("bulge 16", 16, 0);
    list_changed("bulge 16.5", 16.5, 0);
    list_changed("bulge -16, up to the edge", -16, 1048568);
    list_changed("bulge -16, beyond the edge", -16, 1048568.5);

    drawing();
    return 0;
}
