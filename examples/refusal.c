/*
 * Where is the bad number? A call that refuses returns a word that tells the
 * refusal's number and the place of the fault. This prints such words in plain
 * English, for listings, the pair call, the kernels and a join. From the
 * repository's root:
 *
 *   tools/make capi
 *   cc -std=c11 -Wall -Wextra -Werror -Iinclude examples/refusal.c \
 *      target/staticlib/libcapi.a -o refusal && ./refusal
 */
#include <inttypes.h>
#include <math.h>
#include <stdio.h>

#include "vonjekona.h"

#define COUNT(a) (sizeof(a) / sizeof(a)[0])

#define VERTICES 20
#define EPSILON (1.0 / 1024.0)

/* What an index counts; a chord's counts segments if others count vertices. */
enum indices { NONE, ENDS, VERTICES_OF_A_PATH };

/* How a call names the places of its numbers. */
struct places {
    const char *owners[4];
    enum indices indices;
};

static const struct places listing = {
    { "first path", "second path" }, VERTICES_OF_A_PATH,
};
static const struct places pair = { { "v", "u" }, ENDS };
static const struct places lines = { { "v1", "v2", "u1", "u2" }, NONE };
static const struct places line_and_circle = {
    { "p0", "p1", "circle" }, NONE,
};
static const struct places circles = {
    { "first circle", "second circle" }, NONE,
};

static const char *const items[] = {
    "epsilon", "x", "y", "bulge", "radius", "centre x", "centre y", "chord",
    "length", "rows", "position", "budget", "boxes", "trace", "report",
};

/* By the refusal's number. A text's refusal, 10, comes from no call. */
static const char *reason(uint64_t number)
{
    switch (number) {
    case 2: return "above 1,048,576 in magnitude";
    case 3: return "above 1 in magnitude";
    case 4: return "NaN, infinite, or not in 2^-40 to 1/2";
    case 5: return "shorter than 2^-40, of an arc";
    case 6: return "no multiple of 4";
    case 7: return "more than 4,096 vertices";
    case 8: return "more than there is room for";
    case 9: return "beyond a circle's limits";
    case 11: return "NaN";
    case 12: return "infinite";
    case 13: return "beyond the end";
    case 14: return "0";
    case 15: return "no whole number from 0 to 255";
    case 17: return "more than there is room for";
    case 19: return "full, or the sum of two does not fit";
    default: return "no reason that these calls have";
    }
}

static void tell_owner(uint64_t word, const struct places *places)
{
    uint64_t index = VJ_INDEX(word);
    uint64_t item = VJ_ITEM(word);

    printf("%s, ", places->owners[VJ_OWNER(word)]);
    if (item == VJ_ITEM_LENGTH || places->indices == NONE)
        return;
    if (places->indices == VERTICES_OF_A_PATH)
        printf("%s %" PRIu64 ", ",
               item == VJ_ITEM_CHORD ? "segment" : "vertex", index);
    else if (item != VJ_ITEM_CHORD)
        printf("%s vertex, ", index == 0 ? "first" : "second");
}

/* What a call returned, in words. */
static void tell(const char *call, uint64_t word, const struct places *places)
{
    printf("%s: ", call);
    if (!VJ_IS_REFUSED(word)) {
        if (word == VJ_NO_ROOM)
            printf("no room for the answer\n");
        else
            printf("not refused, %" PRIu64 "\n", word);
        return;
    }
    switch (VJ_ITEM(word)) {
    case VJ_ITEM_EPSILON:
    case VJ_ITEM_ROWS:
    case VJ_ITEM_POSITION:
    case VJ_ITEM_BUDGET:
    case VJ_ITEM_BOXES:
    case VJ_ITEM_REPORT:
        break;
    default:
        tell_owner(word, places);
    }
    printf("%s: %s\n", items[VJ_ITEM(word)], reason(VJ_NUMBER(word)));
}

/* x, y, bulge and trace of each vertex of a zigzag. */
static void draw(double *path)
{
    int i;

    for (i = 0; i < VERTICES; i++) {
        path[4 * i] = i;
        path[4 * i + 1] = i % 2;
        path[4 * i + 2] = 0;
        path[4 * i + 3] = 0;
    }
}

/* Lists two open paths, with room for one row. */
static void list(const double *first, size_t first_len, const double *second,
                 size_t second_len, double epsilon)
{
    uint64_t indices[3], counts[2];
    double points[4];

    tell("vj_mutual",
         vj_mutual(first, first_len, false, second, second_len, false, epsilon,
                   indices, COUNT(indices), points, COUNT(points), counts,
                   COUNT(counts)),
         &listing);
}

static void listings(void)
{
    double first[4 * VERTICES], second[4 * VERTICES];
    size_t len = COUNT(first);

    draw(first);
    draw(second);
    /* the same path twice: many rows */
    list(first, len, second, len, EPSILON);
    /* two faults: the first path's is told */
    first[4 * 17 + 1] = NAN;
    second[4 * 4 + 2] = 2;
    list(first, len, second, len, EPSILON);
    first[4 * 17 + 1] = 1;
    list(first, len, second, len, EPSILON);
    /* an arc from vertex 4 to vertex 5, which is where vertex 4 is */
    second[4 * 4 + 2] = 0.5;
    second[4 * 5] = second[4 * 4];
    second[4 * 5 + 1] = second[4 * 4 + 1];
    list(first, len, second, len, EPSILON);
    /* a trace is checked before an arc */
    second[4 * 4 + 3] = 256;
    list(first, len, second, len, EPSILON);
    list(first, len, second, len - 1, EPSILON);
    list(first, len, second, len, 0);
}

/* A page of a path by itself, from a position on. */
static void page(uint64_t position, uint64_t budget)
{
    uint64_t indices[3], counts[4];
    double path[4 * VERTICES], points[4];

    draw(path);
    tell("vj_self_page",
         vj_self_page(path, COUNT(path), true, EPSILON, position, budget,
                      indices, COUNT(indices), points, COUNT(points), counts,
                      COUNT(counts)),
         &listing);
}

/* The closed path by itself, with room for so many numbers of its boxes. */
static void boxed(size_t boxes_room)
{
    uint64_t indices[3], counts[2];
    double path[4 * VERTICES], points[4];
    double boxes[VJ_BOXES_NEEDED(VERTICES)];

    draw(path);
    tell("vj_self_boxed",
         vj_self_boxed(path, COUNT(path), true, EPSILON, boxes, boxes_room,
                       indices, COUNT(indices), points, COUNT(points), counts,
                       COUNT(counts)),
         &listing);
}

/* A path with itself, counted in a report of so many layouts; and a join. */
static void reports(uint64_t layouts)
{
    uint64_t report[VJ_REPORT_WORDS] = { 0 }, other[VJ_REPORT_WORDS] = { 0 };
    uint64_t indices[3], counts[2];
    double path[4 * VERTICES], points[4];

    draw(path);
    report[VJ_REPORT_LAYOUTS] = layouts;
    other[VJ_REPORT_LAYOUTS] = 1;
    tell("vj_mutual_counted",
         vj_mutual_counted(path, COUNT(path), false, path, COUNT(path), false,
                           EPSILON, indices, COUNT(indices), points,
                           COUNT(points), counts, COUNT(counts), report,
                           COUNT(report)),
         &listing);
    tell("vj_join", vj_join(report, COUNT(report), other, COUNT(other)),
         &listing);
}

/* A line from (0, 0) to (4, 0) with this bulge, and one up to (x, 2). */
static void two_segments(double bulge, double x, size_t room)
{
    double out[4];

    tell("vj_pair",
         vj_pair(0, 0, bulge, 4, 0, 0, 2, -2, 0, x, 2, 0, EPSILON, out, room),
         &pair);
}

static void kernels(void)
{
    double out[4];

    tell("vj_line_line_intr",
         vj_line_line_intr(0, 0, 4, 0, 2, -2, 2, 2000000, EPSILON, out,
                           COUNT(out)),
         &lines);
    tell("vj_line_circle_intr",
         vj_line_circle_intr(0, 0, 4, 0, 0, 2, 0, EPSILON, out, COUNT(out)),
         &line_and_circle);
    tell("vj_circle_circle_intr",
         vj_circle_circle_intr(1, 0, 0, 1, -INFINITY, 0, EPSILON, out,
                               COUNT(out)),
         &circles);
}

int main(void)
{
    listings();
    page(1000, 1);
    page(0, 0);
    boxed(VJ_BOXES_NEEDED(VERTICES) - 1);
    reports(0);
    reports(10000);
    two_segments(0, 2, 4);
    two_segments(0, INFINITY, 4);
    two_segments(-1.5, 2, 4);
    two_segments(0, 2, 3);
    kernels();
    return 0;
}
