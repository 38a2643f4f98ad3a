/*
 * A large coil by itself: where does it meet itself? The full listing looks at
 * every pair of segments. The boxed one looks only at pairs whose boxes meet,
 * and hands out the boxes. From the repository's root:
 *
 *   tools/make capi
 *   cc -std=c11 -Wall -Wextra -Werror -Iinclude examples/boxed.c \
 *      target/staticlib/libcapi.a -o boxed && ./boxed
 */
#include <inttypes.h>
#include <stdio.h>

#include "vonjekona.h"

#define COUNT(a) (sizeof(a) / sizeof(a)[0])

#define WINDINGS 40
#define WIDTH 600.0
#define HEIGHT 400.0
#define STEP 4.0   /* from a winding to the next */
#define RADIUS 2.0 /* of a corner */
#define QUARTER 0.41421356237309503 /* the bulge of a quarter circle */
#define EPSILON (1.0 / 1024.0)

/* Two for each corner, one for the start, two for the way out. */
#define VERTICES (8 * WINDINGS + 3)
#define SEGMENTS (VERTICES - 1)
#define ROWS 64

struct path {
    double numbers[4 * VERTICES];
    size_t len;
};

static void go_to(struct path *path, double x, double y, double bulge)
{
    path->numbers[path->len++] = x;
    path->numbers[path->len++] = y;
    path->numbers[path->len++] = bulge;
    path->numbers[path->len++] = 0; /* the trace: no pair is skipped for it */
}

/* A rounded corner: from one direction, 0 to 3 from x on, into the next. */
static void turn(struct path *path, double x, double y, int from)
{
    static const double dx[] = { 1, 0, -1, 0 }, dy[] = { 0, 1, 0, -1 };
    int to = (from + 1) % 4;

    go_to(path, x - RADIUS * dx[from], y - RADIUS * dy[from], QUARTER);
    go_to(path, x + RADIUS * dx[to], y + RADIUS * dy[to], 0);
}

/*
 * A coil of lines and quarter circles, wound inwards. Its inner end runs out
 * again, straight across all windings.
 */
static void draw(struct path *path)
{
    int i;

    path->len = 0;
    go_to(path, 0, 0, 0);
    for (i = 0; i < WINDINGS; i++) {
        double in = i * STEP;

        turn(path, WIDTH - in, in, 0);
        turn(path, WIDTH - in, HEIGHT - in, 1);
        turn(path, in + STEP, HEIGHT - in, 2);
        turn(path, in + STEP, in + STEP, 3);
    }
    go_to(path, WIDTH / 2, WINDINGS * STEP, 0);
    go_to(path, WIDTH / 2, -STEP, 0);
}

static uint64_t indices[3 * ROWS], counts[2];
static double points[4 * ROWS];

/* The answer of a listing, in words. */
static void tell(const char *listing, uint64_t answer)
{
    printf("%s: ", listing);
    if (answer == 0)
        printf("%" PRIu64 " pairs looked at, %" PRIu64 " rows\n", counts[1],
               counts[0]);
    else if (!VJ_IS_REFUSED(answer))
        printf("no room for the counts\n");
    else if (VJ_ITEM(answer) == VJ_ITEM_BOXES)
        printf("refused %" PRIu64 ", the boxes do not fit\n",
               VJ_NUMBER(answer));
    else
        printf("refused %" PRIu64 "\n", VJ_NUMBER(answer));
}

static void list_full(const double *path, size_t len, double epsilon)
{
    tell("full", vj_self(path, len, false, epsilon, indices, COUNT(indices),
                         points, COUNT(points), counts, COUNT(counts)));
}

static void list_boxed(const double *path, size_t len, double epsilon,
                       double *boxes, size_t boxes_room)
{
    tell("boxed",
         vj_self_boxed(path, len, false, epsilon, boxes, boxes_room, indices,
                       COUNT(indices), points, COUNT(points), counts,
                       COUNT(counts)));
}

static void show(const char *whose, size_t number, const double *box)
{
    printf("box of %s %zu: (%.4f, %.4f) to (%.4f, %.4f)\n", whose, number,
           box[0], box[1], box[2], box[3]);
}

int main(void)
{
    /* short lines, 5/8 from each other; at epsilon 1/4 the Rust reports them */
    static const double lines[] = {
        0, 0, 0, 0,  0.375, 0, 0, 0,  0.375, 0.625, 0, 0,  0, 0.625, 0, 0,
    };
    static struct path coil;
    static double boxes[VJ_BOXES_NEEDED(SEGMENTS)];

    draw(&coil);
    list_full(coil.numbers, coil.len, EPSILON);
    list_boxed(coil.numbers, coil.len, EPSILON, boxes, COUNT(boxes));
    /* segment 0 is a line, segment 1 an arc; the groups follow the segments */
    show("segment", 0, boxes);
    show("segment", 1, boxes + 4);
    show("group", 0, boxes + 4 * SEGMENTS);
    list_boxed(coil.numbers, coil.len, EPSILON, boxes, COUNT(boxes) - 1);

    printf("lines whose boxes are apart\n");
    list_full(lines, COUNT(lines), 0.25);
    list_boxed(lines, COUNT(lines), 0.25, boxes, COUNT(boxes));
    return 0;
}
