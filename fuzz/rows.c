#include "rows.h"

#include <math.h>
#include <string.h>

#include "must.h"
#include "vonjekona.h"

static struct lent lent_paths[2];
static double taken[2][MOST_NUMBERS];

void rows_begin(struct rows *rows)
{
    lent_paths[0] = lent_new(sizeof taken[0]);
    lent_paths[1] = lent_new(sizeof taken[1]);
    rows->indices = lent_new(5 * MOST_ROWS * 8 + 64);
    rows->points = lent_new(4 * MOST_ROWS * 8 + 64);
    rows->counts = lent_new(64);
}

struct listed take_listed(struct input *in, size_t count, size_t vertices)
{
    struct listed listed;
    unsigned flags = take_byte(in);
    size_t i;

    memset(&listed, 0, sizeof listed);
    listed.count = count;
    listed.large = flags & 1;
    listed.epsilon = take_number(in, EPSILON, NULL, 0);
    for (i = 0; i < count; i++) {
        size_t len = take_path(in, listed.large, vertices, taken[i]);

        lend_filled(&lent_paths[i], taken[i], 8 * len, flags >> (3 + i) & 1);
        listed.paths[i].numbers = FLOATS(lent_paths[i]);
        listed.paths[i].len = len;
        listed.paths[i].closed = flags >> (1 + i) & 1;
    }
    return listed;
}

bool paths_unchanged(const struct listed *listed)
{
    size_t i;

    for (i = 0; i < listed->count; i++)
        if (!unchanged(&lent_paths[i], taken[i]))
            return false;
    return true;
}

static void lend_rows(struct rows *rows, unsigned ends)
{
    lend(&rows->indices, 8 * rows->indices_room, ends & 1);
    lend(&rows->points, 8 * rows->points_room, ends & 2);
    lend(&rows->counts, 8 * rows->counts_room, ends & 4);
}

void take_rows(struct rows *rows, struct input *in, size_t counts_needed)
{
    unsigned ends = take_byte(in);

    rows->counts_needed = counts_needed;
    rows->indices_room = take_room(in, 5 * MOST_ROWS);
    rows->points_room = take_room(in, 4 * MOST_ROWS);
    rows->counts_room = ends & 8 ? ends >> 4 & 7 : counts_needed;
    lend_rows(rows, ends);
}

void all_rows(struct rows *rows, size_t counts_needed)
{
    rows->counts_needed = counts_needed;
    rows->indices_room = 5 * MOST_ROWS;
    rows->points_room = 4 * MOST_ROWS;
    rows->counts_room = counts_needed;
    lend_rows(rows, 7);
}

size_t row_room(const struct rows *rows, bool large)
{
    size_t words = rows->indices_room / (large ? 5 : 3);
    size_t floats = rows->points_room / 4;

    return words < floats ? words : floats;
}

void must_be_untouched(const struct rows *rows)
{
    MUST(untouched(&rows->indices, 0));
    MUST(untouched(&rows->points, 0));
    MUST(untouched(&rows->counts, 0));
}

uint64_t all_pairs(const struct listed *listed)
{
    uint64_t n = segments(&listed->paths[0], listed->large);

    if (listed->count == 1)
        return n == 0 ? 0 : n * (n - 1) / 2;
    return n * segments(&listed->paths[1], listed->large);
}

/* A row's segment: its index in the path, and its half. */
static void must_be_segment(const struct path *path, const uint64_t *row,
                            bool large)
{
    MUST(row[0] < path->len / 4);
    MUST(row[0] + 1 < path->len / 4 || path->closed);
    if (!large)
        return;
    if (is_cut(path, row[0]))
        MUST(row[1] == 1 || row[1] == 2);
    else
        MUST(row[1] == 0);
}

static void must_be_points(uint64_t class, const double *points)
{
    uint64_t bits[4];
    int i, given = class < 3 ? 2 : 4;

    memcpy(bits, points, sizeof bits);
    for (i = 0; i < given; i++)
        MUST(isfinite(points[i]));
    for (; i < 4; i++)
        MUST(bits[i] == 0);
}

size_t must_be_rows(const struct rows *rows, const struct listed *listed)
{
    const uint64_t *counts = WORDS(rows->counts);
    size_t width = WIDTH(listed), count = counts[0], i, k;
    const struct path *second = &listed->paths[listed->count - 1];

    MUST(count <= row_room(rows, listed->large));
    MUST(counts[1] <= all_pairs(listed));
    MUST(count <= counts[1]);
    for (i = 0; i < count; i++) {
        const uint64_t *row = WORDS(rows->indices) + width * i;

        must_be_segment(&listed->paths[0], row, listed->large);
        must_be_segment(second, row + width / 2, listed->large);
        MUST(row[width - 1] >= 1 && row[width - 1] <= 5);
        must_be_points(row[width - 1], FLOATS(rows->points) + 4 * i);
        if (listed->count == 1)
            MUST(row[0] < row[width / 2] ||
                 (listed->large && row[0] == row[2] && row[1] < row[3]));
        if (i == 0)
            continue;
        /* the row before is below this one */
        for (k = 0; k < width - 1 && row[k] == row[k - width]; k++)
            ;
        MUST(k < width - 1 && row[k] > row[k - width]);
    }
    MUST(untouched(&rows->indices, 8 * width * count));
    MUST(untouched(&rows->points, 8 * 4 * count));
    MUST(untouched(&rows->counts, 8 * rows->counts_needed));
    return count;
}
