/* The rows that single pair calls give: what a listing of small paths must have. */
#include <math.h>
#include <string.h>

#include "must.h"
#include "rows.h"
#include "vonjekona.h"

/* How two segments meet, part by part; without large arcs there is one part. */
struct met {
    uint64_t results[12];
    double points[16];
    size_t count;
};

static const double *end_of(const struct path *path, size_t i)
{
    return path->numbers + (i + 1 == path->len / 4 ? 0 : 4 * (i + 1));
}

static struct met ask(const struct listed *listed, size_t i, size_t j)
{
    const struct path *first = &listed->paths[0];
    const struct path *second = &listed->paths[listed->count - 1];
    const double *a = first->numbers + 4 * i, *b = end_of(first, i);
    const double *c = second->numbers + 4 * j, *d = end_of(second, j);
    struct met met;
    uint64_t answer;

    memset(&met, 0, sizeof met);
    if (listed->large) {
        answer = vj_pair_large(a[0], a[1], a[2], b[0], b[1], b[2], c[0], c[1],
                               c[2], d[0], d[1], d[2], listed->epsilon,
                               met.results, 12, met.points, 16);
        MUST(answer == 1 || answer == 2 || answer == 4);
        met.count = answer;
    } else {
        answer = vj_pair(a[0], a[1], a[2], b[0], b[1], b[2], c[0], c[1], c[2],
                         d[0], d[1], d[2], listed->epsilon, met.points, 4);
        MUST(answer <= 5);
        met.results[2] = answer;
        met.count = 1;
    }
    return met;
}

static bool is_near(const double *point, const double *vertex, double epsilon)
{
    return fabs(point[0] - vertex[0]) < epsilon &&
           fabs(point[1] - vertex[1]) < epsilon;
}

/* Whether neighbours of one path, uncut, meet only at vertices they share. */
static bool at_joint(const struct listed *listed, size_t i, size_t j,
                     uint64_t class, const double *points)
{
    const struct path *path = &listed->paths[0];
    size_t n = segments(path, false);
    bool next = j == i + 1, around = path->closed && i == 0 && j + 1 == n;
    int k, given = class < 3 ? 1 : 2;

    if ((!next && !around) || class > 3)
        return false;
    for (k = 0; k < given; k++) {
        const double *point = points + 2 * k;
        bool near = next && is_near(point, path->numbers + 4 * j,
                                    listed->epsilon);

        if (!near && !(around && is_near(point, path->numbers,
                                         listed->epsilon)))
            return false;
    }
    return true;
}

static bool skipped(const struct listed *listed, size_t i, size_t j)
{
    double a = listed->paths[0].numbers[4 * i + 3];
    double b = listed->paths[listed->count - 1].numbers[4 * j + 3];

    return a > 0 && a == b;
}

/* Row `at` is this one. */
static void must_be_row(const struct rows *rows, const struct listed *listed,
                        size_t at, size_t i, size_t j, const uint64_t *result,
                        const double *points)
{
    const uint64_t *row = WORDS(rows->indices) + WIDTH(listed) * at;
    const uint64_t large[] = { i, result[0], j, result[1], result[2] };
    const uint64_t plain[] = { i, j, result[2] };

    if (listed->large)
        MUST(memcmp(row, large, sizeof large) == 0);
    else
        MUST(memcmp(row, plain, sizeof plain) == 0);
    MUST(memcmp(FLOATS(rows->points) + 4 * at, points, 4 * 8) == 0);
}

/* The parts of segment i with all segments of the second path. */
static size_t of_segment(const struct rows *rows, const struct listed *listed,
                         size_t i, size_t found, size_t count)
{
    const struct path *second = &listed->paths[listed->count - 1];
    size_t parts = listed->large && is_cut(&listed->paths[0], i) ? 2 : 1;
    size_t part, j, k;

    for (part = 0; part < parts; part++)
        for (j = listed->count == 1 ? i + 1 : 0;
             j < segments(second, false); j++) {
            struct met met;
            size_t each;

            if (skipped(listed, i, j))
                continue;
            met = ask(listed, i, j);
            each = met.count / parts;
            for (k = part * each; k < (part + 1) * each; k++) {
                const uint64_t *result = met.results + 3 * k;
                const double *points = met.points + 4 * k;

                if (result[2] == 0 ||
                    (listed->count == 1 &&
                     at_joint(listed, i, j, result[2], points)))
                    continue;
                MUST(found < count);
                must_be_row(rows, listed, found++, i, j, result, points);
            }
        }
    return found;
}

void must_be_pairs(const struct rows *rows, const struct listed *listed,
                   size_t count)
{
    size_t found = 0, i;

    /* halves of one path have joints of their own: compare holds these */
    if (all_pairs(listed) > 1200 || (listed->large && listed->count == 1 &&
        segments(&listed->paths[0], true) != segments(&listed->paths[0], false)))
        return;
    for (i = 0; i < segments(&listed->paths[0], false); i++)
        found = of_segment(rows, listed, i, found, count);
    MUST(found == count);
}
