/* vj_mutual, vj_self, and both with large arcs. */
#include "../must.h"
#include "../one.h"
#include "../rows.h"
#include "vonjekona.h"

static struct rows rows;

void begin(void)
{
    rows_begin(&rows);
}

static uint64_t list(const struct listed *l)
{
    const struct path *a = &l->paths[0], *b = &l->paths[1];
    uint64_t *indices = WORDS(rows.indices), *counts = WORDS(rows.counts);
    double *points = FLOATS(rows.points);

    if (l->count == 2)
        return (l->large ? vj_mutual_large : vj_mutual)(
            a->numbers, a->len, a->closed, b->numbers, b->len, b->closed,
            l->epsilon, indices, rows.indices_room, points, rows.points_room,
            counts, rows.counts_room);
    return (l->large ? vj_self_large : vj_self)(
        a->numbers, a->len, a->closed, l->epsilon, indices, rows.indices_room,
        points, rows.points_room, counts, rows.counts_room);
}

void one(const uint8_t *bytes, size_t len)
{
    struct input in = { bytes, len };
    size_t count = 1 + (take_byte(&in) & 1), found;
    struct listed listed = take_listed(&in, count, 120);
    uint64_t fault = epsilon_fault(listed.epsilon), answer;

    take_rows(&rows, &in, 2);
    if (fault == 0)
        fault = path_faults(listed.paths, listed.count, listed.large);
    /* the longest paths with one another take long; so they are refused */
    if (fault == 0 && all_pairs(&listed) > 200000)
        return;
    answer = list(&listed);
    MUST(paths_unchanged(&listed));
    if (rows.counts_room < 2) {
        MUST(answer == VJ_NO_ROOM);
        must_be_untouched(&rows);
        return;
    }
    if (answer != 0) {
        must_be_untouched(&rows);
        if (fault != 0) {
            MUST(answer == fault);
            return;
        }
        MUST(answer == refused(8, VJ_ITEM_ROWS, 0, 0));
        found = row_room(&rows, listed.large);
        all_rows(&rows, 2);
        answer = list(&listed);
        MUST(paths_unchanged(&listed));
        if (answer != 0)
            MUST(answer == refused(8, VJ_ITEM_ROWS, 0, 0));
        else
            MUST(must_be_rows(&rows, &listed) > found);
        return;
    }
    MUST(fault == 0);
    found = must_be_rows(&rows, &listed);
    must_be_pairs(&rows, &listed, found);
}
