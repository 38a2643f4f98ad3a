/* vj_mutual_boxed, vj_self_boxed, and both with large arcs. */
#include <math.h>
#include <string.h>

#include "../must.h"
#include "../one.h"
#include "../rows.h"
#include "vonjekona.h"

#define MOST_BOXES (2 * VJ_BOXES_NEEDED(2 * 4096))

static struct rows rows;
static struct lent boxes;
static size_t boxes_room;

void begin(void)
{
    rows_begin(&rows);
    boxes = lent_new(8 * MOST_BOXES + 64);
}

static uint64_t list(const struct listed *l)
{
    const struct path *a = &l->paths[0], *b = &l->paths[1];
    uint64_t *indices = WORDS(rows.indices), *counts = WORDS(rows.counts);
    double *points = FLOATS(rows.points);

    if (l->count == 2)
        return (l->large ? vj_mutual_boxed_large : vj_mutual_boxed)(
            a->numbers, a->len, a->closed, b->numbers, b->len, b->closed,
            l->epsilon, FLOATS(boxes), boxes_room, indices, rows.indices_room,
            points, rows.points_room, counts, rows.counts_room);
    return (l->large ? vj_self_boxed_large : vj_self_boxed)(
        a->numbers, a->len, a->closed, l->epsilon, FLOATS(boxes), boxes_room,
        indices, rows.indices_room, points, rows.points_room, counts,
        rows.counts_room);
}

static size_t needed(const struct listed *listed)
{
    size_t sum = 0, i;

    for (i = 0; i < listed->count; i++)
        sum += VJ_BOXES_NEEDED(segments(&listed->paths[i], listed->large));
    return sum;
}

/* Each box is finite and not inside out, and no number is -0. */
static void must_be_boxes(size_t numbers)
{
    const double *box = FLOATS(boxes);
    size_t i;

    for (i = 0; i < numbers; i += 4, box += 4) {
        int k;

        for (k = 0; k < 4; k++)
            MUST(isfinite(box[k]) && !(box[k] == 0 && signbit(box[k])));
        MUST(box[0] <= box[2] && box[1] <= box[3]);
    }
    MUST(untouched(&boxes, 8 * numbers));
}

static void must_be_full_rows(const struct listed *listed)
{
    static uint64_t indices[5 * MOST_ROWS];
    static double points[4 * MOST_ROWS];
    size_t width = WIDTH(listed), count = WORDS(rows.counts)[0], i, at = 0;
    const struct path *a = &listed->paths[0], *b = &listed->paths[1];
    uint64_t counts[2], answer;

    if (all_pairs(listed) > 2000)
        return;
    if (listed->count == 2)
        answer = (listed->large ? vj_mutual_large : vj_mutual)(
            a->numbers, a->len, a->closed, b->numbers, b->len, b->closed,
            listed->epsilon, indices, 5 * MOST_ROWS, points, 4 * MOST_ROWS,
            counts, 2);
    else
        answer = (listed->large ? vj_self_large : vj_self)(
            a->numbers, a->len, a->closed, listed->epsilon, indices,
            5 * MOST_ROWS, points, 4 * MOST_ROWS, counts, 2);
    MUST(answer == 0);
    MUST(WORDS(rows.counts)[1] <= counts[1]);
    /* each row is one of the full listing's, in the same order */
    for (i = 0; i < count; i++, at++) {
        const uint64_t *row = WORDS(rows.indices) + width * i;

        while (at < counts[0] &&
               memcmp(row, indices + width * at, 8 * width) != 0)
            at++;
        MUST(at < counts[0]);
        MUST(memcmp(FLOATS(rows.points) + 4 * i, points + 4 * at, 32) == 0);
    }
}

void one(const uint8_t *bytes, size_t len)
{
    struct input in = { bytes, len };
    size_t count = 1 + (take_byte(&in) & 1), less;
    struct listed listed = take_listed(&in, count, 120);
    uint64_t fault = epsilon_fault(listed.epsilon), answer;

    take_rows(&rows, &in, 2);
    less = take_byte(&in);
    if (fault == 0)
        fault = path_faults(listed.paths, listed.count, listed.large);
    if (fault == 0 && all_pairs(&listed) > 200000)
        return;
    /* as much as is needed, and a little less or more */
    boxes_room = fault == 0 ? needed(&listed) : 4 * less;
    if (less >= 128)
        boxes_room += less - 128;
    else
        boxes_room -= less < boxes_room ? less : boxes_room;
    lend(&boxes, 8 * boxes_room, less & 1);
    if (fault == 0 && boxes_room < needed(&listed))
        fault = refused(17, VJ_ITEM_BOXES, 0, 0);
    answer = list(&listed);
    MUST(paths_unchanged(&listed));
    if (rows.counts_room < 2)
        fault = VJ_NO_ROOM;
    if (answer != 0) {
        if (fault == 0)
            fault = refused(8, VJ_ITEM_ROWS, 0, 0);
        MUST(answer == fault);
        must_be_untouched(&rows);
        MUST(untouched(&boxes, 0));
        return;
    }
    MUST(fault == 0);
    must_be_rows(&rows, &listed);
    must_be_boxes(needed(&listed));
    must_be_full_rows(&listed);
}
