/* vj_mutual_page, vj_self_page, and both with large arcs: one page, then the rest. */
#include "../must.h"
#include "../one.h"
#include "../rows.h"
#include "vonjekona.h"

static struct rows rows;

void begin(void)
{
    rows_begin(&rows);
}

static uint64_t page(const struct listed *l, uint64_t position, uint64_t budget)
{
    const struct path *a = &l->paths[0], *b = &l->paths[1];
    uint64_t *indices = WORDS(rows.indices), *counts = WORDS(rows.counts);
    double *points = FLOATS(rows.points);

    if (l->count == 2)
        return (l->large ? vj_mutual_page_large : vj_mutual_page)(
            a->numbers, a->len, a->closed, b->numbers, b->len, b->closed,
            l->epsilon, position, budget, indices, rows.indices_room, points,
            rows.points_room, counts, rows.counts_room);
    return (l->large ? vj_self_page_large : vj_self_page)(
        a->numbers, a->len, a->closed, l->epsilon, position, budget, indices,
        rows.indices_room, points, rows.points_room, counts, rows.counts_room);
}

static uint64_t take_count(struct input *in)
{
    unsigned byte = take_byte(in);

    if (byte < 128)
        return byte;
    return take_word(in, byte < 192 ? 2 : 8);
}

/* The rows of all pages are those of the pairs: the sum of pages of a chain. */
static void chain(const struct listed *listed, uint64_t budget)
{
    uint64_t position = 0, all = all_pairs(listed);
    size_t whole, sum = 0;

    all_rows(&rows, 4);
    if (page(listed, 0, UINT64_MAX) != 0 || WORDS(rows.counts)[2] != all)
        return; /* more rows than there is room for */
    whole = WORDS(rows.counts)[0];
    while (position < all) {
        all_rows(&rows, 4);
        MUST(page(listed, position, budget) == 0);
        sum += must_be_rows(&rows, listed);
        MUST(WORDS(rows.counts)[2] > position);
        position = WORDS(rows.counts)[2];
    }
    MUST(sum == whole);
}

void one(const uint8_t *bytes, size_t len)
{
    struct input in = { bytes, len };
    size_t count = 1 + (take_byte(&in) & 1);
    struct listed listed = take_listed(&in, count, 120);
    uint64_t position = take_count(&in), budget = take_count(&in);
    uint64_t fault = epsilon_fault(listed.epsilon), answer, all, passed;

    take_rows(&rows, &in, 4);
    if (fault == 0)
        fault = path_faults(listed.paths, listed.count, listed.large);
    all = fault == 0 ? all_pairs(&listed) : 0;
    if (fault == 0 && position > all)
        fault = refused(13, VJ_ITEM_POSITION, 0, 0);
    if (fault == 0 && budget == 0)
        fault = refused(14, VJ_ITEM_BUDGET, 0, 0);
    if (fault == 0 && row_room(&rows, listed.large) == 0)
        fault = refused(8, VJ_ITEM_ROWS, 0, 0);
    if (fault == 0 && all > 200000 && budget > 200000)
        budget = 200000;
    answer = page(&listed, position, budget);
    MUST(paths_unchanged(&listed));
    if (rows.counts_room < 4)
        fault = VJ_NO_ROOM;
    MUST(answer == fault);
    if (answer != 0) {
        must_be_untouched(&rows);
        return;
    }
    must_be_rows(&rows, &listed);
    passed = WORDS(rows.counts)[1];
    MUST(passed <= budget && passed <= all - position);
    MUST(WORDS(rows.counts)[2] == position + passed);
    MUST(WORDS(rows.counts)[3] == all);
    MUST(passed > 0 || position == all);
    if (all <= 2000)
        chain(&listed, budget % 200 + 1);
}
