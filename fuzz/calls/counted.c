/* vj_mutual_counted, with large arcs too, and vj_join. */
#include <string.h>

#include "../must.h"
#include "../one.h"
#include "../rows.h"
#include "vonjekona.h"

#define MOST_WORDS 44
#define LIMIT (UINT64_MAX - 67108864)

static struct rows rows;
static struct lent report, other;

void begin(void)
{
    rows_begin(&rows);
    report = lent_new(8 * MOST_WORDS);
    other = lent_new(8 * MOST_WORDS);
}

/* A report: zeros, but for words that are named one after the other. */
static size_t take_report(struct input *in, uint64_t *words)
{
    unsigned changes = take_byte(in);
    size_t room = changes & 128 ? take_byte(in) % MOST_WORDS : 40;

    memset(words, 0, 8 * MOST_WORDS);
    for (changes &= 7; changes > 0; changes--) {
        size_t at = take_byte(in) % MOST_WORDS;
        unsigned how = take_byte(in);

        words[at] = how < 64 ? how : how < 128 ? 10000 - (how & 3)
                    : how < 192 ? LIMIT + (how & 3) - 1 : take_word(in, 8);
    }
    return room;
}

static bool is_full(const uint64_t *words)
{
    int i;

    for (i = 1; i < 40; i++)
        if (words[i] > LIMIT)
            return true;
    return words[0] >= 10000;
}

/* What a join must leave, or false if it is refused. */
static bool joined(const uint64_t *a, const uint64_t *b, uint64_t *sum)
{
    int i;

    for (i = 0; i < 40; i++) {
        sum[i] = a[i] + b[i];
        if (sum[i] < a[i])
            return false;
    }
    return sum[0] <= 10000;
}

static void join(struct input *in)
{
    uint64_t a[MOST_WORDS], b[MOST_WORDS], sum[40], answer;
    size_t room = take_report(in, a), len = take_report(in, b);
    unsigned ends = take_byte(in);

    lend_filled(&report, a, 8 * room, ends & 1);
    lend_filled(&other, b, 8 * len, ends & 2);
    answer = vj_join(WORDS(report), room, WORDS(other), len);
    MUST(unchanged(&other, b));
    if (room < 40 || len < 40) {
        MUST(answer == VJ_NO_ROOM);
        MUST(unchanged(&report, a));
    } else if (!joined(a, b, sum)) {
        MUST(answer == refused(19, VJ_ITEM_REPORT, 0, 0));
        MUST(unchanged(&report, a));
    } else {
        MUST(answer == 0);
        memcpy(a, sum, sizeof sum);
        MUST(unchanged(&report, a));
    }
}

static void count(struct input *in)
{
    struct listed l = take_listed(in, 2, 120);
    const struct path *a = &l.paths[0], *b = &l.paths[1];
    uint64_t words[MOST_WORDS], fault = epsilon_fault(l.epsilon), answer;
    size_t room = take_report(in, words), found, i;

    take_rows(&rows, in, 2);
    lend_filled(&report, words, 8 * room, take_byte(in) & 1);
    if (fault == 0)
        fault = path_faults(l.paths, 2, l.large);
    if (fault == 0 && all_pairs(&l) > 200000)
        return;
    answer = (l.large ? vj_mutual_counted_large : vj_mutual_counted)(
        a->numbers, a->len, a->closed, b->numbers, b->len, b->closed,
        l.epsilon, WORDS(rows.indices), rows.indices_room, FLOATS(rows.points),
        rows.points_room, WORDS(rows.counts), rows.counts_room, WORDS(report),
        room);
    MUST(paths_unchanged(&l));
    if (rows.counts_room < 2 || room < 40) {
        MUST(answer == VJ_NO_ROOM);
        must_be_untouched(&rows);
    } else if (is_full(words)) {
        MUST(answer == refused(19, VJ_ITEM_REPORT, 0, 0));
        must_be_untouched(&rows);
    } else if (answer != 0) {
        MUST(answer == (fault ? fault : refused(8, VJ_ITEM_ROWS, 0, 0)));
        must_be_untouched(&rows);
        words[VJ_REPORT_LAYOUTS]++;
        words[VJ_REPORT_REFUSED(VJ_NUMBER(answer))]++;
    } else {
        uint64_t pairs = WORDS(rows.counts)[1];

        MUST(fault == 0);
        found = must_be_rows(&rows, &l);
        words[VJ_REPORT_LAYOUTS]++;
        words[VJ_REPORT_PAIRS] += pairs;
        words[VJ_REPORT_CLASS(0)] += pairs - found;
        for (i = 1; i <= found; i++)
            words[VJ_REPORT_CLASS(WORDS(rows.indices)[WIDTH(&l) * i - 1])]++;
    }
    MUST(unchanged(&report, words));
}

void one(const uint8_t *bytes, size_t len)
{
    struct input in = { bytes, len };

    if (take_byte(&in) & 1)
        join(&in);
    else
        count(&in);
}
