/*
 * A month's report: how many layouts there were, how their pairs met, and why
 * some were refused. Two machines list layouts, each with a report of its own.
 * At the month's end the two are joined, and printed as a table. From the
 * repository's root:
 *
 *   tools/make capi
 *   cc -std=c11 -Wall -Wextra -Werror -Iinclude examples/month.c \
 *      target/staticlib/libcapi.a -o month && ./month
 */
#include <inttypes.h>
#include <math.h>
#include <stdio.h>

#include "vonjekona.h"

#define COUNT(a) (sizeof(a) / sizeof(a)[0])

#define ROWS 16
#define EPSILON (1.0 / 1024.0)

/*
 * x, y, and the bulge and the trace of the segment that starts there, for each
 * vertex.
 */

/* A track of lines, wound inwards: 7 segments, open. */
static const double track[] = {
    0, 0, 0, 0,  8, 0, 0, 0,  8, 6, 0, 0,  1, 6, 0, 0,
    1, 1, 0, 0,  7, 1, 0, 0,  7, 5, 0, 0,  2, 5, 0, 0,
};

/* A slot across it, one end of which is a half circle: 4 segments, closed. */
static const double slot[] = {
    4, -1, 0, 0,  5, -1, 0, 0,  5, 6.5, -1, 0,  4, 6.5, 0, 0,
};

/* A pad, closed, of trace 1; and a track of trace 1 that runs into it. */
static const double pad[] = { 4, 3, 1, 1,  4, 1, 1, 1 };
static const double to_pad[] = { 0, 2, 0, 1,  4, 2, 0, 1 };

/* The same track without a trace, and one that runs along it. */
static const double plain[] = { 0, 2, 0, 0,  4, 2, 0, 0 };
static const double along[] = { 2, 2, 0, 0,  6, 2, 0, 0 };

/* Numbers that are refused: a trace of 256, and an x that is NaN. */
static const double bad_trace[] = { 0, 2, 0, 256,  4, 2, 0, 0 };
static const double bad_x[] = { 0, 2, 0, 0,  NAN, 2, 0, 0 };

/* By the refusal's number. Those of a listing are no larger than 15. */
#define MOST_NUMBER 15

static const char *reason(uint64_t number)
{
    switch (number) {
    case 2: return "a coordinate is too large";
    case 3: return "a bulge is above 1";
    case 4: return "epsilon is out of range";
    case 5: return "an arc's chord is too short";
    case 6: return "no whole vertices";
    case 7: return "too many vertices";
    case 8: return "too many rows";
    case 11: return "a number is NaN";
    case 12: return "a number is infinite";
    case 15: return "no such trace";
    default: return "no refusal of a listing";
    }
}

static const char *const classes[] = {
    "apart", "tangent", "one point", "two points", "lines overlap",
    "arcs overlap",
};

/* A text line of the table: a count, and how much of the whole it is. */
static void show_part(const char *name, uint64_t part, uint64_t whole)
{
    double percent = whole == 0 ? 0 : 100.0 * part / whole;

    printf("    %-17s %8" PRIu64 " %5.1f %%\n", name, part, percent);
}

/* A report as a table. */
static void show(const char *title, const uint64_t *report)
{
    uint64_t layouts = report[VJ_REPORT_LAYOUTS];
    uint64_t pairs = report[VJ_REPORT_PAIRS];
    uint64_t refused = 0;
    size_t i;

    for (i = 0; i <= MOST_NUMBER; i++)
        refused += report[VJ_REPORT_REFUSED(i)];
    printf("%s\n", title);
    printf("  layouts             %8" PRIu64 "\n", layouts);
    show_part("listed", layouts - refused, layouts);
    show_part("refused", refused, layouts);
    for (i = 0; i <= MOST_NUMBER; i++) {
        uint64_t with = report[VJ_REPORT_REFUSED(i)];

        if (with > 0)
            printf("      %2zu              %8" PRIu64 "  %s\n", i, with,
                   reason(i));
    }
    printf("  pairs looked at     %8" PRIu64 "\n", pairs);
    for (i = 0; i < COUNT(classes); i++)
        show_part(classes[i], report[VJ_REPORT_CLASS(i)], pairs);
}

static uint64_t indices[3 * ROWS], counts[2];
static double points[4 * ROWS];

/* An open path with another, counted; there is room for so many rows. */
static uint64_t count(const double *first, size_t first_len,
                      const double *second, size_t second_len,
                      bool second_closed, size_t rows, uint64_t *report)
{
    return vj_mutual_counted(first, first_len, false, second, second_len,
                             second_closed, EPSILON, indices, 3 * rows, points,
                             4 * rows, counts, COUNT(counts), report,
                             VJ_REPORT_WORDS);
}

/* What a call returned: done, or the refusal's number. */
static void tell(const char *what, uint64_t answer)
{
    if (answer == 0)
        printf("%s: done\n", what);
    else
        printf("%s: refused %" PRIu64 ", %s\n", what, VJ_NUMBER(answer),
               VJ_ITEM(answer) == VJ_ITEM_REPORT ? "the report" : "the layout");
}

int main(void)
{
    /* fresh reports are all zeros */
    uint64_t one[VJ_REPORT_WORDS] = { 0 }, two[VJ_REPORT_WORDS] = { 0 };
    uint64_t full[VJ_REPORT_WORDS] = { 0 }, last[VJ_REPORT_WORDS] = { 0 };
    uint64_t i, answer = 0;

    /*
     * the first machine: nine rows, and the same with too little room; a track
     * at a pad, and the same of one trace, which is skipped
     */
    count(track, COUNT(track), slot, COUNT(slot), true, ROWS, one);
    tell("nine rows, room for eight",
         count(track, COUNT(track), slot, COUNT(slot), true, 8, one));
    count(plain, COUNT(plain), pad, COUNT(pad), true, ROWS, one);
    count(to_pad, COUNT(to_pad), pad, COUNT(pad), true, ROWS, one);
    show("machine 1", one);

    /* the second: tracks that overlap, and numbers that are refused */
    count(plain, COUNT(plain), along, COUNT(along), false, ROWS, two);
    count(track, COUNT(track), along, COUNT(along), false, ROWS, two);
    tell("a trace of 256",
         count(bad_trace, COUNT(bad_trace), pad, COUNT(pad), true, ROWS, two));
    tell("an x that is NaN",
         count(bad_x, COUNT(bad_x), pad, COUNT(pad), true, ROWS, two));
    show("machine 2", two);

    tell("machine 2 joined to machine 1",
         vj_join(one, COUNT(one), two, COUNT(two)));
    show("both", one);

    /* a report has at most 10,000 layouts */
    for (i = 0; i < 10000 && answer == 0; i++)
        answer = count(plain, COUNT(plain), along, COUNT(along), false, ROWS,
                       full);
    tell("10,000 layouts", answer);
    tell("one more",
         count(plain, COUNT(plain), along, COUNT(along), false, ROWS, full));
    tell("one more, and with a fault",
         count(bad_x, COUNT(bad_x), along, COUNT(along), false, ROWS, full));
    count(plain, COUNT(plain), along, COUNT(along), false, ROWS, last);
    tell("10,000 and 1 joined",
         vj_join(full, COUNT(full), last, COUNT(last)));
    show("a full report", full);
    return 0;
}
