/*
 * Wrong answers on purpose: the linker puts these calls before the library's, and
 * fuzz/test sees that the harnesses notice each. DEFECT is the number of one.
 */
#include <math.h>
#include <string.h>

#include "vonjekona.h"

#define TWO_PATHS                                                             \
    const double *first, size_t first_len, bool first_closed,                 \
        const double *second, size_t second_len, bool second_closed,          \
        double epsilon
#define ROWS                                                                  \
    uint64_t *indices, size_t indices_room, double *points,                   \
        size_t points_room, uint64_t *counts, size_t counts_room
#define GIVEN                                                                 \
    first, first_len, first_closed, second, second_len, second_closed, epsilon
#define LENT indices, indices_room, points, points_room, counts, counts_room

uint64_t __real_vj_mutual(TWO_PATHS, ROWS);
uint64_t __wrap_vj_mutual(TWO_PATHS, ROWS);
uint64_t __real_vj_mutual_page(TWO_PATHS, uint64_t position, uint64_t budget,
                               ROWS);
uint64_t __wrap_vj_mutual_page(TWO_PATHS, uint64_t position, uint64_t budget,
                               ROWS);
uint64_t __real_vj_mutual_boxed(TWO_PATHS, double *boxes, size_t boxes_room,
                                ROWS);
uint64_t __wrap_vj_mutual_boxed(TWO_PATHS, double *boxes, size_t boxes_room,
                                ROWS);
uint64_t __real_vj_mutual_counted(TWO_PATHS, ROWS, uint64_t *report,
                                  size_t report_room);
uint64_t __wrap_vj_mutual_counted(TWO_PATHS, ROWS, uint64_t *report,
                                  size_t report_room);

/* Listings: 1 to 12. */
uint64_t __wrap_vj_mutual(TWO_PATHS, ROWS)
{
    uint64_t word = __real_vj_mutual(GIVEN, LENT), rows, kept;
    bool listed = word == 0, some = listed && counts[0] > 0;

    rows = listed ? counts[0] : 0;
    switch (DEFECT) {
    case 1: /* a row is dropped */
        if (some)
            counts[0]--;
        break;
    case 2: /* a word behind the last row */
        if (listed && indices_room > 3 * rows)
            indices[3 * rows] = 0;
        break;
    case 3: /* a number behind the slice */
        if (listed)
            points[points_room] = 0;
        break;
    case 4: /* the counts of a refusal */
        if (VJ_IS_REFUSED(word))
            counts[0] = 0;
        break;
    case 5: /* the vertex after the fault */
        if (VJ_IS_REFUSED(word) && VJ_NUMBER(word) < 4)
            word += (uint64_t)1 << 32;
        break;
    case 6: /* a NaN is taken */
        if (VJ_IS_REFUSED(word) && VJ_NUMBER(word) == 11) {
            counts[0] = counts[1] = 0;
            word = 0;
        }
        break;
    case 7: /* two rows are exchanged */
        if (rows > 1) {
            kept = indices[1];
            indices[1] = indices[4];
            indices[4] = kept;
        }
        break;
    case 8: /* a last bit */
        if (some)
            points[0] = nextafter(points[0], INFINITY);
        break;
    case 9: /* the path is written to */
        if (first_len > 0)
            ((double *)(uintptr_t)first)[0] = 7;
        break;
    case 10: /* a number before the path is read */
        if (first_len > 0 && first[-1] == 0.125)
            word = 0;
        break;
    case 11: /* no refusal of too little room */
        if (word == VJ_NO_ROOM)
            word = 0;
        break;
    case 12: /* a pair too many */
        if (listed)
            counts[1] = first_len * second_len;
        break;
    }
    return word;
}

/* Pages: 13 to 15. */
uint64_t __wrap_vj_mutual_page(TWO_PATHS, uint64_t position, uint64_t budget,
                               ROWS)
{
    uint64_t word = __real_vj_mutual_page(GIVEN, position, budget, LENT);

    if (word == 0 && DEFECT == 13)
        counts[2]++;
    if (word == 0 && DEFECT == 14 && counts[0] > 0)
        counts[0]--, counts[1]--, counts[2]--;
    if (word == 0 && DEFECT == 15 && budget > 100 && counts[0] > 1)
        counts[0]--; /* only a chain of pages shows it */
    return word;
}

/* Boxed listings: 16 to 18. */
uint64_t __wrap_vj_mutual_boxed(TWO_PATHS, double *boxes, size_t boxes_room,
                                ROWS)
{
    uint64_t word = __real_vj_mutual_boxed(GIVEN, boxes, boxes_room, LENT);

    if (word == 0 && DEFECT == 16 && boxes_room > 0)
        boxes[0] = -0.0;
    if (VJ_IS_REFUSED(word) && DEFECT == 17 && boxes_room > 0)
        boxes[boxes_room - 1] = 0;
    if (word == 0 && DEFECT == 18 && counts[0] > 0)
        points[1] += 1;
    return word;
}

/* Counted listings: 19 to 21. */
uint64_t __wrap_vj_mutual_counted(TWO_PATHS, ROWS, uint64_t *report,
                                  size_t report_room)
{
    uint64_t word = __real_vj_mutual_counted(GIVEN, LENT, report, report_room);

    if (word == 0 && DEFECT == 19)
        report[VJ_REPORT_CLASS(0)]++;
    if (VJ_IS_REFUSED(word) && DEFECT == 20)
        report[VJ_REPORT_LAYOUTS]--;
    if (word == 0 && DEFECT == 21)
        report[report_room] = 0;
    return word;
}

/* A join: 22. */
uint64_t __real_vj_join(uint64_t *, size_t, const uint64_t *, size_t);
uint64_t __wrap_vj_join(uint64_t *, size_t, const uint64_t *, size_t);
uint64_t __wrap_vj_join(uint64_t *into, size_t room, const uint64_t *other,
                        size_t len)
{
    uint64_t word = __real_vj_join(into, room, other, len);

    if (word == 0 && DEFECT == 22)
        into[0]++;
    return word;
}

/* The line and the circle: 23. */
uint64_t __real_vj_line_circle_intr(double, double, double, double, double,
                                    double, double, double, double *, size_t);
uint64_t __wrap_vj_line_circle_intr(double, double, double, double, double,
                                    double, double, double, double *, size_t);
uint64_t __wrap_vj_line_circle_intr(double a, double b, double c, double d,
                                    double r, double x, double y, double e,
                                    double *out, size_t room)
{
    uint64_t word = __real_vj_line_circle_intr(a, b, c, d, r, x, y, e, out,
                                               room);

    if (word < 2 && DEFECT == 23)
        out[3] = -0.0;
    return word;
}

/*
 * Drawings: 24 to 29. The first inputs do not show 30, a crash, and 31, a hang:
 * afl-fuzz has to find them.
 */
uint64_t __real_vj_dxf_import(const uint8_t *, size_t, double *, size_t,
                              uint64_t *, size_t);
uint64_t __wrap_vj_dxf_import(const uint8_t *, size_t, double *, size_t,
                              uint64_t *, size_t);
uint64_t __wrap_vj_dxf_import(const uint8_t *text, size_t len, double *path,
                              size_t room, uint64_t *told, size_t told_room)
{
    uint64_t word = __real_vj_dxf_import(text, len, path, room, told,
                                         told_room);

    if (word == 0 && DEFECT == 24 && told[0] > 0)
        path[3] = -0.0;
    if (VJ_IS_REFUSED(word) && DEFECT == 25 && room > 0)
        path[0] = 0;
    if (VJ_IS_REFUSED(word) && DEFECT == 26)
        word += (uint64_t)1 << 24;
    if (word == 0 && DEFECT == 27 && told[0] > 1)
        path[4] += 0.5; /* only coming back shows it */
    if (VJ_IS_REFUSED(word) && DEFECT == 30 && VJ_NUMBER(word) == 22)
        *(volatile int *)0 = 0;
    while (VJ_IS_REFUSED(word) && DEFECT == 31 && VJ_NUMBER(word) == 22)
        ;
    return word;
}

uint64_t __real_vj_dxf_export(const double *, size_t, bool, uint8_t *, size_t,
                              uint64_t *, size_t);
uint64_t __wrap_vj_dxf_export(const double *, size_t, bool, uint8_t *, size_t,
                              uint64_t *, size_t);
uint64_t __wrap_vj_dxf_export(const double *path, size_t len, bool closed,
                              uint8_t *text, size_t room, uint64_t *told,
                              size_t told_room)
{
    uint64_t word = __real_vj_dxf_export(path, len, closed, text, room, told,
                                         told_room);

    if (word == 0 && DEFECT == 28 && room > told[0])
        text[told[0]] = 0;
    if (VJ_IS_REFUSED(word) && DEFECT == 29 && VJ_NUMBER(word) == 23)
        word += (uint64_t)1 << 32;
    return word;
}
