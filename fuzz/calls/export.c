/* vj_dxf_export and vj_dxf_export_large: what is written is read back, bit for bit. */
#include <math.h>
#include <string.h>

#include "../faults.h"
#include "../lent.h"
#include "../must.h"
#include "../one.h"
#include "../take.h"
#include "vonjekona.h"

#define MOST_TEXT VJ_DXF_BYTES_LARGE(4096)

static struct lent path, text, told;
static double taken[MOST_NUMBERS], again[4 * 4096];

void begin(void)
{
    path = lent_new(sizeof taken);
    text = lent_new(MOST_TEXT);
    told = lent_new(64);
}

/* The number rounded to six digits, by the C library; -0 becomes 0. */
static double rounded(double x)
{
    char digits[64];

    if (!isfinite(x) || fabs(x) > 1e7)
        return x;
    snprintf(digits, sizeof digits, "%.6f", x);
    return strtod(digits, NULL) + 0.0;
}

/* The first number that six digits do not spell. */
static uint64_t spelling_fault(const struct path *p)
{
    static const uint64_t items[] = { VJ_ITEM_X, VJ_ITEM_Y, VJ_ITEM_BULGE };
    size_t i;

    for (i = 0; i < p->len; i++) {
        double x = p->numbers[i], back = rounded(x);

        if (i % 4 < 3 && memcmp(&x, &back, 8) != 0)
            return refused(23, items[i % 4], 0, i / 4);
    }
    return 0;
}

void one(const uint8_t *bytes, size_t len)
{
    struct input in = { bytes, len };
    unsigned flags = take_byte(&in);
    bool large = flags & 1;
    struct path p = { taken, take_path(&in, large, 300, taken), flags & 2 };
    size_t told_room = flags & 4 ? take_byte(&in) & 3 : 1, room, i;
    uint64_t fault, answer, words[2];

    if (flags & 8) /* numbers that can be exported */
        for (i = 0; i < p.len; i++)
            taken[i] = rounded(taken[i]);
    room = take_room(&in, MOST_TEXT);
    lend_filled(&path, taken, 8 * p.len, flags & 16);
    lend(&text, room, flags & 32);
    lend(&told, 8 * told_room, flags & 64);
    fault = path_faults(&p, 1, large);
    if (fault == 0)
        fault = spelling_fault(&p);
    answer = (large ? vj_dxf_export_large : vj_dxf_export)(
        FLOATS(path), p.len, p.closed, text.start, room, WORDS(told),
        told_room);
    MUST(unchanged(&path, taken));
    if (told_room < 1)
        fault = VJ_NO_ROOM;
    if (answer != 0) {
        MUST(answer == (fault ? fault : refused(24, VJ_ITEM_ROOM, 0, 0)));
        MUST(fault != 0 || room < (large ? VJ_DXF_BYTES_LARGE(p.len / 4)
                                         : VJ_DXF_BYTES(p.len / 4)));
        MUST(untouched(&text, 0) && untouched(&told, 0));
        return;
    }
    MUST(fault == 0 && WORDS(told)[0] <= room);
    MUST(untouched(&text, WORDS(told)[0]) && untouched(&told, 8));
    MUST((large ? vj_dxf_import_large : vj_dxf_import)(
             text.start, WORDS(told)[0], again, 4 * 4096, words, 2) == 0);
    MUST(words[0] == p.len / 4 && words[1] == p.closed);
    for (i = 0; i < p.len; i++)
        MUST(i % 4 == 3 || memcmp(again + i, taken + i, 8) == 0);
}
