#include "faults.h"

#include <math.h>

#include "vonjekona.h"

uint64_t refused(uint64_t number, uint64_t item, uint64_t owner,
                 uint64_t index)
{
    return VJ_REFUSED + number + (item << 16) + (owner << 24) + (index << 32);
}

uint64_t epsilon_fault(double epsilon)
{
    bool fine = epsilon >= 0x1p-40 && epsilon <= 0.5;

    return fine ? 0 : refused(4, VJ_ITEM_EPSILON, 0, 0);
}

static size_t whole_segments(const struct path *path)
{
    size_t n = path->len / 4;

    return n < 2 ? 0 : path->closed ? n : n - 1;
}

bool is_cut(const struct path *path, size_t i)
{
    return fabs(path->numbers[4 * i + 2]) > 1;
}

size_t segments(const struct path *path, bool large)
{
    size_t n = whole_segments(path), cut = 0, i;

    for (i = 0; large && i < n; i++)
        cut += is_cut(path, i);
    return n + cut;
}

static uint64_t length_fault(const struct path *path, uint64_t owner)
{
    if (path->len % 4 != 0)
        return refused(6, VJ_ITEM_LENGTH, owner, 0);
    if (path->len / 4 > 4096)
        return refused(7, VJ_ITEM_LENGTH, owner, 0);
    return 0;
}

static uint64_t number_fault(double x, unsigned place, bool large)
{
    if (isnan(x))
        return 11;
    if (isinf(x))
        return 12;
    if (place < 2)
        return fabs(x) > 1048576 ? 2 : 0;
    if (place == 2)
        return fabs(x) > (large ? 16 : 1) ? 3 : 0;
    return x >= 0 && x <= 255 && x == floor(x) ? 0 : 15;
}

static bool is_short(double x1, double y1, double x2, double y2)
{
    double x = x2 - x1, y = y2 - y1;

    return sqrt(x * x + y * y) < 0x1p-40;
}

/* Segment i: the chord of an arc, or the cut point and both halves. */
static uint64_t segment_fault(const struct path *path, size_t i, bool large,
                              uint64_t owner)
{
    const double *from = path->numbers + 4 * i;
    const double *to = i + 1 == path->len / 4 ? path->numbers : from + 4;
    double bulge = from[2], x, y;

    if (fabs(bulge) < 1e-8)
        return 0;
    if (!large || !is_cut(path, i)) {
        if (is_short(from[0], from[1], to[0], to[1]))
            return refused(5, VJ_ITEM_CHORD, owner, i);
        return 0;
    }
    x = (from[0] + to[0]) / 2 + bulge * (to[1] - from[1]) / 2;
    y = (from[1] + to[1]) / 2 - bulge * (to[0] - from[0]) / 2;
    if (fabs(x) > 1048576)
        return refused(2, VJ_ITEM_CUT_X, owner, i);
    if (fabs(y) > 1048576)
        return refused(2, VJ_ITEM_CUT_Y, owner, i);
    if (is_short(from[0], from[1], x, y) || is_short(x, y, to[0], to[1]))
        return refused(5, VJ_ITEM_CHORD, owner, i);
    return 0;
}

static uint64_t inner_fault(const struct path *path, bool large,
                            uint64_t owner)
{
    static const uint64_t items[] = {
        VJ_ITEM_X, VJ_ITEM_Y, VJ_ITEM_BULGE, VJ_ITEM_TRACE,
    };
    size_t i;
    uint64_t fault;

    for (i = 0; i < path->len; i++) {
        fault = number_fault(path->numbers[i], i % 4, large);
        if (fault != 0)
            return refused(fault, items[i % 4], owner, i / 4);
    }
    for (i = 0; i < whole_segments(path); i++) {
        fault = segment_fault(path, i, large, owner);
        if (fault != 0)
            return fault;
    }
    return 0;
}

uint64_t path_faults(const struct path *paths, size_t count, bool large)
{
    uint64_t fault = 0;
    size_t i;

    for (i = 0; i < count && fault == 0; i++)
        fault = length_fault(&paths[i], i);
    for (i = 0; i < count && fault == 0; i++)
        fault = inner_fault(&paths[i], large, i);
    return fault;
}
