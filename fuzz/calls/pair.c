/*
 * The kernels, the pair call, the same with findings, and with large arcs; and the
 * float functions on bit patterns.
 */
#include <math.h>
#include <string.h>

#include "../faults.h"
#include "../lent.h"
#include "../must.h"
#include "../one.h"
#include "../take.h"
#include "vonjekona.h"

#define NAN_BITS 0x7ff8000000000000u

static struct lent out, words;

void begin(void)
{
    out = lent_new(8 * 32);
    words = lent_new(8 * 32);
}

/* A refusal's word has only its own bits. */
static void must_be_refusal(uint64_t word, uint64_t owners, uint64_t indices)
{
    static const uint32_t numbers = 1 << 2 | 1 << 3 | 1 << 4 | 1 << 5 |
                                    1 << 9 | 1 << 11 | 1 << 12;

    MUST(VJ_IS_REFUSED(word));
    MUST(VJ_NUMBER(word) < 32 && (numbers >> VJ_NUMBER(word) & 1));
    MUST(VJ_ITEM(word) <= VJ_ITEM_CHORD || VJ_ITEM(word) == VJ_ITEM_CUT_X ||
         VJ_ITEM(word) == VJ_ITEM_CUT_Y);
    MUST(VJ_OWNER(word) < owners && VJ_INDEX(word) < indices);
    MUST((VJ_NUMBER(word) == 4) == (VJ_ITEM(word) == VJ_ITEM_EPSILON));
}

static bool all_finite(const double *numbers, size_t count)
{
    size_t i;

    for (i = 0; i < count; i++)
        if (!isfinite(numbers[i]))
            return false;
    return true;
}

/* The values of a case, and +0 behind them. */
static void must_be_values(size_t given)
{
    const double *values = FLOATS(out);
    uint64_t bits[4];

    MUST(all_finite(values, given));
    memcpy(bits, values, sizeof bits);
    for (; given < 4; given++)
        MUST(bits[given] == 0);
    MUST(untouched(&out, 32));
}

static void kernel(unsigned which, const double *n, double epsilon, size_t room)
{
    static const size_t given[3][4] = {
        { 0, 2, 2, 2 }, { 0, 1, 2, 0 }, { 0, 2, 4, 0 },
    };
    static const uint64_t cases[] = { 4, 3, 4 }, owners[] = { 4, 3, 2 };
    static const size_t counts[] = { 8, 7, 6 };
    uint64_t answer;

    if (which == 0)
        answer = vj_line_line_intr(n[0], n[1], n[2], n[3], n[4], n[5], n[6],
                                   n[7], epsilon, FLOATS(out), room);
    else if (which == 1)
        answer = vj_line_circle_intr(n[0], n[1], n[2], n[3], n[4], n[5], n[6],
                                     epsilon, FLOATS(out), room);
    else
        answer = vj_circle_circle_intr(n[0], n[1], n[2], n[3], n[4], n[5],
                                       epsilon, FLOATS(out), room);
    if (room < 4) {
        MUST(answer == VJ_NO_ROOM && untouched(&out, 0));
    } else if (VJ_IS_REFUSED(answer)) {
        must_be_refusal(answer, owners[which], 1);
        MUST(untouched(&out, 0));
    } else {
        MUST(answer < cases[which]);
        MUST(epsilon_fault(epsilon) == 0 && all_finite(n, counts[which]));
        must_be_values(given[which][answer]);
    }
}

/* The fault of a pair by its numbers: x, y and bulge of each vertex. */
static uint64_t pair_fault(const double *n, double epsilon, bool large)
{
    uint64_t fault = epsilon_fault(epsilon);
    double path[2][8];
    size_t i;

    for (i = 0; i < 2 && fault == 0; i++) {
        const double *v = n + 6 * i;
        const double copy[] = { v[0], v[1], v[2], 0, v[3], v[4], 0, 0 };

        memcpy(path[i], copy, sizeof copy);
    }
    /* numbers of both come before the chords of either */
    for (i = 0; i < 2 && fault == 0; i++) {
        double line[8];
        struct path alone = { line, 8, false };

        memcpy(line, path[i], sizeof line);
        fault = path_faults(&alone, 1, large);
        if (VJ_ITEM(fault) == VJ_ITEM_CHORD || VJ_ITEM(fault) >= VJ_ITEM_CUT_X)
            fault = 0;
        if (fault != 0)
            fault += (uint64_t)i << 24;
    }
    for (i = 0; i < 2 && fault == 0; i++) {
        struct path alone = { path[i], 8, false };

        fault = path_faults(&alone, 1, large);
        if (fault != 0)
            fault += (uint64_t)i << 24;
    }
    return fault;
}

static void plain(const double *n, double epsilon, size_t room,
                  size_t words_room)
{
    static const size_t given[] = { 0, 2, 2, 4, 4, 4 };
    uint64_t fault = pair_fault(n, epsilon, false), answer, again;
    double values[4];
    int i;

    answer = vj_pair(n[0], n[1], n[2], n[3], n[4], n[5], n[6], n[7], n[8],
                     n[9], n[10], n[11], epsilon, FLOATS(out), room);
    if (room < 4 || fault != 0) {
        MUST(answer == (room < 4 ? VJ_NO_ROOM : fault));
        MUST(untouched(&out, 0));
    } else {
        MUST(answer <= 5);
        must_be_values(given[answer]);
        memcpy(values, FLOATS(out), sizeof values);
    }
    lend(&out, out.bytes, room & 1);
    again = vj_pair_findings(n[0], n[1], n[2], n[3], n[4], n[5], n[6], n[7],
                             n[8], n[9], n[10], n[11], epsilon, FLOATS(out),
                             room, WORDS(words), words_room);
    if (room < 4 || words_room < 4 || fault != 0) {
        MUST(again == (room < 4 || words_room < 4 ? VJ_NO_ROOM : fault));
        MUST(untouched(&out, 0) && untouched(&words, 0));
        return;
    }
    MUST(again == answer && untouched(&out, 32) && untouched(&words, 32));
    MUST(memcmp(values, FLOATS(out), sizeof values) == 0);
    for (i = 0; i < 4; i++)
        MUST(WORDS(words)[i] <= VJ_NOT_TESTED);
}

static void large(const double *n, double epsilon, size_t room,
                  size_t words_room)
{
    uint64_t fault = pair_fault(n, epsilon, true), answer, i;

    answer = vj_pair_large(n[0], n[1], n[2], n[3], n[4], n[5], n[6], n[7],
                           n[8], n[9], n[10], n[11], epsilon, WORDS(words),
                           words_room, FLOATS(out), room);
    if (room < 16 || words_room < 12)
        fault = VJ_NO_ROOM;
    if (fault != 0) {
        MUST(answer == fault);
        MUST(untouched(&out, 0) && untouched(&words, 0));
        return;
    }
    MUST(answer == (fabs(n[2]) > 1 ? 2u : 1u) * (fabs(n[8]) > 1 ? 2u : 1u));
    for (i = 0; i < answer; i++) {
        const uint64_t *result = WORDS(words) + 3 * i;

        MUST(result[0] <= 2 && result[1] <= 2 && result[2] <= 5);
        MUST(all_finite(FLOATS(out) + 4 * i, 4));
    }
    MUST(untouched(&out, 32 * answer) && untouched(&words, 24 * answer));
}

static double value(uint64_t bits)
{
    double x;

    memcpy(&x, &bits, 8);
    return x;
}

static uint64_t pattern(double x)
{
    uint64_t bits;

    memcpy(&bits, &x, 8);
    return bits;
}

/* The smaller of two numbers, or the larger one, by the header's words. */
static uint64_t chosen(uint64_t a, uint64_t b, bool smaller)
{
    if (isnan(value(a)) && isnan(value(b)))
        return NAN_BITS;
    if (isnan(value(a)) || isnan(value(b)))
        return isnan(value(a)) ? b : a;
    if (value(a) == value(b))
        return b;
    return (value(a) < value(b)) == smaller ? a : b;
}

static void floats(uint64_t a, uint64_t b)
{
    double root = sqrt(value(a));

    MUST(vj_sqrt_bits(a) == (isnan(root) ? NAN_BITS : pattern(root)));
    MUST(vj_abs_bits(a) == (a & ~(uint64_t)0 >> 1));
    MUST(vj_min_bits(a, b) == chosen(a, b, true));
    MUST(vj_max_bits(a, b) == chosen(a, b, false));
}

void one(const uint8_t *bytes, size_t len)
{
    struct input in = { bytes, len };
    unsigned which = take_byte(&in) % 6, ends = take_byte(&in);
    size_t room = ends & 16 ? take_byte(&in) % 24 : 16;
    size_t words_room = ends & 32 ? take_byte(&in) % 24 : 12;
    double epsilon = take_number(&in, EPSILON, NULL, 0), n[12];
    size_t i;

    for (i = 0; i < 12; i++) {
        bool bulge = which >= 3 && i % 3 == 2;

        n[i] = take_number(&in, !bulge ? COORDINATE : which == 4 ? LARGE_BULGE
                                : BULGE, n, i);
    }
    lend(&out, 8 * room, ends & 1);
    lend(&words, 8 * words_room, ends & 2);
    switch (which) {
    case 3:
        plain(n, epsilon, room, words_room);
        break;
    case 4:
        large(n, epsilon, room, words_room);
        break;
    case 5:
        floats(pattern(n[0]), pattern(n[1]));
        break;
    default:
        kernel(which, n, epsilon, room);
    }
}
