#include "take.h"

#include <float.h>
#include <math.h>
#include <string.h>

#define COUNT(a) (sizeof(a) / sizeof(a)[0])

uint8_t take_byte(struct input *in)
{
    if (in->left == 0)
        return 0;
    in->left--;
    return *in->at++;
}

uint64_t take_word(struct input *in, unsigned bytes)
{
    uint64_t word = 0;
    unsigned i;

    for (i = 0; i < bytes; i++)
        word |= (uint64_t)take_byte(in) << 8 * i;
    return word;
}

static double pattern(uint64_t bits)
{
    double x;

    memcpy(&x, &bits, sizeof x);
    return x;
}

/* Numbers at the limits, and those that are none. */
static double special(unsigned which)
{
    switch (which) {
    case 0: return -0.0;
    case 1: return pattern(0x7ff8000000000000);
    case 2: return pattern(0xfff8000000000000);
    case 3: return pattern(0x7ff0000000000001);
    case 4: return pattern(0xfff4000000000000);
    case 5: return INFINITY;
    case 6: return -INFINITY;
    case 7: return 1048576;
    case 8: return -1048576;
    case 9: return nextafter(1048576, INFINITY);
    case 10: return -nextafter(1048576, INFINITY);
    case 11: return 1;
    case 12: return -1;
    case 13: return nextafter(1, 2);
    case 14: return 16;
    case 15: return -16;
    case 16: return nextafter(16, 17);
    case 17: return 1e-8;
    case 18: return nextafter(1e-8, 0);
    case 19: return 0x1p-40;
    case 20: return nextafter(0x1p-40, 0);
    case 21: return 0.5;
    case 22: return nextafter(0.5, 1);
    case 23: return 1.0 / 1024;
    case 24: return DBL_MIN;
    case 25: return pattern(1);
    case 26: return DBL_MAX;
    case 27: return 255;
    case 28: return 256;
    case 29: return 0x1p48;
    case 30: return 0.1;
    default: return 0.41421356237309503; /* a quarter circle's bulge */
    }
}

static double small(unsigned byte, enum role role)
{
    static const double epsilons[] = {
        1.0 / 1024, 1e-5, 1e-8, 0.5, 0x1p-40, 0.25, 0x1p-20, 1e-3,
    };

    switch (role) {
    case BULGE: return ((int)byte - 64) / 64.0;
    case LARGE_BULGE: return ((int)byte - 64) / 4.0;
    case TRACE: return byte < 96 ? 0 : byte & 3;
    case EPSILON: return epsilons[byte % COUNT(epsilons)];
    default: return (int)byte - 64;
    }
}

double take_number(struct input *in, enum role role, const double *earlier,
                   size_t count)
{
    unsigned byte = take_byte(in);
    double before;

    if (byte < 128)
        return small(byte, role);
    if (byte < 160)
        return (int16_t)take_word(in, 2);
    if (byte < 176)
        return (int32_t)take_word(in, 4) / 65536.0;
    if (byte < 192)
        return pattern(take_word(in, 8));
    if (byte < 224)
        return special(byte - 192);
    before = count == 0 ? 0 : earlier[take_byte(in) % count];
    if (byte < 240)
        return before;
    return nextafter(before, byte < 248 ? INFINITY : -INFINITY);
}

size_t take_room(struct input *in, size_t most)
{
    size_t byte = take_byte(in);

    if (byte < 64)
        return byte < most ? byte : most;
    if (byte < 128)
        return take_word(in, 2) % (most + 1);
    return most;
}

/* One path after the other, each moved on. */
static size_t repeat(double *path, size_t vertices, size_t times, size_t most,
                     double by_x, double by_y)
{
    size_t n = vertices, i;

    for (; times > 0 && n + vertices <= most; times--)
        for (i = 0; i < vertices; i++, n++) {
            const double *from = path + 4 * (n - vertices);

            path[4 * n] = from[0] + by_x;
            path[4 * n + 1] = from[1] + by_y;
            path[4 * n + 2] = from[2];
            path[4 * n + 3] = from[3];
        }
    return n;
}

size_t take_path(struct input *in, bool large, size_t vertices, double *path)
{
    unsigned byte = take_byte(in);
    size_t n = byte & 15, len = 0, i;

    for (i = 0; i < n; i++) {
        path[len] = take_number(in, COORDINATE, path, len), len++;
        path[len] = take_number(in, COORDINATE, path, len), len++;
        path[len] = take_number(in, large ? LARGE_BULGE : BULGE, path, len);
        len++;
        path[len] = take_number(in, TRACE, path, len), len++;
    }
    if (byte >= 128 && n > 0) {
        size_t times = take_byte(in);
        double by_x = take_number(in, COORDINATE, path, len);
        double by_y = take_number(in, COORDINATE, path, len);

        /* one in eight of these is as long as can be, or too long */
        if (byte >= 240)
            len = 4 * repeat(path, n, SIZE_MAX, 4097, by_x, by_y);
        else
            len = 4 * repeat(path, n, times, vertices, by_x, by_y);
    }
    if (byte >= 112 && byte < 128)
        for (i = take_byte(in) & 3; i > 0; i--)
            path[len++] = 1;
    return len;
}
