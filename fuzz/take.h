/*
 * The arguments of a call from the bytes of an input. Bytes that are missing are
 * 0, so each input stands for some arguments. seeds.py writes the same form.
 */
#ifndef TAKE_H
#define TAKE_H

#include <stdbool.h>
#include <stddef.h>
#include <stdint.h>

struct input {
    const uint8_t *at;
    size_t left;
};

/* What a number is for: it decides what the first 128 first bytes stand for. */
enum role { COORDINATE, BULGE, LARGE_BULGE, TRACE, EPSILON };

uint8_t take_byte(struct input *in);
uint64_t take_word(struct input *in, unsigned bytes);

/*
 * A number. One byte says how it is written: below 128 a small number of its
 * role; then whole numbers of two bytes, 65,536ths of four, the eight bytes of a
 * pattern, numbers at each limit, and numbers that stood before in `earlier`, or
 * are next to one.
 */
double take_number(struct input *in, enum role role, const double *earlier,
                   size_t count);

/* A whole number for a room: up to `most`, mostly small, sometimes the most. */
size_t take_room(struct input *in, size_t most);

/* The most numbers that take_path writes, one vertex more than a path may have. */
#define MOST_NUMBERS (4 * 4097 + 3)

/*
 * A path of up to 15 vertices, perhaps repeated with a shift, up to so many
 * vertices; or up to 4,097, or with one to three numbers more. Answers how many
 * numbers it has.
 */
size_t take_path(struct input *in, bool large, size_t vertices, double *path);

#endif
