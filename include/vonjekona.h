/*
 * Vonjekona: the calls of the static library, for C and C++.
 *
 * Every call answers for every argument: it always returns, it reads and writes
 * no memory of the caller except what is lent to it, and it has no state
 * between calls. What this file says of each answer is proved of the source from
 * which the library is compiled.
 *
 * Link with target/staticlib/libcapi.a (x86-64 Linux). The calls whose names end
 * in `_large` are in target/staticlib/libcapi_large.a.
 */
#ifndef VONJEKONA_H
#define VONJEKONA_H

#include <stdbool.h>
#include <stddef.h>
#include <stdint.h>

#ifdef __cplusplus
extern "C" {
#endif

/*
 * Float functions on binary64 numbers. The bits of a NaN answer are left open;
 * the functions on patterns, below, fix them too.
 */

/* The absolute value: x without its sign. A NaN stays a NaN. */
double vj_abs(double x);

/*
 * The smaller of x and y. Equal operands give y; zeros of either sign are
 * equal. If one operand is a NaN, quiet or signalling, the answer is the other
 * one; two NaNs give a NaN.
 */
double vj_min(double x, double y);

/* The larger of x and y. Equal operands and NaNs: as for vj_min. */
double vj_max(double x, double y);

/*
 * The square root, correctly rounded for every x, subnormal ones included: no
 * binary64 number is nearer to the exact root. The root of -0 is -0, and the
 * root of +infinity is +infinity. A NaN or a number below zero gives a NaN.
 * It is worked out with shifts, sums, differences and comparisons: the machine
 * makes no product, no quotient and no root for it.
 */
double vj_sqrt(double x);

/*
 * The same four functions on the bit patterns of binary64 numbers. Here every
 * bit of every answer is fixed.
 */

/* b with its highest bit, the sign, cleared. A NaN's pattern is no exception. */
uint64_t vj_abs_bits(uint64_t b);

/*
 * The pattern, a or b, of the smaller number. Equal numbers give b; zeros of
 * either sign are equal. If one pattern is a NaN's, quiet or signalling, the
 * answer is the other one, unchanged; two NaNs give 7FF8000000000000.
 */
uint64_t vj_min_bits(uint64_t a, uint64_t b);

/* The pattern of the larger number. Equal numbers, NaNs: as for vj_min_bits. */
uint64_t vj_max_bits(uint64_t a, uint64_t b);

/*
 * The pattern of the correctly rounded square root. A NaN or a number below
 * zero gives 7FF8000000000000; -0 and +infinity give themselves. It is worked
 * out as vj_sqrt is, without a product.
 */
uint64_t vj_sqrt_bits(uint64_t b);

/*
 * Crossings. Each call checks its numbers first, then computes how two things
 * meet. It is proved to equal definitions that follow the Rust crate
 * cavalier_contours 0.9.0 operation by operation. A caller lends `room` places
 * of memory from `out` on. They belong to the call alone while it runs, and
 * `out` may not be null. The call returns
 *
 *   VJ_NO_ROOM         if room is below 4: nothing is written;
 *   a refusal's word   else, if a number is refused: nothing is written. The
 *                      word tells the first number at fault, by which refusal
 *                      and where. The order is epsilon, then as the call says;
 *   a case, from 0 on  else. Then out[0] to out[3] hold the values of the case,
 *                      +0 in the places that it does not need, and the places
 *                      after them are unchanged.
 *
 * Refusal 11: a coordinate, bulge, radius or trace is NaN, quiet or signalling,
 * with either sign; 12: it is infinite. If it is neither, refusal 2: a point's
 * coordinate is above 1,048,576 in magnitude; refusal 3: a bulge is above 1 in
 * magnitude; refusal 9: a circle's radius is not in 2^-42 to 2^47, or a
 * coordinate of its centre is above 2^48 in magnitude; refusal 15: a trace is no
 * whole number from 0 to 255. Refusal 4: epsilon is NaN, infinite, or not in
 * 2^-40 to 1/2. A number equal to its limit passes. Refusal 1, once for NaN and
 * infinite alike, is not given any more.
 *
 * Every value is fixed, the sign of a zero too, even where the Rust leaves the
 * sign of a zero open. Only the bits of a NaN are left open.
 */

/*
 * The word of a refusal, from every call below:
 *
 *   bits 0 to 15    VJ_REFUSED + N, where N is the refusal's number
 *   bits 16 to 23   the item: what is at fault, see below
 *   bits 24 to 31   the owner: whose item it is, as each call says
 *   bits 32 to 63   the index: which of the owner's, as each call says
 *
 * Owners and indices count from 0. What a place has none of is 0. Only the first
 * fault is told.
 *
 * `answer - VJ_REFUSED` is not the number, since the place stands above it. Use
 * VJ_NUMBER, and ask VJ_IS_REFUSED first: it is false for a case and for
 * VJ_NO_ROOM. examples/refusal.c prints refusals in words.
 */
#define VJ_REFUSED 256
#define VJ_NO_ROOM 512

#define VJ_IS_REFUSED(word) (((uint64_t)(word) & 0xff00) == VJ_REFUSED)
#define VJ_NUMBER(word) ((uint64_t)(word) & 0xff)
#define VJ_ITEM(word) (((uint64_t)(word) >> 16) & 0xff)
#define VJ_OWNER(word) (((uint64_t)(word) >> 24) & 0xff)
#define VJ_INDEX(word) ((uint64_t)(word) >> 32)

#define VJ_ITEM_EPSILON 0
#define VJ_ITEM_X 1         /* of a point or a vertex */
#define VJ_ITEM_Y 2
#define VJ_ITEM_BULGE 3     /* of a vertex */
#define VJ_ITEM_RADIUS 4    /* of a circle */
#define VJ_ITEM_CENTRE_X 5
#define VJ_ITEM_CENTRE_Y 6
#define VJ_ITEM_CHORD 7     /* refusal 5: of a segment */
#define VJ_ITEM_LENGTH 8    /* refusals 6 and 7: of a path */
#define VJ_ITEM_ROWS 9      /* refusal 8 */
#define VJ_ITEM_POSITION 10 /* refusal 13: of a page */
#define VJ_ITEM_BUDGET 11   /* refusal 14: of a page */
#define VJ_ITEM_BOXES 12    /* refusal 17: of a boxed listing */
#define VJ_ITEM_TRACE 13    /* of a vertex */
#define VJ_ITEM_REPORT 14   /* refusal 19: of a counted listing or a join */
#define VJ_ITEM_LINE 15     /* refusals 20, 21 and 22: of a drawing's text */
#define VJ_ITEM_ROOM 16     /* refusal 24: for a path or a drawing's text */
#define VJ_ITEM_CUT_X 17    /* refusal 2: of a large arc's cut point */
#define VJ_ITEM_CUT_Y 18

/*
 * The owner and the index of epsilon, rows, position, budget, boxes, report and
 * room are 0, in every call.
 */

/*
 * The lines v1 to v2 and u1 to u2. A parameter t stands for the point from + t *
 * (to - from) of its line. Checks v1, v2, u1, u2, each x before y. Cases:
 *
 *   0  parallel and apart, on one line or not; a point counts as parallel;
 *   1  they meet in one point: its parameters on v and on u;
 *   2  they overlap: the start and the end of that, two parameters on u;
 *   3  the lines cross beyond an end: the parameters on v and on u.
 *
 * The place of a refusal:
 *
 *   item   owner                         index
 *   x, y   0 v1, 1 v2, 2 u1, 3 u2        0
 */
uint64_t vj_line_line_intr(double v1x, double v1y, double v2x, double v2y,
                           double u1x, double u1y, double u2x, double u2y,
                           double epsilon, double *out, size_t room);

/*
 * The line through p0 and p1, and a circle with the centre (cx, cy). A parameter
 * below 0 or above 1 is a point beyond p0 or p1. Checks p0, p1, the radius, the
 * centre, each x before y. Cases:
 *
 *   0  apart;
 *   1  they meet in one point: one parameter;
 *   2  two points: two parameters, the smaller one first if both are numbers.
 *
 * The place of a refusal:
 *
 *   item                           owner          index
 *   x, y                           0 p0, 1 p1     0
 *   radius, centre x, centre y     2              0
 */
uint64_t vj_line_circle_intr(double p0x, double p0y, double p1x, double p1y,
                             double radius, double cx, double cy,
                             double epsilon, double *out, size_t room);

/*
 * Two circles. Checks the first circle, then the second, each radius, x, y.
 * Cases:
 *
 *   0  apart, or one inside the other;
 *   1  they meet in one point, x before y;
 *   2  two points, each x before y;
 *   3  they are the same circle.
 *
 * The place of a refusal:
 *
 *   item                           owner                              index
 *   radius, centre x, centre y     0 the first circle, 1 the second   0
 */
uint64_t vj_circle_circle_intr(double radius1, double c1x, double c1y,
                               double radius2, double c2x, double c2y,
                               double epsilon, double *out, size_t room);

/*
 * Two segments of polylines, v1 to v2 and u1 to u2. The bulge of a segment's
 * first vertex says what it is: a line if the bulge is below 1e-8 in magnitude,
 * else an arc. The bulges of v2 and u2 have no effect, whatever they are. Checks
 * v1, v2, u1, u2, each x, then y, then (of v1 and u1 only) the bulge; then v and
 * u: refusal 5 if the segment is an arc with a chord shorter than 2^-40. Cases,
 * with their points, x before y:
 *
 *   0  apart;
 *   1  they meet in one point and do not cross there;
 *   2  they meet in one point;
 *   3  they meet in two points;
 *   4  two lines that overlap, from the first point to the second;
 *   5  two arcs that overlap, from the first point to the second.
 *
 * The answer is the Rust's. Some pairs with an arc that share a point get 0:
 * docs/LIMITS.md says which, and what to do about it.
 *
 * The place of a refusal:
 *
 *   item    owner      index
 *   x, y    0 v, 1 u   0 its first vertex (v1, u1), 1 its second (v2, u2)
 *   bulge   0 v, 1 u   0
 *   chord   0 v, 1 u   0
 */
uint64_t vj_pair(double v1x, double v1y, double v1_bulge,
                           double v2x, double v2y, double v2_bulge,
                           double u1x, double u1y, double u1_bulge,
                           double u2x, double u2y, double u2_bulge,
                           double epsilon, double *out, size_t room);

/*
 * The pair call with findings: why a point counted. It checks and answers as
 * vj_pair does, with the same word and the same values in out, and tells of each
 * computed point what was found for each segment. A computed point is one that
 * the Rust works out, from the line and the arc's circle or from the two circles;
 * it then tests whether the point lies in the arc's sweep, the wedge that the arc
 * spans around its centre. The caller lends `findings_room` words from `findings`
 * on, and four are written:
 *
 *   findings[0]   the first computed point, for v
 *   findings[1]   the first computed point, for u
 *   findings[2]   the second computed point, for v
 *   findings[3]   the second computed point, for u
 *
 * each one of these, of which 1 to 4 are the first rule that said yes:
 *
 *   VJ_OUTSIDE 0       outside the sweep: no rule said yes
 *   VJ_NEAR_CENTRE 1   nearer to the arc's centre than epsilon
 *   VJ_INSIDE 2        between the two edges of the sweep, or on one
 *   VJ_NEAR_START 3    near the ray from the centre through the segment's first
 *                      vertex, of a clockwise arc too
 *   VJ_NEAR_END 4      near the ray from the centre through its second vertex
 *   VJ_END_POINT 5     the point counted, and an end of a segment stands in the
 *                      answer in its place; of two circles that are tangent, or
 *                      a line tangent to a circle, an end was the answer before
 *                      the point was tested
 *   VJ_NOT_TESTED 6    the Rust does not come to this test; there is no such
 *                      point; or the segment is a line
 *
 * Two lines, segments whose kernel finds nothing, and arcs of one circle have 6
 * four times: arcs of one circle compute no point, their ends are compared. A
 * point of a line beyond its ends, by more than epsilon, is not tested. Of two
 * arcs u is tested only if v said yes. A point that did not count keeps its
 * findings though ends of segments are the answer. Where the answer's two points
 * are put in the order of the second segment, the findings are exchanged with
 * them. If all findings of a point for its arcs are 1 to 4, the point stands in
 * the answer. A point of the answer that is none of the four vertices is such a
 * point, if one of the segments is an arc. VJ_NO_ROOM if out_room or
 * findings_room is below 4; that and a refusal write to neither.
 */
#define VJ_OUTSIDE 0
#define VJ_NEAR_CENTRE 1
#define VJ_INSIDE 2
#define VJ_NEAR_START 3
#define VJ_NEAR_END 4
#define VJ_END_POINT 5
#define VJ_NOT_TESTED 6

uint64_t vj_pair_findings(double v1x, double v1y, double v1_bulge,
                          double v2x, double v2y, double v2_bulge,
                          double u1x, double u1y, double u1_bulge,
                          double u2x, double u2y, double u2_bulge,
                          double epsilon, double *out, size_t out_room,
                          uint64_t *findings, size_t findings_room);

/*
 * Listings of whole paths. A path is lent as `len` binary64 numbers from `path`
 * on, and a flag that says whether it is closed. Each vertex has four numbers: x,
 * y, and the bulge and the trace of the segment that starts there. n vertices
 * have n - 1 segments if the path is open. If it is closed they have n. The last
 * of these runs back to vertex 0, and has the last vertex's bulge and trace. If n
 * is below 2 there are none. A pointer may not be null, even if its length is 0.
 *
 * A trace is the number of the track that a segment belongs to, a whole number
 * from 0 to 255; 0 is for a segment of no track. Two segments of the same trace
 * above 0 may touch on purpose, as a track and its pad do. They are skipped: the
 * listing does not look at them, and they make no row, however they meet. This
 * holds across the two paths of vj_mutual and for all pairs of vj_self,
 * neighbours too, in the full listings, in pages, in boxed listings and in
 * counted ones. Traces are compared by value, so -0 is 0, and segments of trace 0
 * are never skipped for it. The last trace of an open path is checked, and plays
 * no part. The pair call, with findings or without, and the kernels have no
 * trace.
 *
 * Rows go into two slices. From `indices` on, a row has three whole numbers: the
 * segment's index in the first path, the segment's index in the second path, and
 * the class, 1 to 5, as in vj_pair. From `points` on, a row has four numbers:
 * the points of the class, x before y, +0 in the places that it does not need.
 * Pairs of class 0 make no row. Rows are ordered by the index in the first path,
 * then by that in the second. There is room for as many rows as fit whole into
 * both slices. The memory that is lent for writing belongs to the call alone
 * while it runs: it overlaps no other lent memory, and no one else uses it. The
 * same path may be lent twice to vj_mutual. The call returns
 *
 *   VJ_NO_ROOM        if counts_room is below 2: nothing is written;
 *   a refusal's word  else, if there is a fault: nothing is written. The word
 *                     tells the first fault, in the order below;
 *   0                 else. Then counts[0] is how many rows were written, and
 *                     counts[1] how many pairs were looked at, without those
 *                     that were skipped. What follows the last row, and what
 *                     follows counts[1], is unchanged.
 *
 * The order: epsilon, refusal 4; the first path's length, refusal 6 if it is no
 * multiple of 4, then 7 if it has more than 4,096 vertices; the second path's
 * length, the same; the first path's vertices in order, each x, y, bulge and
 * trace, also the last bulge and the last trace of an open path, refusals 11, 12,
 * 2, 3 and 15; then its arcs in order, refusal 5; the second path's vertices and
 * arcs, the same; last, refusal 8 if there are more rows than there is room for.
 *
 * The place of a refusal:
 *
 *   item                 owner                           index
 *   x, y, bulge, trace   0 the first path, 1 the second  the vertex
 *   chord                the same                        the segment
 *   length               the same                        0
 *
 * In vj_self the owner is 0. If one path is lent twice, the first is told.
 *
 * What looks true and is not:
 *
 *   "Segments that overlap make a row." Those of the same trace above 0 make
 *     none. If all vertices of a path have one trace above 0, its self listing
 *     is empty, and a fold within it is not seen. To look for folds, list the
 *     path once more with all traces 0.
 *
 * For callers from before: a vertex had three numbers, and no trace. A path that
 * is still lent so is refused with 6, 3 or 15 mostly, but not surely: 12 numbers
 * were four vertices, and are three now. With a 0 behind each bulge the answers
 * are as before.
 *
 * examples/tracks.c lists two tracks that are joined at a pad.
 *
 * A listing needs some 506 KiB of stack: a buffer that holds rows back until it
 * is known that all fit, eight numbers for each segment of the second path, and
 * marks of the pairs that make the rows beyond the buffer.
 */

/* Every segment of the first path with every segment of the second. */
uint64_t vj_mutual(const double *first, size_t first_len, bool first_closed,
                   const double *second, size_t second_len, bool second_closed,
                   double epsilon, uint64_t *indices, size_t indices_room,
                   double *points, size_t points_room, uint64_t *counts,
                   size_t counts_room);

/*
 * The segments i and j of one path, all i < j: s segments have s * (s - 1) / 2
 * pairs.
 *
 * Neighbours share vertices, by index: the segments i and i + 1 share vertex
 * i + 1, and the first and the last segment of a closed path share vertex 0.
 * The two segments of a closed path of two vertices share both. A neighbour
 * pair of class 1, 2 or 3 makes no row exactly if each of its points is near to
 * some vertex that the pair shares. Near means that the difference of the two x
 * is below epsilon in magnitude, and so is that of the two y. Neighbours that
 * overlap, class 4 or 5, always make a row, if they are not skipped for their
 * trace. A pair that makes no row counts as looked at all the same, one that is
 * skipped does not. All other pairs are as in vj_mutual.
 *
 * So a corner is no row, and a path that runs back over itself is one: (0, 0),
 * (10, 0), (5, 0) has a row of class 4. A neighbours' row has all points of the
 * pair, so one of two may be the vertex that they share.
 *
 * What is proved: two neighbouring lines that are not skipped, with whole
 * coordinates up to 1048576 either way and an epsilon of 1/1024 to 1/2, make a
 * row exactly if they share more than one point.
 *
 * What looks true and is not. The numbers here were searched, not proved;
 * docs/LIMITS.md has more.
 *
 *   "A joint of a path makes no row." Where epsilon is small and coordinates
 *     are large, the point computed for a joint with an arc may not be near the
 *     vertex, and then there is a row: at a third of random joints with epsilon
 *     2^-40, at 0.2 % of joints of flat arcs on large coordinates with 1/1024,
 *     at none of 6 million with 1/1024, whole coordinates and bulges n/65,536.
 *   "Class 4 is a fold." Short lines that turn back sharply are class 4 if
 *     epsilon is large, since the Rust compares a perp dot with epsilon and
 *     does not divide it by lengths: (0, 0), (1, 0), (1/4, 7/16) with epsilon
 *     1/2.
 *   "Every fold makes a row." One that is shorter than epsilon makes none. A
 *     line and a flat arc that run back along each other are no overlap. They
 *     make a row only if the pair has a point that is not near the vertex.
 *   "A path that ends on its start is closed." An open one shares nothing
 *     there: its first and its last segment make a row.
 *   "A segment without length does not count." It has its index like any other:
 *     the segments before and after it are not neighbours of each other, and
 *     make a row.
 *
 * For callers from before: neighbours were left out, and are not any more.
 * counts[1] is larger, and the positions of pages have moved, so a position
 * that was stored before means another pair now. There may be rows that were
 * not there, so refusal 8 may come where it did not. No refusal is new.
 *
 * examples/fold.c lists a fold, corners, and a path that ends on its start.
 */
uint64_t vj_self(const double *path, size_t len, bool closed, double epsilon,
                 uint64_t *indices, size_t indices_room, double *points,
                 size_t points_room, uint64_t *counts, size_t counts_room);

/*
 * Pages: the same listings, handed out in calls. A position says how many pairs
 * come before it, in the order of the rows: 0 is the front, and the number of
 * all pairs is the end. Pairs that are skipped for their trace count here: they
 * have their positions, and a page passes them and spends budget on them. A call
 * goes through the pairs from `position` on. It stops when it has passed `budget`
 * pairs, at the end, or before a pair that makes a row where no row is left. That
 * pair is not passed: the next call starts with it. The call returns
 *
 *   VJ_NO_ROOM        if counts_room is below 4: nothing is written;
 *   a refusal's word  else, if there is a fault: nothing is written;
 *   0                 else. Then counts[0] is how many rows were written,
 *                     counts[1] how many pairs were passed, counts[2] the next
 *                     position, which is position + counts[1], and counts[3] the
 *                     number of all pairs, with those that are skipped. What
 *                     follows the last row, and what follows counts[3], is
 *                     unchanged.
 *
 * The order of faults: as for a listing up to the last path's arcs; then
 * refusal 13 if the position is beyond the end; 14 if the budget is 0; last, 8
 * if not one whole row fits, also at the end. The places are a listing's; those
 * of 13, 14 and 8 have the items position, budget and rows. A position and a
 * budget may be any number, and their sum may be above 2^64.
 *
 * Start at position 0 and give each call the position that the last one
 * answered, until counts[2] equals counts[3]. If paths, flags and epsilon stay
 * the same and no call is refused, the rows of all calls, one after the other,
 * are the listing. Each call before the end passes at least one pair, so there
 * are no more calls than pairs, if there are any. A call at the end answers no
 * rows and passes no pair. Budgets and rooms may change from call to call.
 *
 * A call has no state, so it can start at any position: several machines can
 * share a listing if each takes a range of positions, with budgets that end at
 * the end of its range. Each call checks both paths anew, however small its
 * budget is. A page needs some 136 KiB of stack: it holds no rows back, but it
 * has four numbers for each segment of the second path.
 *
 * examples/panel.c is a panel's cycle.
 */

/* A page of vj_mutual's listing. */
uint64_t vj_mutual_page(const double *first, size_t first_len,
                        bool first_closed, const double *second,
                        size_t second_len, bool second_closed, double epsilon,
                        uint64_t position, uint64_t budget, uint64_t *indices,
                        size_t indices_room, double *points,
                        size_t points_room, uint64_t *counts,
                        size_t counts_room);

/*
 * A page of vj_self's listing. A path of s segments has s * (s - 1) / 2 pairs,
 * neighbours included: a page passes them and spends budget on them, whether
 * they make a row or not.
 */
uint64_t vj_self_page(const double *path, size_t len, bool closed,
                      double epsilon, uint64_t position, uint64_t budget,
                      uint64_t *indices, size_t indices_room, double *points,
                      size_t points_room, uint64_t *counts,
                      size_t counts_room);

/*
 * Boxed listings: the same listings, kept to the pairs whose boxes meet. Other
 * pairs are skipped too, so large paths are listed in less time.
 *
 * A box has four numbers: least x, least y, greatest x, greatest y. The box of
 * a segment from (x1, y1) to (x2, y2) has
 *
 *   vj_min(x1, x2) - m, vj_min(y1, y2) - m,
 *   vj_max(x1, x2) + m, vj_max(y1, y2) + m,
 *
 * where m is epsilon for a line. For an arc it is the length of the chord, as
 * it is computed for refusal 5, plus epsilon. Each sum and each difference is
 * one operation on binary64 numbers. Two boxes meet if each one's least x is at
 * most the other's greatest x, and likewise y. So boxes that only touch meet. A
 * group is 16 consecutive segments of a path, from 0, 16, 32, .. on; the last
 * one may have fewer. Its box has the least and the greatest numbers of its
 * members' boxes. Groups make the call quick, and decide nothing.
 *
 * Paths, rows and what is lent are as for a listing. The rows are those of the
 * listing's pairs whose segment boxes meet, in the same order. The call also
 * writes an index of boxes, from `boxes` on: four numbers a box, the first
 * path's segments, its groups, the second path's segments, its groups. In
 * vj_self_boxed the one path is there once. Box k, counted from 0, starts at
 * boxes[4 * k]: if the first path has n segments, its segment i is box i, and
 * its group g is box n + g. A path of n segments needs VJ_BOXES_NEEDED(n)
 * numbers. The index has all segments, whatever their traces, and is written
 * also if there are no pairs. No number of it is NaN, infinite or -0. The call
 * returns
 *
 *   VJ_NO_ROOM        if counts_room is below 2: nothing is written;
 *   a refusal's word  else, if there is a fault: nothing is written, to none
 *                     of the four slices;
 *   0                 else. Then counts[0] is how many rows were written, and
 *                     counts[1] how many pairs were looked at: all those whose
 *                     boxes meet and that are not of the same trace above 0.
 *                     What follows the index, what follows the last row, and
 *                     what follows counts[1], is unchanged.
 *
 * The order of faults: as for a listing up to the last path's arcs; then
 * refusal 17 if the index does not fit into boxes_room numbers; last, 8 if
 * there are more of these rows than there is room for. The places are a
 * listing's; that of 17 has the item boxes.
 *
 * Which one to use. For large coils and layouts, where most segments are far
 * apart, use a boxed listing. If every pair that the Rust reports is wanted,
 * use the full one, vj_mutual or vj_self: it may report pairs whose boxes are
 * apart. The lines (0, 0) to (3/8, 0) and (0, 5/8) to (3/8, 5/8) with epsilon
 * 1/4 are class 4, and their boxes are 1/8 apart. Such a pair is no row of a
 * boxed listing, which may so be answered where the full one is refused with 8.
 * Two lines that share a point, with whole-number ends and epsilon from 1/1024
 * to 1/2, have boxes that meet, so no such pair is lost. docs/LIMITS.md says
 * what is known of others.
 *
 * A boxed listing needs some 643 KiB of stack: what a listing needs, and the
 * second path's boxes.
 *
 * examples/boxed.c lists a coil both ways.
 */

/* How many numbers the index of boxes needs for a path of n segments. */
#define VJ_BOXES_NEEDED(n) (4 * ((size_t)(n) + ((size_t)(n) + 15) / 16))

/* The pairs of vj_mutual whose boxes meet. */
uint64_t vj_mutual_boxed(const double *first, size_t first_len,
                         bool first_closed, const double *second,
                         size_t second_len, bool second_closed, double epsilon,
                         double *boxes, size_t boxes_room, uint64_t *indices,
                         size_t indices_room, double *points,
                         size_t points_room, uint64_t *counts,
                         size_t counts_room);

/*
 * The pairs of vj_self whose boxes meet. Neighbours among them make a row by
 * the same rule.
 */
uint64_t vj_self_boxed(const double *path, size_t len, bool closed,
                       double epsilon, double *boxes, size_t boxes_room,
                       uint64_t *indices, size_t indices_room, double *points,
                       size_t points_room, uint64_t *counts,
                       size_t counts_room);

/*
 * Counted listings: vj_mutual's listing, which also adds to a report. A report
 * tells of a month's layouts, say, how many there were, how their pairs met, and
 * for what some were refused. A layout is one call of vj_mutual_counted. A report
 * has VJ_REPORT_WORDS words, 40, which the caller lends from `report` on:
 *
 *   report[0]       layouts, refused ones too
 *   report[1]       pairs looked at, without those that were skipped
 *   report[2 + c]   pairs of class c, 0 to 5; class 0 is the pairs looked at less
 *                   the rows
 *   report[8 + n]   layouts that were refused with n, n below 32
 *
 * A fresh report is all zeros. Lend it to one call after the other: each adds to
 * what it finds there, and keeps nothing elsewhere. Paths, rows, counts, the
 * order of faults and their places are vj_mutual's. The call returns
 *
 *   VJ_NO_ROOM        if counts_room is below 2, or report_room below 40: nothing
 *                     is looked at, nothing is written, and nothing is counted;
 *   refusal 19        else, if the report has 10,000 layouts or more, or one of
 *                     its other 39 words is above 2^64 - 1 - 67,108,864. This
 *                     comes before all other checks, and nothing else is read.
 *                     Nothing is written: a 19 is counted nowhere. Its place has
 *                     the item report;
 *   a refusal's word  else, if there is a fault, 8 too: the report has one layout
 *                     more, and one more that was refused with this number.
 *                     Nothing else is written;
 *   0                 else. Rows and counts are written as by vj_mutual, and the
 *                     report has one layout more, the pairs looked at, and each
 *                     class.
 *
 * The words behind the report's 40th are unchanged, in every case. No word wraps
 * round: 19 comes before. When a report is full, keep it, and begin a fresh one.
 *
 * What looks true and is not:
 *
 *   "A layout that was refused with 8 has its pairs in the report." It is counted
 *     as refused and adds nothing else, though its pairs were looked at. If it is
 *     listed again with more room, that is one layout more.
 *   "Class 0 is every pair that does not meet." Pairs that are skipped for their
 *     trace are in no class, and are not among the pairs.
 *
 * examples/month.c prints reports as tables.
 */
#define VJ_REPORT_WORDS 40
#define VJ_REPORT_LAYOUTS 0
#define VJ_REPORT_PAIRS 1
#define VJ_REPORT_CLASS(c) (2 + (c))   /* c is 0 to 5 */
#define VJ_REPORT_REFUSED(n) (8 + (n)) /* n is 0 to 31 */

/* vj_mutual, counted in a report. */
uint64_t vj_mutual_counted(const double *first, size_t first_len,
                           bool first_closed, const double *second,
                           size_t second_len, bool second_closed,
                           double epsilon, uint64_t *indices,
                           size_t indices_room, double *points,
                           size_t points_room, uint64_t *counts,
                           size_t counts_room, uint64_t *report,
                           size_t report_room);

/*
 * Adds a second report to the first, word by word: those of two machines, or of
 * two weeks. The first is lent from `into` on, the second from `other` on; they
 * may not overlap. The call returns
 *
 *   VJ_NO_ROOM   if into_room or other_len is below 40: nothing is looked at, and
 *                nothing is written;
 *   refusal 19   else, if they have more than 10,000 layouts together, or the sum
 *                of two words does not fit into 64 bits: both reports are as they
 *                were. The place has the item report;
 *   0            else. Then each of the first 40 words from `into` on is the sum.
 *
 * The second report, and the words behind the 40th, are unchanged in every case.
 * A sum may be a report that vj_mutual_counted refuses, as 9,999 layouts and one
 * more are.
 */
uint64_t vj_join(uint64_t *into, size_t into_room, const uint64_t *other,
                 size_t other_len);

/*
 * Drawings. A path can come from a drawing program, and go to one: as the body
 * of one LWPOLYLINE entity of a DXF file, by the public DXF Reference. The body
 * is all that stands between the entity's name and the next entity. No file is
 * read or written here; tools/dxf_body.py takes a body out of a file.
 *
 * A body is text in lines. Each line ends in a newline, the last one too; lines
 * count from 1. Lines go by pairs, a code and its value, and a pair is a group:
 *
 *   90   how many vertices there are
 *   70   flags: the path is closed exactly if this is odd
 *   10   x of a vertex
 *   20   its y
 *   42   its bulge; if this group is absent the bulge is 0
 *
 * They stand in this order: 90, 70, and then for each vertex 10, 20 and perhaps
 * 42. All groups with other codes are skipped with their values, wherever they
 * stand and whatever the value is, 0 too.
 *
 * A code, and the value of 90 and of 70, is spaces or none and then digits, as
 * many as there are. The value of 10, 20 and 42 is a number: spaces or none, a
 * minus or none, digits, and perhaps a point and one to six digits. There is no
 * minus before a zero number. Leading zeros are fine. Nothing else is: no tab, no
 * carriage return, no plus, no exponent, no `.5`, no `5.`, no seventh digit, no
 * space behind a number.
 *
 * A number is read as the whole number of its millionths, divided once by
 * 1,000,000: the binary64 number that is nearest to it. Above 2^53 millionths it
 * is read as 2^53 of them, and refused with 2 or 3 like all that are too large;
 * no text is infinite.
 */

/*
 * Reads a body of `len` bytes from `text` on, and writes the numbers of its path
 * from `path` on: x, y, bulge and trace of each vertex, as the listings take
 * them. Every trace is 0. The caller lends `path_room` numbers, and `told_room`
 * words from `told` on. The call returns
 *
 *   VJ_NO_ROOM        if told_room is below 2: nothing is looked at;
 *   a refusal's word  else, if there is a fault: nothing is written. The word
 *                     tells the first fault, in the order below;
 *   0                 else. Then told[0] is how many vertices there are, and
 *                     told[1] is 1 if the path is closed, else 0. What follows
 *                     the last trace, and what follows told[1], is unchanged.
 *
 * The order of faults. Over the whole text, by line:
 *
 *   20   a bad code or number, or a last line without its newline where a code
 *        or a number is due
 *   21   a group out of place or missing: its line is that of the code. A text
 *        that ends where a code or a value is owed has it at the line after the
 *        last one: the empty text at line 1. A last line without its newline,
 *        which is a skipped value, has it too
 *
 * then, in this order:
 *
 *   22         the vertices are more or fewer than 90 says; at the line of its
 *              value
 *   7          there are more than 4,096 vertices
 *   2, 3       the vertices in order, each x, y and bulge, also the last bulge of
 *              an open path
 *   5          its arcs in order
 *   24         path_room is below 4 times the vertices
 *
 * The place of a refusal:
 *
 *   item          owner   index
 *   line          0       the line; one beyond 2^32 - 1 is told as 2^32 - 1
 *   length        0       0
 *   x, y, bulge   0       the vertex
 *   chord         0       the segment
 *   room          0       0
 *
 * Room for 4 * 4,096 numbers, 16,384, is always enough. An import needs some
 * 129 KiB of stack: a buffer that holds the path back until all is checked. An
 * export needs less than 4 KiB.
 *
 * What looks true and is not:
 *
 *   "Every polyline can be imported." Most programs write 15 to 17 digits, and
 *     some an exponent. A number of more than six digits is refused with 20, not
 *     rounded: a drawing is not changed behind your back. tools/dxf_body.py
 *     --round rounds, if you ask for it, and says how far each number moved.
 *   "A DXF file is text with lines like these." Many have a carriage return
 *     before each newline. The same script takes these out.
 *   "Everything that is drawn comes over." Widths, elevation, thickness and an
 *     extrusion direction are other groups, and are skipped.
 *
 * examples/drawing.c imports a body, lists the path, and exports it again.
 */
uint64_t vj_dxf_import(const uint8_t *text, size_t len, double *path,
                       size_t path_room, uint64_t *told, size_t told_room);

/*
 * Writes a path as a body, from `text` on: the groups 90 and 70, 70 being 0 or 1,
 * then 10, 20 and 42 of each vertex, 42 always. Codes and numbers have no blanks
 * and no needless leading zeros; x, y and bulge have six digits behind the point,
 * and a minus only if they are not zero. Traces are checked and not written: a
 * drawing has no place for them. The caller lends `text_room` bytes, and
 * `told_room` words from `told` on. No 0 byte is put behind the text. The call
 * returns
 *
 *   VJ_NO_ROOM        if told_room is below 1: nothing is looked at;
 *   a refusal's word  else, if there is a fault: nothing is written;
 *   0                 else. Then told[0] is how many bytes the text has. What
 *                     follows the text, and what follows told[0], is unchanged.
 *
 * The order of faults: the path's length, refusal 6, then 7; its vertices in
 * order, each x, y, bulge and trace, refusals 11, 12, 2, 3 and 15; its arcs in
 * order, refusal 5, all as in a listing; then the vertices once more, each x, y
 * and bulge, refusal 23 exactly if no text of the form above is read back as that
 * number, bit for bit; last, refusal 24 if the text does not fit.
 *
 * The place of a refusal: as for an import, and of 23 the item x, y or bulge and
 * the vertex.
 *
 * An import of an export gives the same x, y, bulges and flag, bit for bit, and
 * traces 0. VJ_DXF_BYTES(n) bytes are always enough for n vertices: 208,909 for
 * 4,096.
 *
 * What can be exported are the numbers that six digits spell: 0.1 can, and so can
 * each whole number and each multiple of 1/64. 1/128 cannot, since it has seven
 * digits, nor can 0.1 + 0.2, which is not 0.3 in binary64. -0 cannot: no text is
 * read as -0. Of the bulges n/65,536 only multiples of 1/64 can, and no quarter
 * circle's can: tan(pi/8) = 0.41421356.. has digits without end. Round such a
 * number yourself before the call, for one by round(x * 1e6) / 1e6 + 0.0, where
 * the last sum turns -0 into 0: an export never rounds. A bulge that moves by
 * 0.0000005 moves the arc's highest point by half the chord times 0.0000005.
 */
uint64_t vj_dxf_export(const double *path, size_t len, bool closed,
                       uint8_t *text, size_t text_room, uint64_t *told,
                       size_t told_room);

/* The most bytes that the text of n vertices has. */
#define VJ_DXF_BYTES(n) (13 + 51 * (size_t)(n))

/*
 * Large arcs: calls with bulges up to 16 in magnitude, for arcs beyond a half
 * circle, such as tuning loops. Each is the call of the same name without
 * `_large`, with the same arguments, and it differs from that call only as said
 * here. The calls above are unchanged: they refuse a bulge above 1 with 3.
 *
 * An arc whose bulge b is above 1 in magnitude is cut into two halves. 1 itself
 * and -1 stay whole. The arc from (x1, y1) to (x2, y2) is cut at the point
 *
 *   ((x1 + x2) / 2 + (b * (y2 - y1)) / 2,
 *    (y1 + y2) / 2 - (b * (x2 - x1)) / 2),
 *
 * and both halves have the bulge (sqrt(1 + b * b) - 1) / b and the arc's trace.
 * Each sum, product, quotient and root is one operation on binary64 numbers, in
 * this order. What is left is the cut path, with a vertex more for each cut. It
 * has up to 8,192 segments. All else is said of the cut path: the pairs and
 * their order, positions and budgets, the pairs looked at, boxes and groups of
 * 16 segments, the room that boxes need, neighbours, traces and reports. The last
 * bulge of an open path starts no segment, so nothing is cut there.
 *
 * A row has five whole numbers from `indices` on:
 *
 *   the index of the segment in the first path, before the cut
 *   its half: 0 if it is not cut, else 1 or 2
 *   the index of the segment in the second path, before the cut
 *   its half
 *   the class, 1 to 5
 *
 * and four numbers from `points` on, as ever. So there is room for as many rows
 * as fit whole, five words and four floats each: lend a multiple of 5 and of 4.
 * Rows are ordered by the segments of the cut paths, so half 1 comes before
 * half 2. If no bulge is above 1 in magnitude, the rows are those of the call
 * without `_large`, with halves 0.
 *
 * Refusals. 3 is given for a bulge above 16 in magnitude, also for the last one
 * of an open path. 7 counts the vertices before the cut. Where the other calls
 * look at an arc's chord, refusal 5, these look at each segment in order: of an
 * arc that is cut first at the cut point, refusal 2 if a coordinate is above
 * 1,048,576 in magnitude, x before y; then at the chord of each half, refusal 5
 * if it is shorter than 2^-40. The chord of the arc itself may be shorter: down
 * to 2^-43 at bulge 16. A segment that is not cut is as before. The places:
 *
 *   item           owner                           index
 *   cut x, cut y   0 the first path, 1 the second  the segment, before the cut
 *   chord          the same                        the same
 *
 * Which half has the short chord is not told. All other places count vertices
 * before the cut.
 *
 * What looks true and is not:
 *
 *   "A loop makes no row with itself." The two halves of an arc are neighbours
 *     and share the cut point. They also meet where the loop closes, if its ends
 *     are nearer to each other than epsilon: so the loop lists itself. The path
 *     (0, 0) with bulge 8 to (1/8, 0), epsilon 1/4, has the row 0 1 0 2, class 3.
 *   "A loop and the next segment are neighbours." Only its second half is: the
 *     first half and the next segment share no vertex. So a line that goes on
 *     where such a loop closes has a row with the first half.
 *   "A point on the circle is on a half." Cut points and halves are rounded. How
 *     far they lie from the circle was measured, not proved: docs/LIMITS.md.
 *
 * These calls are in a library of their own, libcapi_large.a, and need more stack
 * than the others, since a cut path has up to 8,192 segments. In KiB, at most:
 *
 *                      two paths   one path
 *   a listing          1,460       1,110
 *   a page             1,050         730
 *   a boxed listing    1,860       1,510
 *   a counted listing  1,460
 *
 * vj_pair_large and an export need less than 4 KiB, an import some 129 KiB.
 *
 * examples/loop.c lists a tuning loop, and imports one from a drawing.
 */

/*
 * vj_pair for bulges up to 16: how each part of v meets each part of u, where a
 * part is the segment itself, or each of its halves if it is cut. Up to epsilon
 * the arguments are vj_pair's. The results go into two slices, one after the
 * other: from `results` on three words each,
 *
 *   the half of v: 0, 1 or 2
 *   the half of u
 *   the case, 0 to 5, as in vj_pair
 *
 * and from `out` on four floats each, the points of the case, +0 in the places
 * that it does not need. The halves of v are outermost: 1 1, 1 2, 2 1, 2 2 if
 * both are cut. The call returns
 *
 *   VJ_NO_ROOM         if results_room is below 12 or room is below 16: nothing
 *                      is written. Room for four results is always asked for;
 *   a refusal's word   else, if a number is refused: nothing is written. The
 *                      order is vj_pair's; the cut points come with the chords,
 *                      v's first;
 *   1, 2 or 4          else: how many results there are. The words and floats
 *                      behind the last one are unchanged.
 *
 * The place of a refusal:
 *
 *   item                  owner      index
 *   x, y                  0 v, 1 u   0 its first vertex, 1 its second
 *   bulge                 0 v, 1 u   0
 *   cut x, cut y, chord   0 v, 1 u   0
 */
uint64_t vj_pair_large(double v1x, double v1y, double v1_bulge,
                       double v2x, double v2y, double v2_bulge,
                       double u1x, double u1y, double u1_bulge,
                       double u2x, double u2y, double u2_bulge,
                       double epsilon, uint64_t *results, size_t results_room,
                       double *out, size_t room);

/* vj_mutual for bulges up to 16. */
uint64_t vj_mutual_large(const double *first, size_t first_len,
                         bool first_closed, const double *second,
                         size_t second_len, bool second_closed, double epsilon,
                         uint64_t *indices, size_t indices_room,
                         double *points, size_t points_room, uint64_t *counts,
                         size_t counts_room);

/*
 * vj_self for bulges up to 16. A cut path of s segments has s * (s - 1) / 2
 * pairs. The halves of one arc are neighbours, as are the second half and the
 * next segment.
 */
uint64_t vj_self_large(const double *path, size_t len, bool closed,
                       double epsilon, uint64_t *indices, size_t indices_room,
                       double *points, size_t points_room, uint64_t *counts,
                       size_t counts_room);

/*
 * vj_mutual_page for bulges up to 16. A position counts pairs of the cut paths,
 * so one that vj_mutual_page answered is no position here if an arc is cut.
 */
uint64_t vj_mutual_page_large(const double *first, size_t first_len,
                              bool first_closed, const double *second,
                              size_t second_len, bool second_closed,
                              double epsilon, uint64_t position,
                              uint64_t budget, uint64_t *indices,
                              size_t indices_room, double *points,
                              size_t points_room, uint64_t *counts,
                              size_t counts_room);

/* vj_self_page for bulges up to 16. */
uint64_t vj_self_page_large(const double *path, size_t len, bool closed,
                            double epsilon, uint64_t position,
                            uint64_t budget, uint64_t *indices,
                            size_t indices_room, double *points,
                            size_t points_room, uint64_t *counts,
                            size_t counts_room);

/*
 * vj_mutual_boxed for bulges up to 16. The index has a box for each segment of
 * the cut path, so each half has its own, and VJ_BOXES_NEEDED is asked for its
 * segments: a path of n segments, c of which are cut, needs
 * VJ_BOXES_NEEDED(n + c) numbers.
 */
uint64_t vj_mutual_boxed_large(const double *first, size_t first_len,
                               bool first_closed, const double *second,
                               size_t second_len, bool second_closed,
                               double epsilon, double *boxes,
                               size_t boxes_room, uint64_t *indices,
                               size_t indices_room, double *points,
                               size_t points_room, uint64_t *counts,
                               size_t counts_room);

/* vj_self_boxed for bulges up to 16. */
uint64_t vj_self_boxed_large(const double *path, size_t len, bool closed,
                             double epsilon, double *boxes, size_t boxes_room,
                             uint64_t *indices, size_t indices_room,
                             double *points, size_t points_room,
                             uint64_t *counts, size_t counts_room);

/*
 * vj_mutual_counted for bulges up to 16. A report may have layouts of both
 * modes: the pairs and classes of this one are those of the cut paths.
 */
uint64_t vj_mutual_counted_large(const double *first, size_t first_len,
                                 bool first_closed, const double *second,
                                 size_t second_len, bool second_closed,
                                 double epsilon, uint64_t *indices,
                                 size_t indices_room, double *points,
                                 size_t points_room, uint64_t *counts,
                                 size_t counts_room, uint64_t *report,
                                 size_t report_room);

/*
 * vj_dxf_import for bulges up to 16. The path's own checks are those of a large
 * listing: 3 beyond 16, and in the place of 5, for each segment in order, 2 of a
 * cut point, x before y, and then 5 of each half. The path is written uncut, as
 * the body has it: hand it to any of the calls above.
 *
 * The place of a refusal: as for vj_dxf_import, and
 *
 *   item           owner   index
 *   cut x, cut y   0       the segment
 */
uint64_t vj_dxf_import_large(const uint8_t *text, size_t len, double *path,
                             size_t path_room, uint64_t *told,
                             size_t told_room);

/*
 * vj_dxf_export for bulges up to 16. The path's own checks are those of a large
 * listing; 23 and 24 come after them, as ever. The path is written uncut. An
 * import by vj_dxf_import_large gives the same x, y, bulges and flag, bit for
 * bit, and traces 0. VJ_DXF_BYTES_LARGE(n) bytes are always enough for n
 * vertices: a byte more for each than VJ_DXF_BYTES(n), since a bulge may have two
 * digits before its point, 213,005 for 4,096.
 */
uint64_t vj_dxf_export_large(const double *path, size_t len, bool closed,
                             uint8_t *text, size_t text_room, uint64_t *told,
                             size_t told_room);

/* The most bytes that the text of n vertices has, with bulges up to 16. */
#define VJ_DXF_BYTES_LARGE(n) (13 + 52 * (size_t)(n))

#ifdef __cplusplus
}
#endif

#endif
