//! Pairs with a line: nearly parallel lines, lines end to end, and steep ones.

use super::draw::{turned, Drawn};
use super::numbers::{bulge, coordinate, nudge, point, ulps, Point};
use crate::crossing::faults::two_to;
use crate::inputs::values::{beside, power, whole, LARGEST_EPSILON, LINE_LIMIT, SMALLEST};
use crate::rng::Rng;

/// The point some steps along a chord, and beside it.
pub fn along(from: Point, to: Point, step: f64, off: f64) -> Point {
    let way = [to[0] - from[0], to[1] - from[1]];
    [
        from[0] + step * way[0] - off * way[1],
        from[1] + step * way[1] + off * way[0],
    ]
}

/// Lines that are parallel but for a perp dot at epsilon, or that have an end beside the other line.
pub fn parallel(epsilon: f64, rng: &mut Rng) -> Drawn {
    let (v1, v2) = (point(rng), point(rng));
    let way = [v2[0] - v1[0], v2[1] - v1[1]];
    let square = (way[0] * way[0] + way[1] * way[1]).max(SMALLEST * SMALLEST);
    let on = |rng: &mut Rng| {
        let step = match rng.below(4) {
            0 => whole(rng, 2),
            1 => whole(rng, 16) / 8.0,
            2 => ulps(1.0, 3, rng),
            _ => rng.between(-1.0, 2.0),
        };
        along(v1, v2, step, nudge(epsilon, rng) / square)
    };
    let (u1, u2) = (on(rng), on(rng));
    ((v1, 0.0, v2), (u1, 0.0, u2), epsilon)
}

/// A length, an epsilon, and a place beyond the length by less than epsilon: as a parameter it is rounded up, so that it comes to
/// lie epsilon beyond.
pub fn tie(rng: &mut Rng) -> [f64; 3] {
    let n = 2 + rng.below(39);
    let floats = n + rng.below(n);
    let half = floats as f64 + 0.5;
    let low = if half > 8.0 { 9 } else { 11 };
    let exponent = (low + rng.below(20 - low)) as i32;
    let float = two_to(exponent - 52);
    let length = half / n as f64 * two_to(exponent);
    [length, half * float, length + floats as f64 * float]
}

/// Lines on one axis, the second from 0 on: they overlap, touch or miss by a few floats, or by epsilon up to a few floats.
pub fn end_to_end(rng: &mut Rng) -> Drawn {
    let [length, epsilon, from] = if rng.one_in(2) {
        tie(rng)
    } else {
        let length = power(rng, 0, 19);
        // epsilon is some of the floats at the second one's end
        let float = length.next_up() - length;
        let epsilon = (float * rng.between(1.0, 40.0)).clamp(SMALLEST, LARGEST_EPSILON);
        let gap = match rng.below(4) {
            0 => 0.0,
            1 => -epsilon,
            _ => epsilon,
        };
        [length, epsilon, ulps(length + gap, 4, rng)]
    };
    let to = match rng.below(4) {
        0 => ulps(from, 4, rng),
        1 => rng.between(-length, 2.0 * length),
        2 => ulps(0.0, 2, rng) + nudge(epsilon, rng),
        _ => length + power(rng, -20, 18),
    };
    let mut ends = [[from, to], [0.0, length]];
    if rng.one_in(2) {
        ends[0].reverse();
    }
    if rng.one_in(4) {
        ends[1].reverse();
    }
    if rng.one_in(2) {
        ends = ends.map(|two| two.map(|x| -x));
    }
    let by_y = rng.one_in(2);
    let off = if rng.one_in(4) {
        nudge(epsilon, rng) / length
    } else {
        0.0
    };
    let line = |[a, b]: [f64; 2], off: f64| {
        let at = |x: f64| if by_y { [off, x] } else { [x, off] };
        (at(a), 0.0, at(b))
    };
    (line(ends[0], 0.0), line(ends[1], off), epsilon)
}

/// A line whose dx is at 1e-8 or at epsilon, with a line or an arc that starts nearby.
pub fn steep(epsilon: f64, rng: &mut Rng) -> Drawn {
    let from = point(rng);
    let dx = match rng.below(4) {
        0 => epsilon,
        _ => LINE_LIMIT,
    };
    let dx = rng.sign() * beside(dx, 2, rng);
    // exact only if x is small enough
    let x = rng.pick(&[0.0, 0.0, dx, -dx, from[0]]);
    let (v1, v2) = ([x, from[1]], [x + dx, coordinate(rng)]);
    let b = if rng.one_in(2) {
        0.0
    } else {
        bulge(false, rng)
    };
    let u1 = match rng.below(4) {
        0 => v1,
        1 => [x + nudge(epsilon, rng), from[1]],
        2 => [x, coordinate(rng)],
        _ => point(rng),
    };
    let u2 = match rng.below(4) {
        0 => v2,
        1 => [x - dx, coordinate(rng)],
        _ => point(rng),
    };
    turned((v1, 0.0, v2), (u1, b, u2), epsilon, rng)
}
