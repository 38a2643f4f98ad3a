//! Single numbers at the extremes: at the limits, at the float next to each, and where a test of nearness turns over.

use crate::inputs::values::{
    beside, down, power, up, whole, COORDINATE_LIMIT, LARGEST_EPSILON, LINE_LIMIT, SMALLEST,
};
use crate::rng::Rng;

pub type Point = [f64; 2];

/// The largest magnitude of a bulge with large arcs.
pub const MOST_BULGE: f64 = 16.0;

/// Mostly within the limit; now and then the float beyond it.
pub fn coordinate(rng: &mut Rng) -> f64 {
    match rng.below(16) {
        0 => 0.0,
        1 => -0.0,
        2..=4 => rng.sign() * COORDINATE_LIMIT,
        5 => rng.sign() * down(COORDINATE_LIMIT),
        6 => rng.sign() * (COORDINATE_LIMIT - whole(rng, 4).abs()),
        7 => rng.sign() * beside(SMALLEST, 1, rng),
        8 => rng.sign() * beside(LINE_LIMIT, 1, rng),
        9 | 10 => whole(rng, 4),
        11 => whole(rng, 1 << 20),
        12 => rng.sign() * power(rng, -45, 20),
        13 => rng.sign() * power(rng, 17, 20),
        14 if rng.one_in(64) => rng.sign() * up(COORDINATE_LIMIT),
        _ => rng.between(-COORDINATE_LIMIT, COORDINATE_LIMIT),
    }
}

pub fn point(rng: &mut Rng) -> Point {
    [coordinate(rng), coordinate(rng)]
}

/// Near the limit, in a corner of the box.
pub fn far(rng: &mut Rng) -> f64 {
    let size = match rng.below(4) {
        0 => COORDINATE_LIMIT,
        1 => down(COORDINATE_LIMIT),
        2 => COORDINATE_LIMIT - whole(rng, 8).abs(),
        _ => power(rng, 18, 20),
    };
    rng.sign() * size
}

pub fn epsilon(rng: &mut Rng) -> f64 {
    match rng.below(8) {
        0..=2 => SMALLEST,
        3 => up(SMALLEST),
        4 => SMALLEST * (1.0 + rng.unit()),
        5 => rng.pick(&[1e-5, LINE_LIMIT, down(LINE_LIMIT), up(LINE_LIMIT)]),
        6 => rng.pick(&[LARGEST_EPSILON, down(LARGEST_EPSILON)]),
        _ => power(rng, -40, -1),
    }
}

/// At 1e-8, from which on a segment is an arc, or at most two floats beside it.
pub fn least_bulge(rng: &mut Rng) -> f64 {
    rng.sign() * beside(LINE_LIMIT, 2, rng)
}

/// A line's, or any arc's; up to 16 with large arcs, and now and then the float beyond the limit.
pub fn bulge(large: bool, rng: &mut Rng) -> f64 {
    let most = if large { MOST_BULGE } else { 1.0 };
    let size = match rng.below(16) {
        0..=2 => 0.0,
        3..=6 => return least_bulge(rng),
        7 | 8 => 1.0,
        9 => down(1.0),
        10 => most,
        11 => down(most),
        12 if large => up(1.0),
        13 if rng.one_in(64) => up(most),
        14 => power(rng, -26, 0),
        _ => rng.between(0.0, most),
    };
    rng.sign() * size
}

/// A move that a test of nearness with this epsilon just allows, or just does not.
pub fn nudge(epsilon: f64, rng: &mut Rng) -> f64 {
    match rng.below(4) {
        0 => 0.0,
        1 | 2 => rng.sign() * beside(epsilon, 2, rng),
        _ => rng.between(-2.0, 2.0) * epsilon,
    }
}

/// Some floats on, either way.
pub fn ulps(x: f64, most: u64, rng: &mut Rng) -> f64 {
    let steps = rng.below(2 * most + 1) as i64 - most as i64;
    if x == 0.0 {
        return steps as f64 * SMALLEST;
    }
    f64::from_bits(x.to_bits().wrapping_add_signed(steps))
}
