//! Single numbers: coordinates, bulges, epsilons, and small moves, with those at and beside the limits among them.

use crate::rng::Rng;

impl Rng {
    /// A number from 0 up to 1, a multiple of 2^-53.
    pub fn unit(&mut self) -> f64 {
        (self.bits() >> 11) as f64 / (1u64 << 53) as f64
    }

    /// A number from `low` up to `high`.
    pub fn between(&mut self, low: f64, high: f64) -> f64 {
        low + (high - low) * self.unit()
    }

    /// 1 or -1.
    pub fn sign(&mut self) -> f64 {
        if self.one_in(2) {
            1.0
        } else {
            -1.0
        }
    }
}

/// The largest magnitude of a coordinate.
pub const COORDINATE_LIMIT: f64 = 1_048_576.0;
/// The largest magnitude of a bulge.
pub const BULGE_LIMIT: f64 = 1.0;
/// A bulge of a smaller magnitude is a line's.
pub const LINE_LIMIT: f64 = 1e-8;
/// 2^-40: the smallest epsilon, and the smallest chord of an arc.
pub const SMALLEST: f64 = 1.0 / (1u64 << 40) as f64;
pub const LARGEST_EPSILON: f64 = 0.5;

pub fn coordinate(rng: &mut Rng) -> f64 {
    match rng.below(8) {
        0 => rng.pick(&[0.0, -0.0]),
        1 => rng.sign() * COORDINATE_LIMIT,
        2 => rng.sign() * down(COORDINATE_LIMIT),
        3 => rng.sign() * power(rng, -45, 20),
        4 => whole(rng, 8),
        5 => whole(rng, 1 << 20),
        6 => whole(rng, 1 << 20) / 65536.0,
        _ => rng.between(-COORDINATE_LIMIT, COORDINATE_LIMIT),
    }
}

pub fn bulge(rng: &mut Rng) -> f64 {
    match rng.below(8) {
        0 => rng.pick(&[0.0, -0.0]),
        1 => rng.sign(),
        2 => rng.sign() * down(BULGE_LIMIT),
        3 => rng.sign() * beside(LINE_LIMIT, 2, rng),
        4 => whole(rng, 8) / 8.0,
        5 => rng.sign() * power(rng, -30, 0),
        // a quarter of a circle
        6 => rng.sign() * (2f64.sqrt() - 1.0),
        _ => rng.between(-1.0, 1.0),
    }
}

/// A bulge that makes an arc.
pub fn arc_bulge(rng: &mut Rng) -> f64 {
    loop {
        let b = bulge(rng);
        if b.abs() >= LINE_LIMIT {
            return b;
        }
    }
}

/// A bulge that makes a line: mostly zero.
pub fn line_bulge(rng: &mut Rng) -> f64 {
    match rng.below(4) {
        0 => rng.sign() * down(LINE_LIMIT),
        1 => -0.0,
        _ => 0.0,
    }
}

pub fn epsilon(rng: &mut Rng) -> f64 {
    match rng.below(8) {
        0 => SMALLEST,
        1 => up(SMALLEST),
        2 => 1e-5,
        3 => 1.0 / 1024.0,
        4 => LARGEST_EPSILON,
        5 => down(LARGEST_EPSILON),
        6 => 1e-8,
        _ => power(rng, -40, -1),
    }
}

/// A move that a comparison with this epsilon just allows or just forbids: none, some eighths of the epsilon, or all of it up to
/// a few last bits.
pub fn nudge(epsilon: f64, rng: &mut Rng) -> f64 {
    match rng.below(4) {
        0 => 0.0,
        1 => whole(rng, 16) / 8.0 * epsilon,
        2 => rng.sign() * beside(epsilon, 2, rng),
        _ => rng.between(-2.0, 2.0) * epsilon,
    }
}

/// A whole number, at most `most` in magnitude.
pub fn whole(rng: &mut Rng, most: u64) -> f64 {
    rng.below(2 * most + 1) as f64 - most as f64
}

/// A number from 2^`low` up to 2^`high`; every power of two is equally likely.
pub fn power(rng: &mut Rng, low: i32, high: i32) -> f64 {
    let exponent = low + rng.below((high - low) as u64) as i32;
    f64::from_bits(((1023 + exponent) as u64) << 52 | rng.below(1 << 52))
}

/// The number, or one of the `steps` floats next to it on either side. It is above 0.
pub fn beside(number: f64, steps: u64, rng: &mut Rng) -> f64 {
    f64::from_bits(number.to_bits() - steps + rng.below(2 * steps + 1))
}

/// The float next above a number above 0.
pub fn up(number: f64) -> f64 {
    f64::from_bits(number.to_bits() + 1)
}

/// The float next below a number above 0.
pub fn down(number: f64) -> f64 {
    f64::from_bits(number.to_bits() - 1)
}
