//! Random numbers, places and shapes of which pairs are made.

use super::super::piece::ONE;
use super::{FAR, WIDEST};
use crate::rng::Rng;
use crate::search::plane::Spot;

/// Below 1, not below 0.
pub fn part(rng: &mut Rng) -> f64 {
    (rng.bits() >> 11) as f64 / (1u64 << 53) as f64
}

/// From `least` to `most`, both above 0, each power of two about as likely.
pub fn spread(rng: &mut Rng, least: f64, most: f64) -> f64 {
    let (low, high) = (least.to_bits(), most.max(least).to_bits());
    f64::from_bits(low + rng.below(high - low + 1))
}

pub fn sign(rng: &mut Rng) -> f64 {
    if rng.one_in(2) {
        1.0
    } else {
        -1.0
    }
}

pub fn signed(rng: &mut Rng, most: i64) -> i64 {
    rng.below(2 * most as u64 + 1) as i64 - most
}

pub fn spot(rng: &mut Rng, most: i64) -> Spot {
    Spot {
        x: signed(rng, most),
        y: signed(rng, most),
    }
}

/// How long a chord is, and its bulge in 65,536ths, for an arc of about this radius.
pub fn bent(rng: &mut Rng, radius: f64) -> (f64, i64) {
    let least = (4.0 * radius / ONE as f64).max(1.0);
    let length = spread(rng, least, (2.0 * radius).min(2.0 * FAR as f64));
    let times = (radius / length).max(0.5);
    // (1 + b^2) / 4b = times, and b is at most 1
    let b = 1.0 / (2.0 * times + (4.0 * times * times - 1.0).sqrt());
    (length, ((b * ONE as f64).round() as i64).clamp(1, ONE))
}

/// A random radius from `least` on, each power of two as likely.
pub fn radius(rng: &mut Rng, least: f64) -> f64 {
    spread(rng, least, WIDEST)
}

/// Of length 1.
pub fn direction(rng: &mut Rng) -> (f64, f64) {
    loop {
        let (x, y) = (2.0 * part(rng) - 1.0, 2.0 * part(rng) - 1.0);
        let size = (x * x + y * y).sqrt();
        if size > 0.1 {
            return (x / size, y / size);
        }
    }
}

/// A bulge of either sign, each size as likely.
pub fn bulge(rng: &mut Rng) -> i64 {
    let n = match rng.below(4) {
        0 => ONE,
        1 => 1 + rng.below(ONE as u64) as i64,
        _ => spread(rng, 1.0, ONE as f64) as i64,
    };
    n * sign(rng) as i64
}

/// A chord of about that length, and a bulge, for an arc of the radius, or a line.
pub fn any_shape(rng: &mut Rng, radius: f64, line: bool) -> ((i64, i64), i64) {
    let (length, n) = if line {
        (spread(rng, 1.0, 2.0 * FAR as f64), 0)
    } else {
        bent(rng, radius)
    };
    let (x, y) = direction(rng);
    let whole = |c: f64| (c * length).round() as i64;
    ((whole(x), whole(y)), n)
}
