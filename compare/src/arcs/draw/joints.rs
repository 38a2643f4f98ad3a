//! Two segments that share an end and continue each other's direction there, or nearly.

use super::super::piece::{Piece, ONE};
use super::parts::{bent, direction, radius, sign, signed, spread};
use super::FAR;
use crate::rng::Rng;
use crate::search::plane::Spot;

/// Whole numbers, x before y.
type Way = (i64, i64);

/// How long the arc's chord and the other segment are to be, from and to.
pub struct Lengths {
    pub chord: (f64, f64),
    pub other: (f64, f64),
}

/// Grid points along a tangent that are tried for the one nearest to it.
const STEPS: i64 = 64;

pub fn draw(rng: &mut Rng, _: f64) -> Option<(Piece, Piece)> {
    let longest = 2.0 * FAR as f64;
    if rng.one_in(3) {
        let radius = radius(rng, 1024.0);
        return nearly(rng, radius, (1.0, longest));
    }
    let lengths = Lengths {
        chord: (1.0, longest),
        other: (1.0, longest),
    };
    let (v, mut u) = exactly(rng, &lengths)?;
    if rng.one_in(2) {
        u.to = to(u.to, (signed(rng, 2), signed(rng, 2)));
    }
    Some((v, u))
}

/// An arc, and from its start along its tangent a line or, once in four, another arc. The bulge is a fraction over a small power
/// of two, so that this can be exact.
pub fn exactly(rng: &mut Rng, lengths: &Lengths) -> Option<(Piece, Piece)> {
    let bulge = fraction(rng);
    let most = spread(rng, 1.0, (FAR >> (2 * bulge.1)) as f64) as i64;
    let step = (signed(rng, most), signed(rng, most));
    let times = spread(rng, lengths.chord.0, lengths.chord.1) / length(step).max(1.0);
    let times = (times as i64).max(1);
    let chord = (step.0 * times, step.1 * times);
    let tangent = reduced(turned(step, bulge, -1))?;
    let (back, two_arcs) = (sign(rng) as i64, rng.one_in(4));
    let mut along = |way: Way| {
        let times = spread(rng, lengths.other.0, lengths.other.1) / length(way);
        let times = (times as i64).max(1) * back;
        (way.0 * times, way.1 * times)
    };
    let other = if two_arcs { OTHER } else { LINE };
    let ahead = along(reduced(turned(tangent, other, 1))?);
    let start = placed(rng, chord, ahead)?;
    Some((piece(start, chord, bulge), piece(start, ahead, other)))
}

/// A place from which both ways stay on the grid.
fn placed(rng: &mut Rng, a: Way, b: Way) -> Option<Spot> {
    let mut place = |a: i64, b: i64| {
        let (low, high) = (a.min(b).min(0), a.max(b).max(0));
        let room = 2 * FAR - (high - low);
        (room >= 0).then(|| rng.below(room as u64 + 1) as i64 - FAR - low)
    };
    Some(Spot {
        x: place(a.0, b.0)?,
        y: place(a.1, b.1)?,
    })
}

/// The second segment's bulge: a half, or a line's.
const OTHER: (i64, u32) = (1, 1);
const LINE: (i64, u32) = (0, 0);

/// An arc of about the radius, and a line from its start to a point of the grid next to its tangent there.
pub fn nearly(rng: &mut Rng, radius: f64, other: (f64, f64)) -> Option<(Piece, Piece)> {
    let (length, n) = bent(rng, radius);
    let (x, y) = direction(rng);
    let chord = ((x * length).round() as i64, (y * length).round() as i64);
    let b = n as f64 / ONE as f64;
    let (along, right) = (1.0 - b * b, 2.0 * b);
    let (x, y) = (chord.0 as f64, chord.1 as f64);
    let (x, y) = (along * x + right * y, along * y - right * x);
    let size = (x * x + y * y).sqrt() * sign(rng);
    let (x, y) = (x / size, y / size);
    // a step goes 1 along the longer axis, so that only the other is rounded
    let step = 1.0 / x.abs().max(y.abs());
    let from = (spread(rng, other.0, other.1) / step) as i64;
    let mut best = (f64::INFINITY, (0, 0));
    for i in 0..STEPS {
        let far = (from - i).max(1) as f64 * step;
        let (dx, dy) = ((x * far).round(), (y * far).round());
        let off = (x * dy - y * dx).abs() / far;
        if off < best.0 {
            best = (off, (dx as i64, dy as i64));
        }
    }
    let start = placed(rng, chord, best.1)?;
    let v = Piece {
        from: start,
        to: to(start, chord),
        n,
    };
    Some((v, piece(start, best.1, LINE)))
}

fn length(way: Way) -> f64 {
    ((way.0 * way.0 + way.1 * way.1) as f64).sqrt()
}

/// j / 2^k, at most 1: j and k.
fn fraction(rng: &mut Rng) -> (i64, u32) {
    if rng.one_in(2) {
        return (1, 0);
    }
    let k = 1 + rng.below(5) as u32;
    (1 + 2 * rng.below(1 << (k - 1)) as i64, k)
}

/// The way turned by twice the angle whose tangent is the bulge, to the left or the right, and longer.
fn turned(way: Way, (j, k): (i64, u32), left: i64) -> Way {
    let (along, beside) = ((1 << (2 * k)) - j * j, left * 2 * j * (1 << k));
    (
        along * way.0 - beside * way.1,
        along * way.1 + beside * way.0,
    )
}

fn reduced(way: Way) -> Option<Way> {
    let (mut a, mut b) = (way.0.abs(), way.1.abs());
    while b != 0 {
        (a, b) = (b, a % b);
    }
    (a != 0).then(|| (way.0 / a, way.1 / a))
}

fn to(p: Spot, way: Way) -> Spot {
    Spot {
        x: p.x + way.0,
        y: p.y + way.1,
    }
}

fn piece(from: Spot, chord: Way, (j, k): (i64, u32)) -> Piece {
    Piece {
        from,
        to: to(from, chord),
        n: j * (ONE >> k),
    }
}
