//! Pairs of segments to try; all kinds except the last have an arc, and each kind would show a certain slip. Only + - * / and
//! roots are used, so that a seed gives the same pairs on every machine.

mod circles;
pub mod joints;
pub mod parts;
mod touches;

use super::aim::{aimed, Aim};
use super::piece::{Piece, ONE};
use crate::rng::Rng;
use crate::search::draw as lines;
use crate::search::plane::Spot;
use parts::{any_shape, bulge, part, radius, sign, signed, spot, spread};

/// The grid's limit.
pub const FAR: i64 = 1 << 20;

/// The largest radius of the form: the longest chord with the least bulge.
pub const WIDEST: f64 = 5.0e10;

/// The least epsilon that is not refused, and the least for which the grid has a promise.
const LEAST_EPSILON: f64 = 1.0 / (1u64 << 40) as f64;
pub const GRID_EPSILON: f64 = 1.0 / 1024.0;

#[derive(Clone, Copy, Debug)]
pub struct Pair {
    pub v: Piece,
    pub u: Piece,
    pub epsilon: f64,
}

impl Pair {
    pub fn written(&self) -> String {
        format!("{} with {}", self.v.written(), self.u.written())
    }
}

type Draw = fn(&mut Rng, f64) -> Option<(Piece, Piece)>;

pub const KINDS: [(&str, Draw); 11] = [
    ("random", random),
    ("a common end", corner),
    ("a smooth joint", joints::draw),
    ("at a whole point", touches::draw),
    ("nearly tangent", nearly_tangent),
    ("an end near the other", end_near),
    ("small against large", small_and_large),
    ("flat", flat),
    ("one circle", circles::draw),
    ("at the limit", at_limit),
    ("two lines", two_lines),
];

/// A pair of the kind, its segments and their ends in any order, mirrored or not.
pub fn pair(kind: usize, rng: &mut Rng) -> Pair {
    let epsilon = epsilon(rng);
    let (mut v, mut u) = loop {
        if let Some((v, u)) = KINDS[kind].1(rng, epsilon) {
            if valid(v) && valid(u) {
                break (v, u);
            }
        }
    };
    if rng.one_in(2) {
        (v, u) = (u, v);
    }
    for s in [&mut v, &mut u] {
        if rng.one_in(2) {
            *s = s.reversed();
        }
    }
    if rng.one_in(2) {
        (v, u) = (mirrored(v), mirrored(u));
    }
    Pair { v, u, epsilon }
}

/// As for lines, from 1/1024 to 1/2; one in eight is finer, down to the least that is not refused.
fn epsilon(rng: &mut Rng) -> f64 {
    if rng.one_in(8) {
        spread(rng, LEAST_EPSILON, GRID_EPSILON)
    } else {
        lines::epsilon(rng).0
    }
}

/// Within the limits of the form, and no arc without a chord.
pub fn valid(s: Piece) -> bool {
    let near = |p: Spot| p.x.abs() <= FAR && p.y.abs() <= FAR;
    near(s.from) && near(s.to) && s.n.abs() <= ONE && (s.from != s.to || s.n == 0)
}

fn mirrored(s: Piece) -> Piece {
    let turn = |p: Spot| Spot { x: p.y, y: p.x };
    Piece {
        from: turn(s.from),
        to: turn(s.to),
        n: -s.n,
    }
}

fn random(rng: &mut Rng, _: f64) -> Option<(Piece, Piece)> {
    let most = spread(rng, 1.0, FAR as f64) as i64;
    let mut piece = |n: i64| Piece {
        from: spot(rng, most),
        to: spot(rng, most),
        n,
    };
    let (v, u) = (piece(0), piece(0));
    let n = if rng.one_in(3) { 0 } else { bulge(rng) };
    Some((Piece { n, ..v }, Piece { n: bulge(rng), ..u }))
}

fn corner(rng: &mut Rng, epsilon: f64) -> Option<(Piece, Piece)> {
    let (v, u) = random(rng, epsilon)?;
    let to = match rng.below(4) {
        // the same chord, or nearly
        0 => v.to,
        1 => Spot {
            x: v.to.x + signed(rng, 2),
            y: v.to.y + signed(rng, 2),
        },
        _ => u.to,
    };
    Some((
        v,
        Piece {
            from: v.from,
            to,
            ..u
        },
    ))
}

/// Two that run in parallel, at a distance of less than a few epsilons or through one another.
fn nearly_tangent(rng: &mut Rng, epsilon: f64) -> Option<(Piece, Piece)> {
    let line = rng.one_in(4);
    let (r1, r2) = (radius(rng, 0.5), radius(rng, 0.5));
    let (chord, n) = any_shape(rng, r2, false);
    let aim = Aim {
        radius: if line { 0.0 } else { r1 },
        chord,
        n,
        along: 2.0 * part(rng) - 1.0,
        turn: if rng.one_in(2) {
            0.0
        } else {
            spread(rng, 1e-9, 0.1) * sign(rng)
        },
        backward: rng.one_in(2),
        beyond: (-2.0 * epsilon, 2.0 * epsilon),
        place: place(rng),
    };
    aimed(rng, &aim)
}

/// One ends up to three epsilons from the other, before it or behind it.
fn end_near(rng: &mut Rng, epsilon: f64) -> Option<(Piece, Piece)> {
    let lines = rng.below(4);
    let (r1, r2) = (radius(rng, 0.5), radius(rng, 0.5));
    let (chord, n) = any_shape(rng, r2, lines == 0);
    let turn = if rng.one_in(2) {
        part(rng)
    } else {
        spread(rng, 1e-6, 1.0)
    };
    let aim = Aim {
        radius: if lines == 1 { 0.0 } else { r1 },
        chord,
        n,
        along: sign(rng),
        turn: turn * sign(rng),
        backward: rng.one_in(2),
        beyond: (-3.0 * epsilon, 3.0 * epsilon),
        place: place(rng),
    };
    aimed(rng, &aim)
}

/// A small arc that goes through a large one and ends one to six epsilons behind it.
fn small_and_large(rng: &mut Rng, epsilon: f64) -> Option<(Piece, Piece)> {
    let most = spread(rng, 1.0, 100.0) as i64;
    let chord = (signed(rng, most), signed(rng, most));
    let aim = Aim {
        radius: radius(rng, 65_536.0),
        chord,
        n: if rng.one_in(2) { ONE } else { bulge(rng).abs() },
        along: sign(rng),
        turn: spread(rng, 1e-3, 1.0) * sign(rng),
        backward: rng.one_in(2),
        beyond: (epsilon, 6.0 * epsilon),
        place: place(rng),
    };
    aimed(rng, &aim)
}

/// Two flat arcs, or a flat one and a line, that cross at a small angle somewhere inside both.
fn flat(rng: &mut Rng, _: f64) -> Option<(Piece, Piece)> {
    let line = rng.one_in(3);
    let (r1, r2) = (radius(rng, 1_048_576.0), radius(rng, 1_048_576.0));
    let (chord, n) = any_shape(rng, r2, line);
    let aim = Aim {
        radius: r1,
        chord,
        n,
        along: 2.0 * part(rng) - 1.0,
        turn: spread(rng, 1e-8, 1.0) * sign(rng),
        backward: rng.one_in(2),
        beyond: (-1.0, 1.0),
        place: place(rng),
    };
    aimed(rng, &aim)
}

/// Where on the first arc: somewhere inside it, or next to an end.
fn place(rng: &mut Rng) -> f64 {
    match rng.below(8) {
        0 => sign(rng) * (1.0 - spread(rng, 1e-7, 0.1)),
        _ => 1.8 * part(rng) - 0.9,
    }
}

/// Coordinates at the limit or one below it, at 0 or 1, now and then any; the same for bulges.
fn at_limit(rng: &mut Rng, _: f64) -> Option<(Piece, Piece)> {
    let one = |rng: &mut Rng, most: i64| {
        let size = match rng.below(8) {
            0..=2 => most,
            3 | 4 => most - 1,
            5 => 0,
            6 => 1 + rng.below(3) as i64,
            _ => rng.below(most as u64 + 1) as i64,
        };
        size * sign(rng) as i64
    };
    let mut spot = || Spot {
        x: one(rng, FAR),
        y: one(rng, FAR),
    };
    let [a, b, c, d] = [spot(), spot(), spot(), spot()];
    let c = if rng.one_in(4) { a } else { c };
    let (n, m) = (one(rng, ONE), one(rng, ONE));
    let piece = |from, to, n| Piece { from, to, n };
    ((n, m) != (0, 0)).then_some((piece(a, b, n), piece(c, d, m)))
}

/// As the search of lines draws them, of every kind.
fn two_lines(rng: &mut Rng, _: f64) -> Option<(Piece, Piece)> {
    let kind = rng.below(lines::KINDS.len() as u64) as usize;
    let pair = lines::pair(kind, rng);
    let line = |[from, to]: [Spot; 2]| Piece { from, to, n: 0 };
    Some((line(pair.v), line(pair.u)))
}

#[cfg(test)]
mod tests;
