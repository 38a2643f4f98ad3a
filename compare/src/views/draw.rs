//! Random paths and rows of every length, and the indices and counts that are asked for.

use super::model::{MOST_VERTICES, ROW};
use crate::classes::{magnitude, signed, CLASSES};
use crate::rng::Rng;
use crate::vertex::{TRACE, VERTEX};

/// A path of up to this many vertices is asked for each of its segments.
const SHORT: usize = 24;
/// Once in this many draws the path is about as long as a path may be, and the rows are many.
const LONG_ONE_IN: u64 = 128;

/// What a path's traces may be. A view does not ask.
const TRACES: [f64; 5] = [0.0, -0.0, 1.0, 2.0, 255.0];

/// Every short length, and every length near that of the longest path.
pub fn lengths() -> impl Iterator<Item = usize> {
    let most = MOST_VERTICES * VERTEX;
    (0..16).chain(most - VERTEX..=most + 2 * VERTEX)
}

/// A path of any numbers and any length; in one of four draws the length is no multiple of 4. In one of two its traces are some.
pub fn path(rng: &mut Rng) -> Vec<f64> {
    let vertices = if rng.one_in(LONG_ONE_IN) {
        MOST_VERTICES - 2 + below(5, rng)
    } else {
        below(SHORT + 1, rng)
    };
    let more = if rng.one_in(4) {
        1 + below(VERTEX - 1, rng)
    } else {
        0
    };
    let mut path = numbers(vertices * VERTEX + more, rng);
    if rng.one_in(2) {
        for trace in path.iter_mut().skip(TRACE).step_by(VERTEX) {
            *trace = TRACES[below(TRACES.len(), rng)];
        }
    }
    path
}

/// Each index of a short path and one beyond its vertices; for a long one those near both ends, and some inside. Always the
/// greatest number, and some far beyond: any, and those whose place in the slice would wrap round.
pub fn indices(vertices: usize, rng: &mut Rng) -> Vec<usize> {
    let mut all: Vec<usize> = if vertices <= SHORT {
        (0..=vertices + 1).collect()
    } else {
        let inside = (0..8).map(|_| below(vertices, rng));
        let ends = [0, 1, 2].into_iter().chain(vertices - 3..=vertices + 1);
        ends.chain(inside).collect()
    };
    all.extend(beyond(VERTEX, vertices, rng));
    all
}

/// Rows of any numbers; in one of four draws a part of a row follows.
pub fn rows(rng: &mut Rng) -> Vec<f64> {
    let most = if rng.one_in(LONG_ONE_IN) { 2048 } else { 12 };
    let more = if rng.one_in(4) {
        1 + below(ROW - 1, rng)
    } else {
        0
    };
    numbers(below(most + 1, rng) * ROW + more, rng)
}

/// No row, all, one fewer, one and two more, some inside, and far beyond as for indices.
pub fn counts(whole: usize, rng: &mut Rng) -> Vec<usize> {
    let mut all = vec![0, whole, whole.saturating_sub(1), whole + 1, whole + 2];
    all.extend([0; 2].map(|_| below(whole + 1, rng)));
    all.extend(beyond(ROW, whole, rng));
    all
}

/// The greatest number; any; and one that, multiplied by `width`, wraps round to a place inside.
fn beyond(width: usize, inside: usize, rng: &mut Rng) -> [usize; 3] {
    let around = (usize::MAX / width + 1).saturating_mul(1 + below(width - 1, rng));
    let wraps = around.saturating_add(below(inside + 1, rng));
    [usize::MAX, rng.bits() as usize, wraps]
}

/// How long the lent slice is, for an answer of at most this many numbers. All of them fit, whatever is right, so that a wrong
/// answer is not hidden by too little room; in one of eight draws the slice is shorter.
pub fn room(most: usize, rng: &mut Rng) -> usize {
    if most > 0 && rng.one_in(8) {
        below(most, rng)
    } else {
        most + below(4, rng)
    }
}

pub fn numbers(count: usize, rng: &mut Rng) -> Vec<f64> {
    (0..count).map(|_| f64::from_bits(any(rng))).collect()
}

/// All bits, or those of a class.
fn any(rng: &mut Rng) -> u64 {
    if rng.one_in(2) {
        return rng.bits();
    }
    let class = CLASSES[below(CLASSES.len(), rng)];
    signed(magnitude(class, rng), rng.one_in(2))
}

fn below(end: usize, rng: &mut Rng) -> usize {
    rng.below(end as u64) as usize
}
