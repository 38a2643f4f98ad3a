//! Parts of layouts in whole numbers.

use crate::form::{Place, BULGE, COORDINATE};
use crate::inputs::Vertex;
use crate::rng::Rng;

/// A whole number, at most `most` in magnitude.
pub fn number(most: i64, rng: &mut Rng) -> i64 {
    rng.below(2 * most as u64 + 1) as i64 - most
}

pub fn sign(rng: &mut Rng) -> i64 {
    if rng.one_in(2) {
        1
    } else {
        -1
    }
}

/// Mostly a line's, else an arc's: a quarter or half of a circle, the least bulge, or any.
pub fn bulge(rng: &mut Rng) -> i64 {
    match rng.below(8) {
        0 => sign(rng) * 27146,
        1 => sign(rng) * BULGE,
        2 => sign(rng),
        3 => number(BULGE, rng),
        _ => 0,
    }
}

/// The whole numbers nearest to those of an enlarged path.
pub fn whole(path: &[Vertex], size: f64) -> Vec<Place> {
    path.iter().map(|v| nearest(*v, size)).collect()
}

pub fn nearest(vertex: Vertex, size: f64) -> Place {
    of_numbers([vertex.at.x, vertex.at.y, vertex.bulge], size)
}

pub fn of_numbers([x, y, bulge]: [f64; 3], size: f64) -> Place {
    let coordinate = |x: f64| ((x * size).round() as i64).clamp(-COORDINATE, COORDINATE);
    let bulge = (bulge * BULGE as f64).round() as i64;
    [coordinate(x), coordinate(y), bulge.clamp(-BULGE, BULGE)]
}

/// Makes a line of each arc whose ends are equal.
pub fn straightened(mut path: Vec<Place>) -> Vec<Place> {
    for i in 1..path.len() {
        if path[i - 1][..2] == path[i][..2] {
            path[i - 1][2] = 0;
        }
    }
    path
}
