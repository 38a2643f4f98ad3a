//! Two paths with vertices anywhere on a sheet, of lines and of arcs: typical pairs.

use crate::inputs::{Point, Vertex};
use crate::listings::layout::{Drawn, Layout};
use crate::rng::Rng;

/// Coordinates go as far, either way, and a segment goes at most so far in x and in y.
const SHEET: f64 = 32_000.0;
const REACH: f64 = 26_000.0;

/// Which of the two paths are of arcs, and how the pairs are called.
pub const SORTS: [(&str, [bool; 2]); 3] = [
    ("line and arc", [false, true]),
    ("arc and line", [true, false]),
    ("arc and arc", [true, true]),
];

pub fn draw(arcs: [bool; 2], rng: &mut Rng) -> Layout {
    let epsilon = rng.pick(&[1e-5, 1e-5, 1e-8, 1.0 / 1024.0]);
    let size = rng.pick(&[1.0, 1.0, 0.001]);
    let [first, second] = arcs.map(|arcs| {
        let segments = 24 + rng.below(48) as usize;
        let mut at = Point::default();
        let mut next = || {
            at = Point {
                x: within(at.x, rng),
                y: within(at.y, rng),
            };
            let bulge = match arcs {
                true => rng.sign() * rng.between(0.05, 1.0),
                false => 0.0,
            };
            let at = Point::default().along(at, size);
            Vertex { at, bulge }
        };
        let vertices: Vec<Vertex> = (0..=segments).map(|_| next()).collect();
        Drawn::new(&vertices, false)
    });
    Layout {
        first,
        second,
        epsilon,
    }
}

fn within(last: f64, rng: &mut Rng) -> f64 {
    loop {
        let next = last + rng.between(-REACH, REACH);
        if next.abs() <= SHEET {
            return next;
        }
    }
}
