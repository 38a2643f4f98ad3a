//! Layouts that are timed: two paths spread over a sheet, or wound as coils in short steps; each path is all lines or all arcs.

use super::shapes::{placed, short_steps, to_and_fro};
use crate::inputs::{Point, Segment, Vertex};
use crate::rng::Rng;

/// Both are timed: the one with which layouts are cut, and the Rust's usual one.
pub const EPSILONS: [f64; 2] = [1.0 / 1024.0, 1e-5];

pub struct Sheet {
    pub name: &'static str,
    is_coil: bool,
    /// Whether each path is of arcs.
    arcs: [bool; 2],
}

const fn sheet(name: &'static str, is_coil: bool, arcs: [bool; 2]) -> Sheet {
    Sheet {
        name,
        is_coil,
        arcs,
    }
}

pub const SHEETS: [Sheet; 8] = [
    sheet("line and line, spread", false, [false, false]),
    sheet("line and line, coils", true, [false, false]),
    sheet("line and arc, spread", false, [false, true]),
    sheet("line and arc, coils", true, [false, true]),
    sheet("arc and line, spread", false, [true, false]),
    sheet("arc and line, coils", true, [true, false]),
    sheet("arc and arc, spread", false, [true, true]),
    sheet("arc and arc, coils", true, [true, true]),
];

impl Sheet {
    /// Two paths with this many vertices, to be closed if they are spread.
    pub fn paths(&self, vertices: usize, rng: &mut Rng) -> [Vec<Vertex>; 2] {
        if self.is_coil {
            let [first, second] = self.arcs.map(|arcs| wound(vertices, arcs));
            // a third of a radius aside
            let aside = vertices as f64 / 200.0;
            let by = Point {
                x: aside,
                y: aside / 4.0,
            };
            return [first, placed(&second, (1.0, 0.0), 1.0, by)];
        }
        let side = (vertices as f64).sqrt() as usize;
        let [first, second] = [0, 1].map(|i: usize| {
            let path = to_and_fro(side, i as f64 / 2.0, self.arcs[i], rng);
            whole(&path)
        });
        [first, second]
    }

    /// The segments of both paths, without closing ones.
    pub fn segments(&self, vertices: usize, rng: &mut Rng) -> [Vec<Segment>; 2] {
        let segment = |ends: &[Vertex]| Segment {
            from: ends[0],
            to: ends[1],
        };
        let paths = self.paths(vertices, rng);
        paths.map(|path| path.windows(2).map(segment).collect())
    }
}

/// The same on whole numbers, on a sheet of 64,000 by 64,000.
fn whole(path: &[Vertex]) -> Vec<Vertex> {
    let rounded = |v: &Vertex| {
        let at = Point {
            x: (64.0 * v.at.x).round(),
            y: (64.0 * v.at.y).round(),
        };
        Vertex { at, ..*v }
    };
    path.iter().map(rounded).collect()
}

/// A round coil in short steps, which are lines or the arcs of its turns.
fn wound(vertices: usize, arcs: bool) -> Vec<Vertex> {
    // some 50 steps for each turn: a quarter of the angle of each has about this tangent
    let bulge = if arcs { 1.0 / 32.0 } else { 0.0 };
    let step = |v: Vertex| Vertex { bulge, ..v };
    short_steps(vertices).into_iter().map(step).collect()
}
