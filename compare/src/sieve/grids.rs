//! Listings with many rows: fingers of one path across fingers of the other, with a row in the first pair of all and in the last.

use crate::inputs::Vertex;
use crate::listings::layout::{Drawn, Layout};
use crate::listings::shapes::{crossed, crossed_by_itself, vertex};
use crate::rng::Rng;

/// Beyond a half circle, for the calls with large arcs.
const LARGE: f64 = 1.5;

/// So many rows exactly, of two paths and of one. If it is `large`, some turns of the first path are large arcs, which go around
/// everything.
pub fn with_rows(rows: usize, across: usize, large: bool, rng: &mut Rng) -> [Layout; 2] {
    let epsilon = rng.pick(&[1e-8, 1e-5, 1.0 / 1024.0]);
    let (mut first, second) = crossed(rows, across);
    let fingers = first.len();
    let mut path = crossed_by_itself(rows, across);
    if large {
        outward(&mut first, fingers);
        outward(&mut path, fingers);
    }
    [
        Layout {
            first: Drawn::new(&first, false),
            second: Drawn::new(&second, false),
            epsilon,
        },
        Layout {
            first: Drawn::new(&path, false),
            second: Drawn::default(),
            epsilon,
        },
    ]
}

/// Makes some turns of a meander large arcs, outward: those at the top, from the second vertex on, and those at the bottom.
fn outward(path: &mut [Vertex], vertices: usize) {
    for turn in (1..vertices - 1).step_by(6) {
        path[turn].bulge = if turn % 4 == 1 { -LARGE } else { LARGE };
    }
}

/// What a grid is of.
#[derive(Clone, Copy, Debug, PartialEq)]
pub enum Sort {
    /// Lines that the sieve judges.
    Usual,
    /// The same with an epsilon that is too large for it.
    Wide,
    /// Arcs that are all but straight, across lines.
    Arcs,
}

/// A bulge with which a finger across a thousand others leaves its place by less than half the way to the next.
const FLAT: f64 = 4e-4;

/// Two paths with so many segments, of which one finger in so many goes across.
pub fn of_two([n, m]: [usize; 2], one_in: u64, sort: Sort, rng: &mut Rng) -> Layout {
    let [upright, lying] =
        [[n, m], [m, n]].map(|[segments, reach]| fingers(segments, reach as f64, one_in, rng));
    let bulge = if sort == Sort::Arcs { FLAT } else { 0.0 };
    let upright: Vec<Vertex> = upright.iter().map(|v| Vertex { bulge, ..*v }).collect();
    let lay = |v: &Vertex| vertex(v.at.y, v.at.x, v.bulge);
    let lying: Vec<Vertex> = lying.iter().map(lay).collect();
    Layout {
        first: drawn(&upright, n),
        second: drawn(&lying, m),
        epsilon: match sort {
            Sort::Wide => 1.0 / 512.0,
            _ => rng.pick(&[1e-8, 1e-5, 1.0 / 1024.0]),
        },
    }
}

/// The same as one path with so many segments, which begins and ends with a fold.
pub fn of_one(segments: usize, one_in: u64, sort: Sort, rng: &mut Rng) -> Layout {
    let vertices = if segments == 4096 {
        segments
    } else {
        segments + 1
    };
    let half = (vertices - 6) / 2;
    let two = of_two([half - 1, vertices - 6 - half - 1], one_in, sort, rng);
    let fold = |x: f64| [[x, -9.0, 0.0], [x - 4.0, -9.0, 0.0], [x - 2.0, -9.0, 0.0]];
    let points = |drawn: &Drawn| -> Vec<[f64; 3]> {
        let path = drawn.path();
        let point = |i| {
            let v = path.vertex(i);
            [v.x, v.y, v.bulge]
        };
        (0..path.vertices()).map(point).collect()
    };
    let mut all = fold(-10.0).to_vec();
    all.extend(points(&two.first));
    all.extend(points(&two.second));
    // the last two run over each other
    let [a, b, c] = fold(-20.0);
    all.extend([a, b, c]);
    Layout {
        first: Drawn::of(all, segments == 4096),
        second: Drawn::default(),
        ..two
    }
}

/// As many vertices as give these segments: a path of 4,096 of them is closed.
fn drawn(path: &[Vertex], segments: usize) -> Drawn {
    let closed = segments == 4096;
    let vertices = if closed { segments } else { segments + 1 };
    Drawn::new(&path[..vertices], closed)
}

/// Upright fingers at x = 1, 2, ... that go from below 0 to above the reach, or stay where they are. The first goes all the way in
/// two parts if there would be a turn at the end, and the last goes all the way too.
fn fingers(segments: usize, reach: f64, one_in: u64, rng: &mut Rng) -> Vec<Vertex> {
    let (bottom, top) = (-0.5, reach + 0.5);
    let mut path = vec![vertex(1.0, bottom, 0.0)];
    // the crossing with the first finger of the other path is at 1, which belongs to the first part
    if segments % 2 == 0 {
        path.push(vertex(1.0, reach / 2.0 + 0.25, 0.0));
    }
    path.push(vertex(1.0, top, 0.0));
    let (mut at_top, mut x) = (true, 1.0);
    while path.len() < segments + 1 {
        x += 1.0;
        let last = path.len() + 2 >= segments + 1;
        let across = last || rng.one_in(one_in);
        let y = if at_top { top } else { bottom };
        path.push(vertex(x, y, 0.0));
        if across {
            at_top = !at_top;
        }
        let aside = if at_top { 0.25 } else { -0.25 };
        let end = if at_top { top } else { bottom };
        path.push(vertex(x, if across { end } else { end + aside }, 0.0));
    }
    path
}
