//! Random layouts: two paths placed as on a real sheet, or as nobody would cut them.

use super::layout::{Drawn, Layout};
use super::shapes::{
    anywhere, arcs, circle, coil, meander, straightened, on_grid, placed, polygon, reversed, vertex,
};
use crate::inputs::values::{epsilon, nudge, whole};
use crate::inputs::{Pair, Point, Segment, Vertex};
use crate::rng::Rng;

/// Up to some 80 segments in each path, and now and then 200.
pub fn draw(rng: &mut Rng) -> Layout {
    let epsilon = epsilon(rng);
    let mut closed = [rng.one_in(3), rng.one_in(3)];
    let (first, second) = match rng.below(32) {
        0..=3 => two_coils(epsilon, rng),
        4..=8 => {
            closed[1] = true;
            coil_and_pad(epsilon, rng)
        }
        9..=12 => coil_and_meander(rng),
        13..=16 => two_meanders(epsilon, rng),
        17..=23 => two_on_grid(60, rng),
        24..=27 => two_of_arcs(rng),
        28..=30 => two_anywhere(rng),
        _ => two_on_grid(200, rng),
    };
    let (first, second) = somewhere(first, second, rng);
    let first = either_way(first, closed[0], rng);
    let second = either_way(second, closed[1], rng);
    let (first, second) = if rng.one_in(2) {
        (first, second)
    } else {
        (second, first)
    };
    Layout {
        first,
        second,
        epsilon,
    }
}

/// A pair's segments as paths of their own.
pub fn of_pair(pair: &Pair, closed: [bool; 2]) -> Layout {
    Layout {
        first: Drawn::new(&[pair.v.from, pair.v.to], closed[0]),
        second: Drawn::new(&[pair.u.from, pair.u.to], closed[1]),
        epsilon: pair.epsilon,
    }
}

/// A pair's segments in one path, as its first segment and its third.
pub fn joined(pair: &Pair, closed: bool) -> Layout {
    let path = [pair.v.from, pair.v.to, pair.u.from, pair.u.to];
    Layout {
        first: Drawn::new(&straightened(path.to_vec()), closed),
        second: Drawn::default(),
        epsilon: pair.epsilon,
    }
}

/// A pair of each class that makes a row, in the order of their numbers: the scope's examples K, J, H, D, I.
pub fn of_each_class() -> [Pair; 5] {
    let segment = |[x1, y1, x2, y2, bulge]: [f64; 5]| Segment {
        from: vertex(x1, y1, bulge),
        to: vertex(x2, y2, 0.0),
    };
    let pair = |v: [f64; 5], u: [f64; 5]| Pair {
        v: segment(v),
        u: segment(u),
        epsilon: 1e-5,
    };
    let half = [-1.0, 0.0, 1.0, 0.0, 1.0];
    let back = |bulge: f64| [1.0, 0.0, -1.0, 0.0, bulge];
    [
        pair([-2.0, -1.0, 2.0, -1.0, 0.0], half),
        pair([0.0, -2.0, 0.0, 2.0, 0.0], half),
        pair(half, back(1.0)),
        pair([0.0, 0.0, 4.0, 0.0, 0.0], [1.0, 0.0, 5.0, 0.0, 0.0]),
        pair(half, back(-1.0)),
    ]
}

fn size(rng: &mut Rng, most: u64) -> usize {
    1 + rng.below(most) as usize
}

fn either_way(path: Vec<Vertex>, closed: bool, rng: &mut Rng) -> Drawn {
    let path = straightened(path);
    let path = if rng.one_in(2) { path } else { reversed(&path) };
    Drawn::new(&path, closed)
}

/// Both unchanged, or both turned, enlarged and moved in the same way.
fn somewhere(first: Vec<Vertex>, second: Vec<Vertex>, rng: &mut Rng) -> (Vec<Vertex>, Vec<Vertex>) {
    if rng.one_in(2) {
        return (first, second);
    }
    let turn = rng.pick(&[(1.0, 0.0), (0.0, 1.0), (0.6, 0.8), (0.28, -0.96)]);
    let size = rng.pick(&[0.001, 0.1, 1.0, 25.4]);
    let far = rng.pick(&[0.0, 1.0, 100.0, 500_000.0]);
    let by = Point {
        x: rng.between(-far, far),
        y: rng.between(-far, far),
    };
    let place = |path: Vec<Vertex>| placed(&path, turn, size, by);
    // what was drawn up to the limits stays where it is
    let fits = |path: &[Vertex]| path.iter().all(|v| v.at.x.abs() + v.at.y.abs() < 10_000.0);
    if fits(&first) && fits(&second) {
        (place(first), place(second))
    } else {
        (first, second)
    }
}

fn some_coil(rng: &mut Rng) -> Vec<Vertex> {
    let pitch = rng.pick(&[0.5, 1.0, 1.0, 2.0]);
    let radius = rng.pick(&[0.25, 0.5, 1.0, 1.0]);
    coil(size(rng, 80), pitch, radius)
}

/// A coil and another one, or the same, moved by parts of the pitch or of the epsilon.
fn two_coils(epsilon: f64, rng: &mut Rng) -> (Vec<Vertex>, Vec<Vertex>) {
    let first = some_coil(rng);
    let second = if rng.one_in(2) {
        first.clone()
    } else {
        some_coil(rng)
    };
    let by = if rng.one_in(2) {
        Point {
            x: whole(rng, 8) / 4.0,
            y: whole(rng, 8) / 4.0,
        }
    } else {
        Point {
            x: nudge(epsilon, rng),
            y: nudge(epsilon, rng),
        }
    };
    let turn = rng.pick(&[(1.0, 0.0), (1.0, 0.0), (0.0, 1.0), (0.6, 0.8)]);
    let second = placed(&second, turn, 1.0, by);
    (first, second)
}

/// A coil, and a circle or a polygon around one of its vertices.
fn coil_and_pad(epsilon: f64, rng: &mut Rng) -> (Vec<Vertex>, Vec<Vertex>) {
    let coil = some_coil(rng);
    let mut center = rng.pick(&coil).at;
    center.x += nudge(epsilon, rng) + whole(rng, 2) / 2.0;
    center.y += nudge(epsilon, rng) + whole(rng, 2) / 2.0;
    let radius = rng.pick(&[0.25, 0.5, 1.0, 3.0]);
    let pad = if rng.one_in(2) {
        circle(center, radius, rng.sign())
    } else {
        polygon(center, radius, rng)
    };
    (coil, pad)
}

fn some_meander(rng: &mut Rng) -> Vec<Vertex> {
    let (fingers, height) = (size(rng, 30), 1.0 + rng.below(30) as f64);
    meander(fingers, height, rng.pick(&[0.5, 1.0, 2.0]), rng.one_in(2))
}

fn coil_and_meander(rng: &mut Rng) -> (Vec<Vertex>, Vec<Vertex>) {
    let by = Point {
        x: whole(rng, 20) / 2.0,
        y: whole(rng, 20) / 2.0,
    };
    let meander = some_meander(rng);
    (some_coil(rng), placed(&meander, (1.0, 0.0), 1.0, by))
}

/// Two meanders, one on top of the other or across it.
fn two_meanders(epsilon: f64, rng: &mut Rng) -> (Vec<Vertex>, Vec<Vertex>) {
    let (first, second) = (some_meander(rng), some_meander(rng));
    let turn = rng.pick(&[(1.0, 0.0), (0.0, 1.0), (0.8, 0.6)]);
    let by = Point {
        x: whole(rng, 4) / 2.0 + nudge(epsilon, rng),
        y: whole(rng, 4) / 2.0,
    };
    (first, placed(&second, turn, 1.0, by))
}

fn two_on_grid(most: u64, rng: &mut Rng) -> (Vec<Vertex>, Vec<Vertex>) {
    let reach = rng.pick(&[2, 3, 5, 12]);
    let mut one = || on_grid(size(rng, most), reach, rng);
    (one(), one())
}

fn two_of_arcs(rng: &mut Rng) -> (Vec<Vertex>, Vec<Vertex>) {
    let step = rng.pick(&[0.5, 4.0, 100.0]);
    let mut one = || arcs(size(rng, 50), step, rng);
    (one(), one())
}

fn two_anywhere(rng: &mut Rng) -> (Vec<Vertex>, Vec<Vertex>) {
    let mut one = || anywhere(size(rng, 30), rng);
    (one(), one())
}
