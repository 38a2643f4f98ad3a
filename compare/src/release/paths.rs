//! Layouts of two short paths made of segments at the extremes. Their vertices come from few points, so that many pairs meet.

use super::numbers::{bulge, epsilon, far, least_bulge, nudge, point, ulps, Point};
use super::round::Circle;
use super::straight::tie;
use crate::inputs::values::{down, power, up, whole, LINE_LIMIT, SMALLEST};
use crate::listings::layout::{Drawn, Layout};
use crate::rng::Rng;

const MOST_VERTICES: u64 = 8;

/// Mostly accepted.
pub fn layout(large: bool, rng: &mut Rng) -> Layout {
    let mut epsilon = epsilon(rng);
    let family = rng.below(8);
    let [first, second] = match family {
        0..=2 => {
            let circle = Circle::draw(rng);
            [0, 1].map(|_| on_circle(&circle, large, rng))
        }
        3 => {
            let [length, given, beyond] = tie(rng);
            epsilon = given;
            let by_y = rng.one_in(2);
            [0, 1].map(|_| on_axis([length, epsilon, beyond], by_y, rng))
        }
        4 | 5 => {
            let ends = [[far(rng), 0.0], [far(rng), far(rng)]];
            [0, 1].map(|_| flat(ends, rng))
        }
        6 => {
            let pool = [0; 5].map(|_| tiny(large, rng));
            [0, 1].map(|_| of_pool(&pool, large, rng))
        }
        _ => {
            let pool = [0; 6].map(|_| point(rng));
            [0, 1].map(|_| of_pool(&pool, large, rng))
        }
    };
    Layout {
        first,
        second,
        epsilon,
    }
}

fn vertices(rng: &mut Rng) -> usize {
    2 + rng.below(MOST_VERTICES - 1) as usize
}

fn drawn(vertices: impl IntoIterator<Item = [f64; 3]>, rng: &mut Rng) -> Drawn {
    Drawn::of(vertices, rng.one_in(2))
}

/// Arcs of one circle, and some of its chords.
fn on_circle(circle: &Circle, large: bool, rng: &mut Rng) -> Drawn {
    let first = rng.below(12) as usize;
    let mut places = vec![first];
    for _ in 1..vertices(rng) {
        let last = places[places.len() - 1];
        places.push((last + 1 + rng.below(11) as usize) % 12);
    }
    let closed = places[places.len() - 1] != first && rng.one_in(2);
    let next = places[1..].iter().chain([&first]);
    let mut vertices = Vec::new();
    for (from, to) in places.iter().zip(next) {
        let [x, y] = circle.at(*from);
        let bulge = match rng.below(8) {
            _ if from == to => 0.0,
            0 => 0.0,
            1 => least_bulge(rng),
            _ => Circle::bulge(*from, *to, large && rng.one_in(3)),
        };
        vertices.push([x, y, bulge]);
    }
    Drawn::of(vertices, closed)
}

/// Lines on one axis, to and fro, between few places that are epsilon or some floats apart.
fn on_axis([length, epsilon, beyond]: [f64; 3], by_y: bool, rng: &mut Rng) -> Drawn {
    let place = |rng: &mut Rng| match rng.below(8) {
        0 | 1 => 0.0,
        2 | 3 => length,
        4 => beyond,
        5 => ulps(length + epsilon, 3, rng),
        6 => nudge(epsilon, rng),
        _ => length + power(rng, -20, 18),
    };
    let count = vertices(rng);
    let all: Vec<[f64; 3]> = (0..count)
        .map(|_| {
            let bulge = rng.pick(&[0.0, 0.0, -0.0, down(LINE_LIMIT)]);
            if by_y {
                [0.0, place(rng), bulge]
            } else {
                [place(rng), 0.0, bulge]
            }
        })
        .collect();
    drawn(all, rng)
}

/// To and fro on a long chord, with bulges next to 1e-8.
fn flat(ends: [Point; 2], rng: &mut Rng) -> Drawn {
    let count = vertices(rng);
    let all: Vec<[f64; 3]> = (0..count)
        .map(|at| {
            let [x, y] = ends[at % 2];
            let [x, y] = match rng.below(8) {
                0 => [ulps(x, 2, rng), y],
                1 => [x, ulps(y, 2, rng)],
                _ => [x, y],
            };
            let bulge = if rng.one_in(8) { 0.0 } else { least_bulge(rng) };
            [x, y, bulge]
        })
        .collect();
    drawn(all, rng)
}

/// A few shortest chords from 0.
fn tiny(large: bool, rng: &mut Rng) -> Point {
    let least = if large { SMALLEST / 8.0 } else { SMALLEST };
    let mut at = || whole(rng, 3) * rng.pick(&[least, up(least), SMALLEST]);
    [at(), at()]
}

fn of_pool(pool: &[Point], large: bool, rng: &mut Rng) -> Drawn {
    let count = vertices(rng);
    let mut last = pool.len();
    let all: Vec<[f64; 3]> = (0..count)
        .map(|_| {
            let mut at = rng.below(pool.len() as u64) as usize;
            if at == last {
                at = (at + 1) % pool.len();
            }
            last = at;
            let [x, y] = pool[at];
            [x, y, bulge(large, rng)]
        })
        .collect();
    drawn(all, rng)
}
