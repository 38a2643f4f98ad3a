//! Paths with large arcs: loops as in tuning, closed paths of two, and any other path with some of its bulges enlarged.

use super::cut::{segment, RULE};
use super::faults::of_segment;
use crate::crossing::faults::two_to;
use crate::inputs::values::{epsilon, nudge, whole};
use crate::inputs::Point;
use crate::listings::layout::{Drawn, Layout};
use crate::listings::shapes::{on_grid, placed, straightened, vertex};
use crate::listings::{self, FLAGS};
use crate::rng::Rng;
use crate::vertex::{BULGE, VERTEX};

/// A bulge above 1, at most 16, of either sign: at the limits, whole, near 1, or any.
pub fn large_bulge(rng: &mut Rng) -> f64 {
    let bulge = match rng.below(8) {
        0 => 1f64.next_up(),
        1 => 16.0,
        2 => 16f64.next_down(),
        3 => (2 + rng.below(15)) as f64,
        4 => 1.0 + two_to(-1 - rng.below(51) as i32),
        5 => 1.0 + (1 + rng.below(15 << 16)) as f64 / 65536.0,
        _ => rng.between(1.0, 16.0).max(1f64.next_up()),
    };
    rng.sign() * bulge
}

/// A bulge of 1, or a float beside it, or large.
pub fn some_bulge(rng: &mut Rng) -> f64 {
    match rng.below(8) {
        0 => rng.sign(),
        1 => rng.sign() * 1f64.next_down(),
        2 => 0.0,
        _ => large_bulge(rng),
    }
}

/// Makes a line of each segment that would be refused.
pub fn mended(mut drawn: Drawn) -> Drawn {
    for i in 0..drawn.path().segments() {
        if !of_segment(&RULE, segment(drawn.path(), i), 0, i).is_empty() {
            drawn.numbers[VERTEX * i + BULGE] = 0.0;
        }
    }
    drawn
}

/// The same layout with some bulges enlarged: none, some, half of them or all.
pub fn enlarged(layout: &Layout, rng: &mut Rng) -> Layout {
    let mut layout = layout.clone();
    let part = rng.pick(&[0, 1, 2, 8]);
    for path in [&mut layout.first, &mut layout.second] {
        for bulge in path.numbers.iter_mut().skip(BULGE).step_by(VERTEX) {
            if part > 0 && rng.one_in(part) {
                *bulge = some_bulge(rng);
            }
        }
        *path = mended(std::mem::take(path));
    }
    layout
}

/// Loops one after the other along a line, each nearly a full circle whose ends are so far apart.
fn loops(count: usize, pitch: f64, gap: f64, bulge: f64) -> Vec<[f64; 3]> {
    let each = |k: usize| {
        let x = pitch * k as f64;
        [[x, 0.0, bulge], [x + gap, 0.0, 0.0]]
    };
    (0..count).flat_map(each).collect()
}

/// Two rows of loops, of which the second is the first moved by little, by parts of a loop, or turned.
pub fn two_rows_of_loops(rng: &mut Rng) -> Layout {
    let epsilon = epsilon(rng);
    let (pitch, gap) = (
        rng.pick(&[1.0, 2.0, 3.0]),
        rng.pick(&[0.25, 0.125, 0.5, 1.0 / 1024.0]),
    );
    let bulge = rng.pick(&[2.0, 4.0, 8.0, 16.0, -3.0, -8.0, -15.5]);
    let count = 1 + rng.below(12) as usize;
    let rows = loops(count, pitch, gap, bulge);
    let vertices: Vec<_> = rows.iter().map(|[x, y, b]| vertex(*x, *y, *b)).collect();
    let by = if rng.one_in(2) {
        Point {
            x: nudge(epsilon, rng),
            y: nudge(epsilon, rng),
        }
    } else {
        Point {
            x: whole(rng, 4) / 4.0,
            y: whole(rng, 4) / 4.0,
        }
    };
    let turn = rng.pick(&[(1.0, 0.0), (1.0, 0.0), (0.0, 1.0), (-1.0, 0.0), (0.6, 0.8)]);
    let second = placed(&vertices, turn, 1.0, by);
    let [a, b] = rng.pick(&FLAGS);
    Layout {
        first: mended(Drawn::new(&vertices, a)),
        second: mended(Drawn::new(&second, b)),
        epsilon,
    }
}

/// Any layout.
pub fn draw(rng: &mut Rng) -> Layout {
    match rng.below(4) {
        0 => two_rows_of_loops(rng),
        _ => enlarged(&listings::draw::draw(rng), rng),
    }
}

/// Paths of so many vertices on a coarse grid.
pub fn small(vertices: [usize; 2], closed: [bool; 2], rng: &mut Rng) -> Layout {
    let [first, second] = [0, 1].map(|at: usize| {
        let path = straightened(on_grid(vertices[at], 2, rng));
        Drawn::new(&path, closed[at])
    });
    let layout = Layout {
        first,
        second,
        epsilon: epsilon(rng),
    };
    enlarged(&layout, rng)
}

/// Closed paths of two vertices, of which none, one or both segments are cut, at a small and at a large epsilon.
pub fn of_two(rng: &mut Rng) -> Vec<Layout> {
    const BULGES: [f64; 8] = [0.0, 0.5, 1.0, -1.0, 2.0, -3.0, 16.0, -16.0];
    let mut all = Vec::new();
    for first in BULGES {
        for second in BULGES {
            let path = |by: f64| {
                let ends = [[by, 0.0, first], [by + 1.0, 0.0, second]];
                Drawn::of(ends, true)
            };
            for epsilon in [1.0 / 1024.0, 0.5] {
                let by = rng.pick(&[0.0, 0.25, 1.0]);
                all.push(Layout {
                    first: path(0.0),
                    second: path(by),
                    epsilon,
                });
            }
        }
    }
    all
}

/// Loops whose ends are nearer than epsilon, as near, and farther: alone, and among lines. The second path is a line through
/// each, or a loop of the same circle.
pub fn near_ends() -> Vec<Layout> {
    let mut all = Vec::new();
    for bulge in [8.0, -8.0, 16.0, 1.5] {
        for epsilon in [0.25, 0.125, 1.0 / 16.0, 1.0 / 1024.0] {
            let arc = [[0.0, 0.0, bulge], [0.125, 0.0, 0.0]];
            let line = [[-3.0, 0.0, 0.0], [3.0, 0.0, 0.0]];
            let among = [line[0], arc[0], arc[1], line[1]];
            let second = [[0.125, 0.0, -bulge], [0.0, 0.0, 0.0]];
            for (first, closed) in [(&arc[..], false), (&among[..], false), (&among[..], true)] {
                for second in [&line[..], &second[..]] {
                    all.push(Layout {
                        first: Drawn::of(first.iter().copied(), closed),
                        second: Drawn::of(second.iter().copied(), false),
                        epsilon,
                    });
                }
            }
        }
    }
    all
}

/// So many vertices, of which each starts a large arc.
pub fn all_cut(vertices: usize, closed: bool, rng: &mut Rng) -> Drawn {
    let vertex = |i: usize| [3.0 * i as f64, (i % 2) as f64, 0.0];
    let mut drawn = Drawn::of((0..vertices).map(vertex), closed);
    for bulge in drawn.numbers.iter_mut().skip(BULGE).step_by(VERTEX) {
        *bulge = large_bulge(rng);
    }
    drawn
}

/// A path of three lines to lay across it.
pub fn short(closed: bool, rng: &mut Rng) -> Drawn {
    let at = 3.0 * rng.below(4000) as f64;
    let path = [
        [at, -20.0, 0.0],
        [at + 1.0, 20.0, 0.0],
        [at + 9.0, 1.0, 2.0],
    ];
    Drawn::of(path, closed)
}

/// Short parallel lines that are reported though their boxes are apart, beside a loop.
pub fn apart() -> Layout {
    let path = |y: f64| [[-4.0, y, 8.0], [0.0, y, 0.0], [0.375, y, 0.0]];
    Layout {
        first: Drawn::of(path(0.0), false),
        second: Drawn::of(path(0.625), false),
        epsilon: 0.25,
    }
}

/// The same in one path.
pub fn apart_in_one() -> Layout {
    let path = [
        [-4.0, 0.0, 8.0],
        [0.0, 0.0, 0.0],
        [0.375, 0.0, 0.0],
        [0.375, 9.0, 0.0],
        [0.375, 0.625, 0.0],
        [0.0, 0.625, 0.0],
    ];
    Layout {
        first: Drawn::of(path, false),
        second: Drawn::default(),
        epsilon: 0.25,
    }
}
