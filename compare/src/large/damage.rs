//! Layouts with faults in this mode: each number of each vertex at every limit and beyond it, cut points beyond, halves too
//! short, lengths, the epsilon; one at a time, and every two at once.

use super::cut::{Segment, MOST_BULGE};
use super::draw::{mended, short};
use super::edges::beyond_both;
use crate::crossing::{sorts, specials};
use crate::inputs::values::{up, COORDINATE_LIMIT};
use crate::listings::layout::{Drawn, Layout};
use crate::listings::model::MOST_VERTICES;
use crate::listings::shapes::on_grid;
use crate::rng::Rng;
use crate::vertex::{BULGE, TRACE, VERTEX};

/// What is done to a layout. A path is 0 or 1.
#[derive(Clone, Copy)]
enum Damage {
    Epsilon(f64),
    /// One to three numbers more than whole vertices have.
    Longer {
        path: usize,
        by: usize,
    },
    TooMany {
        path: usize,
    },
    Number {
        path: usize,
        at: usize,
        number: f64,
    },
    /// A segment's five numbers, its second vertex keeping its bulge.
    Segment {
        path: usize,
        i: usize,
        put: Segment,
    },
}

impl Damage {
    fn apply(self, layout: &mut Layout) {
        match self {
            Damage::Epsilon(epsilon) => layout.epsilon = epsilon,
            Damage::Longer { path, by } => numbers(layout, path).extend(vec![0.5; by]),
            Damage::TooMany { path } => {
                let numbers = numbers(layout, path);
                let vertex: [f64; VERTEX] = [0.25, 0.25, 0.0, 0.0];
                let rest = numbers.len() % VERTEX;
                let new = numbers.len()..VERTEX * (MOST_VERTICES + 1) + rest;
                numbers.extend(new.map(|at| vertex[at % VERTEX]));
            }
            Damage::Number { path, at, number } => numbers(layout, path)[at] = number,
            Damage::Segment { path, i, put } => {
                let numbers = numbers(layout, path);
                let vertices = numbers.len() / VERTEX;
                let (from, to) = (VERTEX * i, VERTEX * ((i + 1) % vertices));
                numbers[from..from + 3].copy_from_slice(&put[..3]);
                numbers[to..to + 2].copy_from_slice(&put[3..]);
            }
        }
    }
}

fn numbers(layout: &mut Layout, path: usize) -> &mut Vec<f64> {
    let Layout { first, second, .. } = layout;
    &mut if path == 0 { first } else { second }.numbers
}

fn damaged(layout: &Layout, damages: &[Damage]) -> Layout {
    let mut layout = layout.clone();
    for damage in damages {
        damage.apply(&mut layout);
    }
    layout
}

/// Every number of both paths.
fn places(layout: &Layout) -> impl Iterator<Item = (usize, usize)> {
    let lengths = [layout.first.numbers.len(), layout.second.numbers.len()];
    (0..2).flat_map(move |path| (0..lengths[path]).map(move |at| (path, at)))
}

/// Each limit and its neighbours, NaNs and infinities in each place; 16 in the bulges' places; what is beside a trace's limits.
pub fn one_at_a_time(layout: &Layout) -> Vec<Layout> {
    let bulges = [
        MOST_BULGE.next_down(),
        MOST_BULGE,
        MOST_BULGE.next_up(),
        17.0,
    ];
    let bulges: Vec<f64> = bulges.iter().flat_map(|b| [*b, -b]).collect();
    let all = specials();
    let mut damages: Vec<Damage> = all.iter().map(|x| Damage::Epsilon(*x)).collect();
    for (path, at) in places(layout) {
        let more = match at % VERTEX {
            BULGE => bulges.clone(),
            TRACE => sorts::about_traces(),
            _ => Vec::new(),
        };
        let numbers = all.iter().copied().chain(more);
        damages.extend(numbers.map(|number| Damage::Number { path, at, number }));
    }
    for path in 0..2 {
        damages.extend((1..VERTEX).map(|by| Damage::Longer { path, by }));
        damages.push(Damage::TooMany { path });
    }
    damages.iter().map(|one| damaged(layout, &[*one])).collect()
}

/// Every two of these: a number refused for each reason, a segment for each, a length, the epsilon.
pub fn two_at_once(layout: &Layout, rng: &mut Rng) -> Vec<Layout> {
    let all = faults(layout, rng);
    let before = |i: usize| all[..i].iter().map(move |other| (i, other));
    let two = (0..all.len()).flat_map(before);
    two.map(|(i, other)| damaged(layout, &[all[i], *other]))
        .collect()
}

/// Segments with one fault each: an arc that is not cut and has no chord, a cut one, and cut points beyond in x and in y.
fn at_fault(rng: &mut Rng) -> [Segment; 4] {
    let limit = COORDINATE_LIMIT;
    let s = rng.sign();
    [
        [0.0, 0.0, 0.5, 0.0, 0.0],
        [0.0, 0.0, rng.sign() * 4.0, 0.0, 0.0],
        [s * (limit - 6.0), 0.0, s * 4.0, s * (limit - 6.0), 4.0],
        [0.0, s * (limit - 6.0), s * -4.0, 4.0, s * (limit - 6.0)],
    ]
}

fn faults(layout: &Layout, rng: &mut Rng) -> Vec<Damage> {
    let [nans, infinities, _] = sorts::by_refusal();
    let mut all = vec![Damage::Epsilon(rng.pick(&[0.0, f64::NAN, 0.75]))];
    for (path, at) in places(layout) {
        let beyond = match at % VERTEX {
            TRACE => rng.pick(&sorts::no_traces()),
            BULGE => rng.sign() * up(MOST_BULGE),
            _ => rng.sign() * up(COORDINATE_LIMIT),
        };
        let numbers = [rng.pick(&nans), rng.pick(&infinities), beyond];
        all.extend(numbers.map(|number| Damage::Number { path, at, number }));
        if at % VERTEX == 0 {
            let i = at / VERTEX;
            let segments = at_fault(rng);
            all.extend(segments.map(|put| Damage::Segment { path, i, put }));
        }
    }
    for path in 0..2 {
        let by = 1 + rng.below(VERTEX as u64 - 1) as usize;
        all.extend([Damage::Longer { path, by }, Damage::TooMany { path }]);
    }
    all
}

/// Each fault at the last vertex or segment of a path of 4,096 vertices, as the first path and as the second.
pub fn far(closed: bool, rng: &mut Rng) -> Vec<Layout> {
    let lines: Vec<[f64; 3]> = on_grid(MOST_VERTICES, 1000, rng)
        .iter()
        .map(|v| [v.at.x, v.at.y, 0.0])
        .collect();
    let layout = Layout {
        first: Drawn::of(lines, closed),
        second: mended(short(closed, rng)),
        epsilon: 1.0 / 1024.0,
    };
    let last = MOST_VERTICES - 1;
    let i = layout.first.path().segments() - 1;
    let mut damages = Vec::new();
    for at in VERTEX * last..VERTEX * MOST_VERTICES {
        let beyond = match at % VERTEX {
            TRACE => 256.0,
            BULGE => -(up(MOST_BULGE)),
            _ => f64::MIN,
        };
        let numbers = [f64::NAN, f64::INFINITY, beyond];
        damages.extend(numbers.map(|number| Damage::Number {
            path: 0,
            at,
            number,
        }));
    }
    let mut segments = at_fault(rng).to_vec();
    segments.push(beyond_both([true, false]));
    damages.extend(segments.iter().map(|put| Damage::Segment {
        path: 0,
        i,
        put: *put,
    }));
    let both = |damage: &Damage| {
        let one = damaged(&layout, &[*damage]);
        let other = Layout {
            first: one.second.clone(),
            second: one.first.clone(),
            epsilon: one.epsilon,
        };
        [one, other]
    };
    damages.iter().flat_map(both).collect()
}
