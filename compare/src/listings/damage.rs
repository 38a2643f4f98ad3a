//! Layouts with faults: each number of each vertex at every limit and beyond it, chords as short as an arc's may be, lengths, the
//! epsilon; one at a time, and every two at once.

use super::layout::{Drawn, Layout};
use super::model::MOST_VERTICES;
use super::shapes::{on_grid, straightened};
use crate::crossing::faults::two_to;
use crate::crossing::{sorts, specials};
use crate::inputs::values::{epsilon, up};
use crate::rng::Rng;
use crate::vertex::{BULGE, TRACE, VERTEX};

/// What is done to a layout. A path is 0 or 1.
#[derive(Clone, Copy)]
enum Damage {
    Epsilon(f64),
    /// One, two or three numbers more than whole vertices have.
    Longer {
        path: usize,
        by: usize,
    },
    /// 4,097 vertices.
    TooMany {
        path: usize,
    },
    Number {
        path: usize,
        at: usize,
        number: f64,
    },
    /// A segment from the origin along an axis, of this length.
    Chord {
        path: usize,
        segment: usize,
        long: f64,
        bulge: f64,
    },
}

impl Damage {
    fn apply(self, layout: &mut Layout) {
        match self {
            Damage::Epsilon(epsilon) => layout.epsilon = epsilon,
            Damage::Longer { path, by } => numbers(layout, path).extend(vec![0.5; by]),
            Damage::TooMany { path } => {
                let numbers = numbers(layout, path);
                let more = numbers.len() % VERTEX;
                // lines, so that no chord is at fault besides
                let vertex: [f64; VERTEX] = [0.25, 0.25, 0.0, 0.0];
                let new = numbers.len()..VERTEX * 4097 + more;
                numbers.extend(new.map(|at| vertex[at % VERTEX]));
            }
            Damage::Number { path, at, number } => numbers(layout, path)[at] = number,
            Damage::Chord {
                path,
                segment,
                long,
                bulge,
            } => {
                let numbers = numbers(layout, path);
                let (from, vertices) = (VERTEX * segment, numbers.len() / VERTEX);
                let to = VERTEX * ((segment + 1) % vertices);
                numbers[from..from + 3].copy_from_slice(&[0.0, 0.0, bulge]);
                let way = [[long, 0.0], [0.0, long]][segment % 2];
                numbers[to..to + 2].copy_from_slice(&way);
            }
        }
    }
}

impl Layout {
    fn damaged(&self, damages: &[Damage]) -> Layout {
        let mut layout = self.clone();
        for damage in damages {
            damage.apply(&mut layout);
        }
        layout
    }
}

fn numbers(layout: &mut Layout, path: usize) -> &mut Vec<f64> {
    let Layout { first, second, .. } = layout;
    &mut if path == 0 { first } else { second }.numbers
}

/// A small accepted layout with this many vertices in each path.
pub fn accepted(vertices: [usize; 2], closed: [bool; 2], rng: &mut Rng) -> Layout {
    let [first, second] = [0, 1].map(|path| {
        let vertices = on_grid(vertices[path], 3, rng);
        Drawn::new(&straightened(vertices), closed[path])
    });
    let epsilon = epsilon(rng);
    Layout {
        first,
        second,
        epsilon,
    }
}

/// Every limit, its neighbours, NaNs and infinities in every place; what is beside a trace's limits in the traces' places; each
/// chord near the shortest that an arc may have.
pub fn one_at_a_time(layout: &Layout) -> Vec<Layout> {
    let mut all = Vec::new();
    for special in specials() {
        all.push(Damage::Epsilon(special));
        all.extend(places(layout).map(|(path, at)| Damage::Number {
            path,
            at,
            number: special,
        }));
    }
    let traces = places(layout).filter(|(_, at)| at % VERTEX == TRACE);
    all.extend(traces.flat_map(|(path, at)| {
        let numbers = sorts::about_traces().into_iter();
        numbers.map(move |number| Damage::Number { path, at, number })
    }));
    for short in shorts() {
        for bulge in bulges() {
            all.extend(segments(layout).map(|(path, segment)| Damage::Chord {
                path,
                segment,
                long: short,
                bulge,
            }));
        }
    }
    for path in 0..2 {
        all.extend((1..VERTEX).map(|by| Damage::Longer { path, by }));
        all.push(Damage::TooMany { path });
    }
    let damaged = |damage: &Damage| layout.damaged(&[*damage]);
    all.iter().map(damaged).collect()
}

/// Every two of these: a number refused for each reason that its place has, a chord too short, a length, the epsilon. The first
/// in the scope's order must be the answer.
pub fn two_at_once(layout: &Layout, rng: &mut Rng) -> Vec<Layout> {
    let all = faults(layout, rng);
    let before = |i: usize| all[..i].iter().map(move |other| (i, other));
    let two = (0..all.len()).flat_map(before);
    two.map(|(i, other)| layout.damaged(&[all[i], *other]))
        .collect()
}

/// A path of 4,096 vertices before a short one, and behind it, with one fault: each number of the last vertex for each reason,
/// and the last chord.
pub fn far(closed: [bool; 2], rng: &mut Rng) -> Vec<(Layout, Layout)> {
    let mut layout = accepted([MOST_VERTICES, 3], closed, rng);
    // lines only, so that the last chord is the first at fault
    for bulge in layout.first.numbers.iter_mut().skip(BULGE).step_by(VERTEX) {
        *bulge = 0.0;
    }
    let turned = Layout {
        first: layout.second.clone(),
        second: layout.first.clone(),
        epsilon: layout.epsilon,
    };
    let last = MOST_VERTICES - 1;
    let segment = layout.first.path().segments() - 1;
    let [nans, infinities, beyond] = sorts::by_refusal();
    let numbers = [rng.pick(&nans), rng.pick(&infinities), rng.pick(&beyond)];
    let both = |damage: fn(usize, usize, f64) -> Damage, at: usize, number: f64| {
        let [first, second] = [0, 1].map(|path| damage(path, at, number));
        (layout.damaged(&[first]), turned.damaged(&[second]))
    };
    let number = |path, at, number| Damage::Number { path, at, number };
    let chord = |path, segment, bulge| Damage::Chord {
        path,
        segment,
        long: 0.0,
        bulge,
    };
    let mut all = vec![both(chord, segment, 0.5)];
    for at in VERTEX * last..VERTEX * last + TRACE {
        all.extend(numbers.map(|x| both(number, at, x)));
    }
    let [nan, infinite, _] = numbers;
    let traces = [nan, infinite].into_iter().chain(sorts::no_traces());
    all.extend(traces.map(|x| both(number, VERTEX * last + TRACE, x)));
    all
}

fn faults(layout: &Layout, rng: &mut Rng) -> Vec<Damage> {
    let [nans, infinities, _] = sorts::by_refusal();
    let mut all = vec![Damage::Epsilon(rng.pick(&[0.0, f64::NAN, 0.75]))];
    for (path, at) in places(layout) {
        let beyond = match at % VERTEX {
            TRACE => rng.pick(&sorts::no_traces()),
            BULGE => rng.sign() * up(1.0),
            _ => rng.sign() * up(1_048_576.0),
        };
        let numbers = [rng.pick(&nans), rng.pick(&infinities), beyond];
        all.extend(numbers.map(|number| Damage::Number { path, at, number }));
    }
    all.extend(segments(layout).map(|(path, segment)| Damage::Chord {
        path,
        segment,
        long: 0.0,
        bulge: 0.5,
    }));
    for path in 0..2 {
        let by = 1 + rng.below(VERTEX as u64 - 1) as usize;
        all.extend([Damage::Longer { path, by }, Damage::TooMany { path }]);
    }
    all
}

/// Every number of both paths.
fn places(layout: &Layout) -> impl Iterator<Item = (usize, usize)> {
    let lengths = [layout.first.numbers.len(), layout.second.numbers.len()];
    (0..2).flat_map(move |path| (0..lengths[path]).map(move |at| (path, at)))
}

/// Every vertex at which a segment would start if both paths were closed.
fn segments(layout: &Layout) -> impl Iterator<Item = (usize, usize)> {
    places(layout)
        .filter(|(_, at)| at % VERTEX == 0)
        .map(|(path, at)| (path, at / VERTEX))
}

/// The shortest chord of an arc, the floats next to it, and none at all.
fn shorts() -> [f64; 4] {
    let least = two_to(-40).to_bits();
    [0, least - 1, least, least + 1].map(f64::from_bits)
}

/// The smallest bulges of arcs and the largest of lines, and one of an arc.
fn bulges() -> [f64; 5] {
    let least = 1e-8f64.to_bits();
    let [below, at] = [least - 1, least].map(f64::from_bits);
    [below, at, -below, -at, 0.5]
}
