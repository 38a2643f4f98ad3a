//! What helps if a touching pair is missed: the missed pairs of the search, asked about again in other ways.

use super::aim::at;
use super::draw::{self, Pair, GRID_EPSILON, KINDS};
use super::judge::share;
use super::piece::{Piece, ONE};
use super::rules::largest;
use super::{answered, ours};
use crate::rng::Rng;
use crate::search::plane::Spot;

/// Into how many pieces an arc is cut.
const CUT: usize = 8;

/// An arc that rises less than this above its chord is a low one.
const LOW: f64 = 0.5;

/// Asked again: how many of them still share a point, and of these how many are found.
#[derive(Clone, Copy, Default)]
struct Again {
    shared: u64,
    found: u64,
}

impl Again {
    fn take(&mut self, shared: bool, found: bool) {
        self.shared += u64::from(shared);
        self.found += u64::from(shared && found);
    }
}

/// Pairs that are missed in either order and share no end, and the least radius of these.
#[derive(Clone, Copy)]
struct Rest {
    pairs: u64,
    least: f64,
}

impl Default for Rest {
    fn default() -> Rest {
        Rest {
            pairs: 0,
            least: f64::INFINITY,
        }
    }
}

impl Rest {
    fn take(&mut self, pair: &Pair) {
        let Pair { v, u, epsilon } = *pair;
        let common = v.ends().iter().any(|end| u.ends().contains(end));
        if !common
            && ours(&Pair {
                v: u,
                u: v,
                epsilon,
            }) == 0
        {
            self.pairs += 1;
            self.least = self.least.min(largest(pair));
        }
    }
}

const WAYS: [&str; 9] = [
    "exchanged",
    "the first reversed",
    "the second reversed",
    "epsilon 1/64",
    "epsilon 1/2",
    "the larger arc as a line",
    "the larger arc as a line, if it rises less than 1/2",
    "the larger arc cut in eight on the grid",
    "the larger arc cut in eight, off the grid",
];

/// Asks again about every missed pair among `count` drawn ones, and prints what is found then.
pub fn run(count: u64, seed: u64) {
    let mut rng = Rng::new(seed);
    let mut again = [[Again::default(); WAYS.len()]; 2];
    let mut missed = [0; 2];
    let mut rest = [Rest::default(); 2];
    for turn in 0..count {
        let pair = draw::pair(turn as usize % KINDS.len(), &mut rng);
        if pair.epsilon < GRID_EPSILON || ours(&pair) != 0 || share(pair.v, pair.u).is_none() {
            continue;
        }
        let arcs = usize::from(!pair.v.is_line() && !pair.u.is_line());
        missed[arcs] += 1;
        rest[arcs].take(&pair);
        for (way, again) in again[arcs].iter_mut().enumerate() {
            let (shared, found) = ask(&pair, way);
            again.take(shared, found);
        }
    }
    for (arcs, name) in ["a line and an arc", "two arcs"].iter().enumerate() {
        println!("{name}: {} missed of {count} pairs drawn", missed[arcs]);
        for (way, again) in WAYS.iter().zip(again[arcs]) {
            println!(
                "| {name} | {way} | {} found of {} that share a point |",
                again.found, again.shared
            );
        }
        let Rest { pairs, least } = &rest[arcs];
        println!("{name}: {pairs} missed in either order without a common end, from radius {least:.0} on");
    }
}

fn ask(pair: &Pair, way: usize) -> (bool, bool) {
    let Pair { v, u, epsilon } = *pair;
    let found = |v: Piece, u: Piece, epsilon: f64| ours(&Pair { v, u, epsilon }) != 0;
    // the larger arc, the other segment, and whether the larger is the first
    let first = v.radius() == largest(pair);
    let (large, other) = if first { (v, u) } else { (u, v) };
    let put = |large: Piece| {
        if first {
            (large, other)
        } else {
            (other, large)
        }
    };
    match way {
        0 => (true, found(u, v, epsilon)),
        1 => (true, found(v.reversed(), u, epsilon)),
        2 => (true, found(v, u.reversed(), epsilon)),
        3 => (true, found(v, u, 1.0 / 64.0)),
        4 => (true, found(v, u, 0.5)),
        5 | 6 => {
            let (v, u) = put(Piece { n: 0, ..large });
            let asked = way == 5 || large.height() < LOW;
            (asked && share(v, u).is_some(), found(v, u, epsilon))
        }
        7 => {
            let pieces = cut_on_grid(large).map(put);
            let touching = pieces
                .iter()
                .filter(|(v, u)| v.from != v.to && u.from != u.to && share(*v, *u).is_some());
            let touching: Vec<_> = touching.collect();
            (
                !touching.is_empty(),
                touching.iter().any(|(v, u)| found(*v, *u, epsilon)),
            )
        }
        _ => (
            true,
            cut(large)
                .iter()
                .any(|&large| answered(large, floats(other), first, epsilon) != 0),
        ),
    }
}

/// The two ends and the bulge.
pub type Floats = [f64; 5];

pub fn floats(s: Piece) -> Floats {
    let [x, y, z, w] = [s.from.x, s.from.y, s.to.x, s.to.y].map(|c| c as f64);
    [x, y, z, w, s.bulge()]
}

/// The arc in pieces of about the same angle.
fn cut(s: Piece) -> [Floats; CUT] {
    let s = s.turned();
    let b = s.bulge();
    let chord = ((s.to.x - s.from.x) as f64, (s.to.y - s.from.y) as f64);
    let along = |i: usize| 2.0 * i as f64 / CUT as f64 - 1.0;
    let place = |i: usize| {
        let (x, y) = at(chord, b, along(i)).0;
        match i {
            0 => (s.from.x as f64, s.from.y as f64),
            CUT => (s.to.x as f64, s.to.y as f64),
            _ => (s.from.x as f64 + x, s.from.y as f64 + y),
        }
    };
    std::array::from_fn(|i| {
        let (low, high) = (along(i) * b, along(i + 1) * b);
        // the way turns by twice the difference of the two angles, and the bulge is the tangent of a quarter of that
        let turn = (high - low) / (1.0 + high * low);
        let bulge = turn / (1.0 + (1.0 + turn * turn).sqrt());
        let ((x, y), (z, w)) = (place(i), place(i + 1));
        [x, y, z, w, bulge]
    })
}

/// The same, with each end and each bulge rounded to the form; a bulge below half a step makes a line.
fn cut_on_grid(s: Piece) -> [Piece; CUT] {
    cut(s).map(|[x, y, z, w, bulge]| {
        let spot = |x: f64, y: f64| Spot {
            x: x.round() as i64,
            y: y.round() as i64,
        };
        Piece {
            from: spot(x, y),
            to: spot(z, w),
            n: (bulge * ONE as f64).round() as i64,
        }
    })
}

/// Two parallel lines off the grid, side by side: the greatest distance at which they are still reported, for lines of each
/// length.
pub fn short_lines() {
    println!("two parallel lines of one length, side by side: length | epsilon | reported up to a distance of");
    for epsilon in [1.0 / 1024.0, 1.0 / 64.0, 0.5] {
        for length in [epsilon, 4.0 * epsilon, 0.25, 1.0, 16.0] {
            let reported = |distance: f64| {
                let beside = [0.0, distance, length, distance, 0.0];
                answered([0.0, 0.0, length, 0.0, 0.0], beside, true, epsilon) != 0
            };
            let (mut low, mut high) = (0.0, 1024.0);
            for _ in 0..60 {
                let middle = (low + high) / 2.0;
                if reported(middle) {
                    low = middle;
                } else {
                    high = middle;
                }
            }
            println!("| {length} | 1/{} | {high:.6} |", 1.0 / epsilon);
        }
    }
}

#[cfg(test)]
mod tests {
    use super::*;
    use crate::arcs::piece::tests::piece;

    #[test]
    fn pieces_are_on_the_arc() {
        let bowl = piece(-5, 0, 5, 0, ONE);
        let pieces = cut(bowl);
        for p in pieces {
            assert!((p[0] * p[0] + p[1] * p[1] - 25.0).abs() < 1e-12, "{p:?}");
            let (dx, dy) = (p[2] - p[0], p[3] - p[1]);
            let radius = (dx * dx + dy * dy).sqrt() * (1.0 + p[4] * p[4]) / (4.0 * p[4]);
            assert!((radius - 5.0).abs() < 1e-12, "{radius}");
        }
        assert_eq!((pieces[0][0], pieces[7][2]), (-5.0, 5.0));
        let flat = cut_on_grid(piece(0, 0, 1 << 20, 0, 80));
        assert_eq!(flat[0].from, Spot { x: 0, y: 0 });
        assert!(flat.iter().all(|p| p.n == 10));
    }
}
