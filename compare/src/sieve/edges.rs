//! The edges of the sieve of lines, and of what decides about the pairs that it leaves: two numbers of a pair that are compared
//! are all but equal. Of each listing that is made for an edge, every pair is counted below it, at it or above it, by the formula.

use super::lines::{beside_circle, Crossing, Side, AFTER, BEFORE, RULE};
use super::places::is_sieved;
use crate::crossing::faults::two_to;
use crate::listings::model::Listed;

/// A pair is on an edge if the two numbers differ by at most this part of the edge's size: some 64 last bits.
const NEAR: f64 = 1.0 / (1u64 << 46) as f64;

/// What listings are drawn for. `which` is the first segment of a pair or the second.
#[derive(Clone, Copy, Debug, PartialEq)]
pub enum Family {
    /// A parameter at 33/32 and at -1/32, as the sieve compares it, without a quotient.
    Clear(usize),
    /// A parameter times the length at an epsilon before an end or behind it, as the Rust compares it.
    Ends(usize),
    /// v perp u at epsilon and at its opposite.
    Ways,
    /// Of parallel lines u perp w, or v perp w, at epsilon and at its opposite.
    Apart(usize),
    /// A segment's square at 2^-10.
    Square(usize),
    /// Epsilon at 2^-10 and at 2^-40, where that decides about this segment.
    Largest(usize),
    Smallest(usize),
    /// A line's distance from an arc's circle: where the quick test says that it is far, and where it is. `which` is the line.
    Round(usize),
}

pub const FAMILIES: [Family; 15] = [
    Family::Clear(0),
    Family::Clear(1),
    Family::Ends(0),
    Family::Ends(1),
    Family::Ways,
    Family::Apart(0),
    Family::Apart(1),
    Family::Square(0),
    Family::Square(1),
    Family::Largest(0),
    Family::Largest(1),
    Family::Smallest(0),
    Family::Smallest(1),
    Family::Round(0),
    Family::Round(1),
];

/// An edge, and how many pairs were below it, at it and above it.
pub struct Edge {
    name: String,
    pub sides: [u64; 3],
}

/// The edges of a family.
pub struct Edges {
    pub family: Family,
    pub all: Vec<Edge>,
}

impl Edges {
    pub fn of(family: Family) -> Edges {
        let segment = |which: usize| ["first", "second"][which];
        let both_signs = |what: String| {
            let of_d = |sign: &str| format!("{what}, d {sign} 0");
            ["above", "below"].map(of_d)
        };
        let names: Vec<String> = match family {
            Family::Clear(which) => ["33/32", "-1/32"]
                .into_iter()
                .flat_map(|t| both_signs(format!("t of the {} at {t}", segment(which))))
                .collect(),
            Family::Ends(which) => ["-eps", "eps", "length - eps", "length + eps"]
                .into_iter()
                .flat_map(|t| both_signs(format!("t * length of the {} at {t}", segment(which))))
                .collect(),
            Family::Ways => ["v perp u at eps", "v perp u at -eps"]
                .map(String::from)
                .to_vec(),
            Family::Apart(which) => {
                let way = ["u", "v"][which];
                let at = |edge: &str| format!("{way} perp w at {edge}, parallel");
                ["eps", "-eps"].map(at).to_vec()
            }
            Family::Square(which) => vec![format!("square of the {} at 2^-10", segment(which))],
            Family::Largest(which) => vec![format!("epsilon at 2^-10, by the {}", segment(which))],
            Family::Round(which) => {
                let order = ["a line and an arc", "an arc and a line"][which];
                let at = |edge: &str| format!("{edge}, {order}");
                ["|c| at the quick test's guess", "distance at r + eps"]
                    .map(at)
                    .to_vec()
            }
            Family::Smallest(which) => vec![format!("epsilon at 2^-40, by the {}", segment(which))],
        };
        let edge = |name| Edge {
            name,
            sides: [0; 3],
        };
        Edges {
            family,
            all: names.into_iter().map(edge).collect(),
        }
    }

    /// How many pairs the side with the fewest has: of those beside the edges, and of those at them.
    pub fn least(&self) -> [u64; 2] {
        let beside = |edge: &Edge| edge.sides[0].min(edge.sides[2]);
        let at = |edge: &Edge| edge.sides[1];
        [
            self.all.iter().map(beside).min().unwrap_or(0),
            self.all.iter().map(at).min().unwrap_or(0),
        ]
    }

    /// Counts every pair of a listing, if it is sieved. With an epsilon beyond what is usual it is not.
    pub fn count(&mut self, listed: Listed, epsilon: f64) {
        let paths = listed.paths();
        let own = paths.len() == 1;
        let [first, second] = [paths[0], paths[paths.len() - 1]].map(Side::all);
        let by_epsilon = matches!(self.family, Family::Largest(_) | Family::Smallest(_));
        let usual = (two_to(-40)..=two_to(-10)).contains(&epsilon);
        let may_be = is_sieved(first.len(), &second, epsilon) || by_epsilon && !usual;
        // an arc first is never judged
        if !may_be && self.family != Family::Round(1) {
            return;
        }
        for (i, v) in first.iter().enumerate() {
            let from = if own { i + 1 } else { 0 };
            for u in second.iter().skip(from) {
                self.pair(v, u, epsilon);
            }
        }
    }

    fn pair(&mut self, v: &Side, u: &Side, epsilon: f64) {
        if let Family::Round(which) = self.family {
            let (line, other) = if which == 0 { (v, u) } else { (u, v) };
            if let (None, Some(circle)) = (line.circle, other.circle) {
                let compared = beside_circle(line, &circle, epsilon);
                for (at, numbers) in compared.into_iter().enumerate() {
                    self.add(at, numbers, numbers[1]);
                }
            }
            return;
        }
        let crossing = Crossing::of(v, u);
        let Crossing { d, over } = crossing;
        let parallel = crossing.is_parallel(epsilon);
        let below_zero = usize::from(d < 0.0);
        match self.family {
            Family::Clear(which) => {
                if parallel || !RULE.judges(v, 0, epsilon) || !RULE.judges(u, 1, epsilon) {
                    return;
                }
                // below is where the parameter is
                let turned = if d < 0.0 { -1.0 } else { 1.0 };
                for (at, limit) in [AFTER, BEFORE].into_iter().enumerate() {
                    let edge = d * limit;
                    let numbers = [turned * over[which], turned * edge];
                    self.add(2 * at + below_zero, numbers, d.abs());
                }
            }
            Family::Ends(which) => {
                if parallel {
                    return;
                }
                let length = [v, u][which].length;
                let along = over[which] / d * length;
                let each = [
                    [along + epsilon, 0.0],
                    [along, epsilon],
                    [along, length - epsilon],
                    [along, length + epsilon],
                ];
                for (at, numbers) in each.into_iter().enumerate() {
                    self.add(2 * at + below_zero, numbers, length);
                }
            }
            Family::Ways => self.add(below_zero, [d.abs(), epsilon], epsilon),
            Family::Apart(which) => {
                if parallel {
                    let n = over[which];
                    self.add(usize::from(n < 0.0), [n.abs(), epsilon], epsilon);
                }
            }
            Family::Square(which) => {
                if decides(&crossing, which, parallel) {
                    let square = [v, u][which].square;
                    self.add(0, [square, two_to(-10)], two_to(-10));
                }
            }
            Family::Largest(which) | Family::Smallest(which) => {
                let limit = match self.family {
                    Family::Largest(_) => two_to(-10),
                    _ => two_to(-40),
                };
                if decides(&crossing, which, parallel) {
                    self.add(0, [epsilon, limit], limit);
                }
            }
            Family::Round(_) => unreachable!("counted above"),
        }
    }

    fn add(&mut self, at: usize, [number, edge]: [f64; 2], size: f64) {
        if (number - edge).abs() <= NEAR * size {
            let side = if number < edge {
                0
            } else if number == edge {
                1
            } else {
                2
            };
            self.all[at].sides[side] += 1;
        }
    }

    /// Prints what was met, and answers how many sides have fewer than `half`.
    pub fn report(&self, half: u64) -> u64 {
        let mut short = 0;
        for Edge { name, sides } in &self.all {
            let [below, at, above] = sides;
            println!("sieve, edge {name}: {below} pairs below, {at} at, {above} above");
            for (side, pairs) in ["below", "at", "above"].into_iter().zip(sides) {
                if *pairs < half {
                    println!("sieve, edge {name}: TOO FEW {side}");
                    short += 1;
                }
            }
        }
        short
    }
}

/// Whether the crossing lies about an end of this segment, so that its size and epsilon decide.
fn decides(crossing: &Crossing, which: usize, parallel: bool) -> bool {
    let t = crossing.over[which] / crossing.d;
    let off = (t - 0.5).abs();
    !parallel && (7.0 / 16.0..=9.0 / 16.0).contains(&off)
}
