//! Inputs on the edges: a call, or a quick test of ours, compares two numbers that are nearly equal. Just below an edge and just
//! above it a quick test says different things, and the answer must still be the Rust's.
//!
//! An edge is an entry of a table: its name, a draw of ways that lead over it, and the two numbers that are compared. A way is an
//! input of which one number moves. The place where the comparison changes is searched down to two neighbouring floats; the
//! inputs are these two, some a few steps away, and some with the last bits of other numbers changed. Rust computes by the same
//! formula on which side an input is, and the run fails if a side of an edge has too few inputs.

mod chords;
mod circles;
mod limits;
mod line_and_circle;
mod lines;
mod way;

use super::calls::{kernel_of, CALLS};
use super::score::Score;
use super::PAIRS;
use crate::inputs::values::epsilon;
use crate::listings;
use crate::numbers::{Numbers, MOST};
use crate::rng::Rng;
pub use way::Way;

/// An input is beside an edge if the two numbers differ by at most this part of the edge's size: some 1e-9.
const NEAR: f64 = 1.0 / (1u64 << 30) as f64;
/// One in this many ways over an edge also has some of its inputs listed. There are more where a listing decides by what it
/// keeps, and where one side is refused, since these give fewer pairs.
const LISTED: usize = 12;
const LISTED_BY_WHAT_IS_KEPT: usize = 3;
const LISTED_WHERE_REFUSED: usize = 2;

/// How many numbers a vertex has, and a segment.
const VERTEX: usize = 3;
const SEGMENT: usize = 6;

/// The two numbers of an input that are compared.
type Compared = Box<dyn Fn(&[f64]) -> Beside>;

pub struct Edge {
    draw: Box<dyn Fn(&mut Rng) -> Way>,
    /// All comparisons that change at this edge, each with its name.
    compared: Vec<(String, Compared)>,
    /// Whether inputs beyond the edge are refused. At other edges refused inputs do not count.
    refuses: bool,
    /// Whether the kernels take part: they have no chords.
    by_kernels: bool,
    /// One in this many ways is listed too.
    listed_of: usize,
    /// One in this many inputs of a side must come up in a listing too; `None` asks for none.
    listed_least: Option<u64>,
}

/// A number, the number that it is compared with, and the size by which their difference is judged.
pub struct Beside {
    number: f64,
    edge: f64,
    size: f64,
}

impl Edge {
    fn new(
        name: impl Into<String>,
        draw: impl Fn(&mut Rng) -> Way + 'static,
        beside: impl Fn(&[f64]) -> Beside + 'static,
    ) -> Edge {
        Edge {
            draw: Box::new(draw),
            compared: vec![(name.into(), Box::new(beside))],
            refuses: false,
            by_kernels: true,
            listed_of: LISTED,
            listed_least: None,
        }
    }

    /// Another comparison that changes at the same place, except for some last bits.
    fn and(mut self, name: impl Into<String>, beside: impl Fn(&[f64]) -> Beside + 'static) -> Edge {
        self.compared.push((name.into(), Box::new(beside)));
        self
    }

    fn of_pairs_only(self) -> Edge {
        Edge {
            by_kernels: false,
            ..self
        }
    }

    /// A quick test decides, which comes first in the pair call and in a listing, but in no kernel.
    fn by_quick_test(self) -> Edge {
        Edge {
            by_kernels: false,
            listed_least: Some(32),
            ..self
        }
    }

    /// A listing decides by what it keeps of each segment: half as many pairs are listed as go to the pair call.
    fn by_what_is_kept(self) -> Edge {
        Edge {
            by_kernels: false,
            listed_of: LISTED_BY_WHAT_IS_KEPT,
            listed_least: Some(2),
            ..self
        }
    }

    fn refusing(self) -> Edge {
        Edge {
            refuses: true,
            listed_of: LISTED_WHERE_REFUSED,
            ..self
        }
    }

    fn name(&self) -> &str {
        &self.compared[0].0
    }
}

impl Beside {
    /// Two numbers; the larger magnitude is the size.
    fn new(number: f64, edge: f64) -> Beside {
        let size = number.abs().max(edge.abs());
        Beside { number, edge, size }
    }

    fn sized(number: f64, edge: f64, size: f64) -> Beside {
        Beside { number, edge, size }
    }

    /// 0 below the edge, 1 at it, 2 above it; `None` if it is not near, or no number.
    fn side(&self) -> Option<usize> {
        let near = (self.number - self.edge).abs() <= NEAR * self.size;
        let order = self.number.partial_cmp(&self.edge)?;
        near.then_some((order as i8 + 1) as usize)
    }
}

fn table() -> Vec<Edge> {
    [
        lines::edges(),
        circles::edges(),
        line_and_circle::edges(),
        chords::edges(),
        limits::edges(),
    ]
    .into_iter()
    .flatten()
    .collect()
}

/// Compares the calls on `count` inputs for each edge, half of them just below it and half just above, and on some more. Answers
/// how many differences there were; a side with too few inputs counts as one.
pub fn check(count: u64, seed: u64) -> u64 {
    let mut rng = Rng::new(seed);
    let table = table();
    let half = count / 2;
    println!(
        "on {} edges, at least {half} inputs just below each and just above",
        table.len()
    );
    let run = |edge: &Edge| Run::new(edge).until(half, &mut rng).report(half);
    table.iter().map(run).sum()
}

struct Run<'a> {
    edge: &'a Edge,
    /// By the number of the call.
    scores: Vec<Score>,
    /// Below, at and above, for each comparison.
    sides: Vec<[u64; 3]>,
    ways: usize,
    listings: u64,
    /// The pairs in listings, and how many of them are below, at and above, by the first comparison.
    listed: u64,
    listed_sides: [u64; 3],
    wrong_listings: u64,
}

impl Run<'_> {
    fn new(edge: &Edge) -> Run<'_> {
        let score = |call| Score::new(call, format!(" at the edge {}", edge.name()));
        Run {
            edge,
            scores: CALLS.iter().map(score).collect(),
            sides: vec![[0; 3]; edge.compared.len()],
            ways: 0,
            listings: 0,
            listed: 0,
            listed_sides: [0; 3],
            wrong_listings: 0,
        }
    }

    /// Most ways give twenty-four inputs. A table that misses its edge ends all the same.
    fn until(mut self, half: u64, rng: &mut Rng) -> Self {
        for _ in 0..half {
            if self.least() >= half {
                break;
            }
            let way = (self.edge.draw)(rng);
            let (_, beside) = &self.edge.compared[self.ways % self.edge.compared.len()];
            // an input at the edge counts with those below it, or with those above
            let with_equal = rng.one_in(2);
            let below = |n: &[f64]| {
                let Beside { number, edge, .. } = beside(n);
                number < edge || with_equal && number == edge
            };
            let inputs = way.over(below, rng);
            if inputs.is_empty() {
                continue;
            }
            self.ways += 1;
            for (turn, numbers) in inputs.iter().enumerate() {
                self.compare(numbers, turn);
            }
            self.list(&inputs);
        }
        self
    }

    /// How many inputs the side with the fewest has: in calls, or in listings, times what is asked for.
    fn least(&self) -> u64 {
        let least = |[below, _, above]: &[u64; 3]| *below.min(above);
        let called = self.sides.iter().map(least).min().unwrap_or(0);
        match self.edge.listed_least {
            Some(part) => called.min(part * least(&self.listed_sides)),
            None => called,
        }
    }

    /// A pair goes to the pair call, or in turns to the kernel that decides it.
    fn compare(&mut self, numbers: &Numbers, turn: usize) {
        let by_turn = !self.edge.by_kernels || (self.ways + turn / 2) % 2 == 0;
        let by_pair = numbers.len() == MOST && by_turn;
        let answered = if by_pair {
            self.scores[PAIRS].in_full(numbers)
        } else {
            let (kernel, operands) = kernel_of(numbers);
            self.scores[kernel].in_full(&operands)
        };
        if answered || self.edge.refuses {
            for (sides, (_, beside)) in self.sides.iter_mut().zip(&self.edge.compared) {
                if let Some(side) = beside(numbers).side() {
                    sides[side] += 1;
                }
            }
        }
    }

    /// Lists some inputs of a way: all first segments are nearly alike, and all second ones, so that most pairs are beside the
    /// edge. If one side is refused, each input is listed by itself.
    fn list(&mut self, inputs: &[Numbers]) {
        let Edge {
            refuses,
            listed_of: one_of,
            ..
        } = *self.edge;
        if self.ways % one_of != 0 || inputs[0].len() < MOST {
            return;
        }
        let turn = self.ways / one_of;
        let inputs = if refuses {
            &inputs[turn / 2 % 2..][..1]
        } else {
            &inputs[..4]
        };
        let mut inputs = inputs.to_vec();
        if self.edge.listed_least.is_some() {
            inputs.iter_mut().for_each(go_back);
        }
        let (pairs, wrong) = listings::wrong_on_pairs(&inputs, turn % 2 == 0);
        self.listings += 1;
        self.listed += pairs;
        // a refused listing looks at no pair
        if pairs > 0 || refuses {
            self.count_listed(&inputs);
        }
        if let Some(what) = wrong {
            self.wrong_listings += 1;
            if self.wrong_listings == 1 {
                println!("listing at the edge {}: {what}", self.edge.name());
            }
        }
    }

    /// Each segment of the first path is paired with each of the second, with the first input's epsilon.
    fn count_listed(&mut self, inputs: &[Numbers]) {
        let (_, beside) = &self.edge.compared[0];
        let path = |first: usize| -> Vec<f64> {
            let segment = |n: &Numbers| n[first..first + SEGMENT].to_vec();
            inputs.iter().flat_map(segment).collect()
        };
        let (first, second) = (path(0), path(SEGMENT));
        let segments = |path: &[f64]| (0..path.len() - VERTEX).step_by(VERTEX);
        let mut pair = inputs[0];
        for v in segments(&first) {
            for u in segments(&second) {
                for place in 0..SEGMENT {
                    pair.put(place, first[v + place]);
                    pair.put(SEGMENT + place, second[u + place]);
                }
                if let Some(side) = beside(&pair).side() {
                    self.listed_sides[side] += 1;
                }
            }
        }
    }

    fn report(&self, half: u64) -> u64 {
        let counts = |((name, _), [below, at, above]): (&(String, Compared), &[u64; 3])| {
            format!("{name}: {below} below, {at} at, {above} above")
        };
        let counts: Vec<String> = self
            .edge
            .compared
            .iter()
            .zip(&self.sides)
            .map(counts)
            .collect();
        let calls = self.scores.iter().filter(|score| score.is_met());
        let met: Vec<String> = calls.map(Score::met).collect();
        let differences: u64 = self.scores.iter().map(Score::differences).sum();
        let differences = differences + self.wrong_listings;
        let [below, at, above] = self.listed_sides;
        println!(
            "edge {}; {}; {} listings of {} pairs ({below}, {at} and {above} of them beside the edge); {differences} differences",
            counts.join("; "),
            met.join("; "),
            self.listings,
            self.listed,
        );
        let short = u64::from(self.least() < half);
        if short > 0 {
            println!("edge {}: TOO FEW ON A SIDE", self.edge.name());
        }
        differences + short
    }
}

/// Gives the second vertices the bulges that lead back, so that in a path of such pairs all segments are nearly alike, or each
/// other's reverse.
fn go_back(pair: &mut Numbers) {
    for bulge in [2, SEGMENT + 2] {
        pair.put(bulge + VERTEX, -pair[bulge]);
    }
}

/// The operands of this kernel, by its number: its own, or those of a pair that it decides. NaNs if another kernel decides the
/// pair.
fn operands(kernel: usize, numbers: &[f64]) -> Numbers {
    match kernel_of(numbers) {
        (which, operands) if which == kernel => operands,
        _ => [f64::NAN; 9].into(),
    }
}

/// The epsilons that layouts are cut with, and others.
fn some_epsilon(rng: &mut Rng) -> f64 {
    match rng.below(4) {
        0 => 1.0 / 1024.0,
        1 => 1e-5,
        _ => epsilon(rng),
    }
}

#[cfg(test)]
mod tests {
    use super::*;

    /// Every edge is reached, on either side, by inputs that are accepted.
    #[test]
    fn every_edge_is_met() {
        let mut rng = Rng::new(3);
        for edge in table() {
            let run = Run::new(&edge).until(500, &mut rng);
            let sides = (&run.sides, run.listed_sides);
            assert!(run.least() >= 500, "{}: {sides:?}", edge.name());
        }
    }
}
