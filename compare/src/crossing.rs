//! The kernels and the pair call compared with the Rust's: answers, refusals, and what is written into the lent slice.

mod bench;
mod calls;
mod edges;
pub mod faults;
pub mod limits;
mod score;
mod sites;
pub mod sorts;
#[cfg(test)]
mod tests;

pub use bench::{of_sheet, run as bench};
pub use calls::{of_segments, Call, CALLS};
pub use edges::check as check_edges;
pub use edges::Way;
pub use limits::specials;
use score::Score;
pub use score::NO_ROOM;
pub use sites::Sites;

use crate::inputs::values::epsilon;
use crate::inputs::{Kind, Pair};
use crate::numbers::Numbers;
use crate::rng::Rng;

/// The pair call's number in the list of calls.
pub const PAIRS: usize = 3;
const KINDS: [&str; 4] = [
    ", two lines",
    ", line and arc",
    ", arc and line",
    ", two arcs",
];

/// One call in sixteen has no room, so that in one round not every fault is told.
const LEAST_ROUNDS: u64 = 4;

/// Compares every call until each has answered on `2 * count` inputs, the pair call on a quarter of that for each kind of pair.
/// Then compares on `count / 4` inputs of all bit patterns, on as many with some numbers of all bit patterns, on as many beside a
/// limit, at every limit, and with every two faults. Answers how many differences there were, plus the places at which a refusal
/// never came up.
pub fn check(count: u64, seed: u64) -> u64 {
    check_calls(&CALLS, count, seed)
}

fn check_calls(calls: &'static [Call; 4], count: u64, seed: u64) -> u64 {
    let mut rng = Rng::new(seed);
    let mut scores = Scores::new(calls);
    while scores.short_of(2 * count) {
        let pair = Pair::draw(Kind::Accepted, &mut rng);
        scores.compare(&pair, &mut rng, 2 * count);
    }
    for kind in [Kind::Beside, Kind::Patterns] {
        for _ in 0..count / 4 {
            let mut pair = Pair::draw(kind, &mut rng);
            // else the epsilon, which is checked first, would hide nearly every other fault
            if rng.one_in(2) {
                pair.epsilon = epsilon(&mut rng);
            }
            scores.compare(&pair, &mut rng, u64::MAX);
        }
    }
    for _ in 0..count / 4 {
        scores.with_patterns(&mut rng);
    }
    for round in 0..(count / 4096).max(LEAST_ROUNDS) {
        scores.at_limits(&mut rng);
        if round % 16 < LEAST_ROUNDS {
            scores.two_faults(&mut rng);
        }
    }
    scores.report()
}

/// Some 500 inputs of a call to record: mostly accepted ones; the others are beside a limit, of all bit patterns, or at a limit.
pub fn sample(call: &Call, seed: u64) -> Vec<Numbers> {
    const PARTS: [(Kind, usize); 3] = [
        (Kind::Accepted, 320),
        (Kind::Beside, 60),
        (Kind::Patterns, 40),
    ];
    let mut rng = Rng::new(seed);
    let mut inputs = Vec::new();
    for (kind, count) in PARTS {
        for _ in 0..count {
            let mut pair = Pair::draw(kind, &mut rng);
            if rng.one_in(2) {
                pair.epsilon = epsilon(&mut rng);
            }
            inputs.push((call.operands)(&pair, &mut rng));
        }
    }
    let numbers = limits::accepted(call, &mut rng);
    let mut at_limits = Vec::new();
    limits::one_at_a_time(&numbers, &limits::specials(), |n| at_limits.push(*n));
    inputs.extend((0..80).map(|_| rng.pick(&at_limits)));
    inputs
}

struct Scores {
    kernels: Vec<Score>,
    /// By the kind of the pair.
    pairs: Vec<Score>,
}

impl Scores {
    fn new(calls: &'static [Call; 4]) -> Scores {
        Scores {
            kernels: calls[..PAIRS]
                .iter()
                .map(|call| Score::new(call, ""))
                .collect(),
            pairs: KINDS
                .iter()
                .map(|kind| Score::new(&calls[PAIRS], kind))
                .collect(),
        }
    }

    fn short_of(&self, most: u64) -> bool {
        self.kernels.iter().any(|score| score.answered < most)
            || self.pairs.iter().any(|score| score.answered < most / 4)
    }

    /// Makes every call that has not yet answered often enough.
    fn compare(&mut self, pair: &Pair, rng: &mut Rng, most: u64) {
        for score in &mut self.kernels {
            if score.answered < most {
                let numbers = (score.call.operands)(pair, rng);
                score.compare(&numbers);
            }
        }
        let score = &mut self.pairs[kind(pair.v.from.bulge, pair.u.from.bulge)];
        if score.answered < most / 4 {
            score.compare(&(score.call.operands)(pair, rng));
        }
    }

    /// Accepted numbers, some of which are replaced by any bits: so faults come up at every place.
    fn with_patterns(&mut self, rng: &mut Rng) {
        let pair = Pair::draw(Kind::Accepted, rng);
        let mixed = |mut numbers: Numbers, rng: &mut Rng| {
            for place in 0..numbers.len() {
                if rng.one_in(4) {
                    numbers.put(place, f64::from_bits(rng.bits()));
                }
            }
            numbers
        };
        for score in &mut self.kernels {
            let numbers = (score.call.operands)(&pair, rng);
            score.compare(&mixed(numbers, rng));
        }
        let numbers = mixed((CALLS[PAIRS].operands)(&pair, rng), rng);
        self.pairs[kind(numbers[2], numbers[8])].compare(&numbers);
    }

    fn two_faults(&mut self, rng: &mut Rng) {
        for score in &mut self.kernels {
            let numbers = limits::accepted(score.call, rng);
            limits::two_faults(score.call, &numbers, rng, |n| score.compare(n));
        }
        let call: &Call = &CALLS[PAIRS];
        let mut compare = |n: &Numbers| self.pairs[kind(n[2], n[8])].compare(n);
        limits::two_faults(call, &limits::accepted(call, rng), rng, &mut compare);
    }

    fn at_limits(&mut self, rng: &mut Rng) {
        let specials = limits::specials();
        for score in &mut self.kernels {
            let numbers = limits::accepted(score.call, rng);
            limits::one_at_a_time(&numbers, &specials, |n| score.compare(n));
            limits::two_at_once(&numbers, &specials, rng, |n| score.compare(n));
        }
        let call: &Call = &CALLS[PAIRS];
        let mut compare = |n: &Numbers| self.pairs[kind(n[2], n[8])].compare(n);
        let numbers = limits::accepted(call, rng);
        limits::one_at_a_time(&numbers, &specials, &mut compare);
        limits::two_at_once(&numbers, &specials, rng, &mut compare);
        for _ in 0..64 {
            compare(&(call.operands)(&limits::short_chords(rng), rng));
        }
    }

    fn report(&self) -> u64 {
        let scores = self.kernels.iter().chain(&self.pairs);
        scores.map(Score::report).sum::<u64>() + self.unmet()
    }

    /// How many sites and pairs of faults never came up. Pairs of every kind count together.
    fn unmet(&self) -> u64 {
        let kernels = self
            .kernels
            .iter()
            .map(|score| score.sites.report(score.call));
        let mut of_pairs = Sites::default();
        for score in &self.pairs {
            of_pairs.add(&score.sites);
        }
        kernels.sum::<u64>() + of_pairs.report(&CALLS[PAIRS])
    }
}

/// Which kind of pair two bulges make.
fn kind(v: f64, u: f64) -> usize {
    let arc = |bulge: f64| usize::from(bulge.is_nan() || bulge.abs() >= 1e-8);
    2 * arc(v) + arc(u)
}
