//! Counts what a search met, and shows the first answers that break the promise.

use super::draw::{Pair, KINDS};
use super::judge::{judge, Answer, LINES, NONE, ONE};

const SHOWN: u64 = 5;

#[derive(Clone, Copy, Default)]
struct Counts {
    none: u64,
    one: u64,
    lines: u64,
    /// Of `one`: those without a shared point.
    beyond: u64,
    broken: u64,
}

pub struct Report {
    name: &'static str,
    kinds: [Counts; KINDS.len()],
    /// The largest distance of a coordinate from the crossing's, in millionths of 2^-30.
    worst: u64,
}

impl Report {
    pub fn new(name: &'static str) -> Report {
        Report {
            name,
            kinds: [Counts::default(); KINDS.len()],
            worst: 0,
        }
    }

    pub fn judge(&mut self, kind: usize, pair: &Pair, answer: Answer) {
        let counts = &mut self.kinds[kind];
        match answer.class {
            NONE => counts.none += 1,
            ONE => counts.one += 1,
            LINES => counts.lines += 1,
            _ => (),
        }
        match judge(pair.v, pair.u, pair.exact, answer) {
            Ok(shown) => {
                counts.beyond += u64::from(shown.beyond);
                for off in shown.off.into_iter().flatten() {
                    if off.more_than(self.worst) {
                        self.worst = off.millionths();
                    }
                }
            }
            Err(broken) => {
                counts.broken += 1;
                if self.broken() <= SHOWN {
                    println!("{} breaks {broken:?}: {pair:?} {answer:?}", self.name);
                }
            }
        }
    }

    fn broken(&self) -> u64 {
        self.kinds.iter().map(|counts| counts.broken).sum()
    }

    /// Prints the counts, and answers how many answers broke the promise.
    pub fn print(&self) -> u64 {
        for ((kind, _), c) in KINDS.iter().zip(&self.kinds) {
            println!(
                "{}, {kind}: none {}, one {} ({} beyond an end), lines {}, {} broken",
                self.name, c.none, c.one, c.beyond, c.lines, c.broken
            );
        }
        let judged: u64 = self.kinds.iter().map(|c| c.none + c.one + c.lines).sum();
        println!(
            "{}: {judged} pairs of grid lines judged, {} broken; largest error {}.{:06} * 2^-30",
            self.name,
            self.broken(),
            self.worst / 1_000_000,
            self.worst % 1_000_000
        );
        self.broken()
    }
}
