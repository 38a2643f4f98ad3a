//! The pair call with findings, compared with the Rust text: classes and points, and for each computed point what was found
//! against each arc. The findings come from a copy of the text that notes what it does, read by the request's words.

mod bench;
mod branch;
mod cells;
mod changes;
mod draw;
mod exact;
mod examples;
mod lent;
mod model;
mod run;
#[cfg(test)]
mod stand_in;
mod story;
#[cfg(test)]
mod tests;
mod ties;

pub use bench::run as bench;
use run::Run;

use crate::capi;

/// After so many differences a run ends.
const ENOUGH: u64 = 1000;
/// With this count, each cell must have come up so often; with a smaller one, less often.
const COUNT: u64 = 10 << 20;
const A_CELL: u64 = 1000;
/// At least so many pairs are made, since some ties are rare; and so many may be made, if cells are still rare.
const LEAST_MADE: u64 = 1 << 17;
const MOST_MADE: u64 = 1 << 20;

/// Our calls: the pair call, and the one with findings.
#[derive(Clone, Copy)]
pub struct Ours {
    pair: fn(&[f64], &mut [f64]) -> u64,
    findings: fn(&[f64], &mut [f64], &mut [u64]) -> u64,
}

const OURS: Ours = Ours {
    pair: |n, out| capi::vj_pair(all(n), out),
    findings: |n, out, findings| capi::vj_pair_findings(all(n), out, findings),
};

fn all(n: &[f64]) -> [f64; 13] {
    n.try_into().expect("as many as the call takes")
}

/// Compares on examples worked out by hand; on `count / 4` pairs as the pair call is compared on, of all sorts; on numbers at the
/// limits and with faults; and on at least as many pairs made for rare cells, until each cell came up often enough. Answers how
/// many differences there were, plus the cells that came up too rarely and the ties and changes that never did.
pub fn check(count: u64, seed: u64) -> u64 {
    let least = least(count);
    let mut run = Run::new(OURS, seed, ENOUGH);
    whole(&mut run, count, least);
    run.report(least)
}

fn whole(run: &mut Run, count: u64, least: u64) {
    run.examples();
    run.drawn(count / 4);
    run.damaged((count >> 20).max(4));
    run.made((count / 4).max(LEAST_MADE)..count.max(MOST_MADE), least);
}

fn least(count: u64) -> u64 {
    (A_CELL * count / COUNT).max(1)
}
