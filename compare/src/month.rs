//! Counted listings and joined reports compared with a tally that is written here from the request's words, over the model of
//! listings: what is returned, the rows, each word of a report, and every place of the lent slices.

mod ask;
mod bench;
mod case;
mod draw;
mod examples;
mod kinds;
pub mod lent;
pub mod model;
mod run;
mod score;
#[cfg(test)]
mod stand_in;
#[cfg(test)]
mod tests;

pub use bench::run as bench;

use run::Run;

use crate::capi::{vj_join, vj_mutual_counted, Rows};
use crate::listings::layout;
use crate::listings::model::Listed;

/// After so many differences a run ends.
const ENOUGH: u64 = 1000;

/// Our calls: the counted listing of two paths, the plain one, and the join of two reports.
#[derive(Clone, Copy)]
pub struct Ours {
    counted: fn(Listed, f64, Rows, &mut [u64]) -> u64,
    plain: fn(Listed, f64, Rows) -> u64,
    join: fn(&mut [u64], &[u64]) -> u64,
}

const OURS: Ours = Ours {
    counted: ours,
    plain: layout::ours,
    join: vj_join,
};

/// Our call of a counted listing on lent paths.
pub fn ours(listed: Listed, epsilon: f64, rows: Rows, report: &mut [u64]) -> u64 {
    match listed {
        Listed::Mutual(first, second) => vj_mutual_counted(
            (first.numbers, first.closed),
            (second.numbers, second.closed),
            epsilon,
            rows,
            report,
        ),
        Listed::Own(_) => unreachable!("a counted listing has two paths"),
    }
}

/// Compares counted listings with examples worked out by hand; on chosen layouts with reports at each limit; on small paths of
/// every size, on chosen numbers of rows, and on layouts with one fault and with two; on a month of 10,000 layouts and the one
/// after it; and on random layouts until these have `count / 2` pairs. Compares joins at each limit and of random reports.
/// Answers how many differences there were, plus the kinds of call and of join that never occurred.
pub fn check(count: u64, seed: u64) -> u64 {
    let mut run = Run::new(OURS, count, seed, ENOUGH);
    run.examples();
    run.all(count);
    run.report()
}
