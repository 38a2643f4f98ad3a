//! What pages cost: a chain of them beside the full listing, for each pair, and with traces beside the chain with all traces 0;
//! and a page of one pair beside the checks alone, for each call. A call with the budget 0 is refused after all checks of the
//! paths, so it stands for these.

use std::hint::black_box;

use super::model::{of_page, NO_BUDGET};
use super::ours;
use crate::bench::{head, Row};
use crate::capi::{Rows, Span};
use crate::listings::bench::{of_sheet, with_traces};
use crate::listings::layout::{self, Call, Layout};
use crate::listings::model::Listed;
use crate::listings::sheets::{EPSILONS, SHEETS};
use crate::rng::Rng;

const VERTICES: usize = 4096;
/// Calls of one pair in a round.
const A_ROUND: u64 = 64;

pub fn run() {
    let layout = of_sheet(&SHEETS[0], VERTICES, &mut Rng::new(0xbe7c));
    let mutual = layout.listed(Call::Mutual);
    head("4,096 lines by 4,096, in pages, beside the full listing");
    for epsilon in EPSILONS {
        for budget in [1 << 20, 1 << 16] {
            chain(&layout, epsilon, budget);
        }
    }
    head("a page of one pair, 4,096 lines by 4,096, beside the checks");
    let pairs = (VERTICES * VERTICES) as u64;
    for (name, position) in [
        ("the first pair", 0),
        ("a pair in the middle", pairs / 2),
        ("the last pair", pairs - 1),
    ] {
        one_pair(name, mutual, position);
        for (name, traced) in with_traces(&layout) {
            beside(name, traced.listed(Call::Mutual), mutual, position);
        }
    }
    let pairs = (VERTICES * (VERTICES - 1) / 2) as u64;
    let own = layout.listed(Call::Own);
    one_pair("the first pair of one path by itself", own, 0);
    one_pair("the last pair of one path by itself", own, pairs - 1);
}

/// Slices with room for all rows.
struct Lent {
    indices: Vec<u64>,
    points: Vec<f64>,
    counts: [u64; 4],
}

impl Lent {
    fn new(rows: usize) -> Lent {
        Lent {
            indices: vec![0; 3 * rows],
            points: vec![0.0; 4 * rows],
            counts: [0; 4],
        }
    }

    fn slices(&mut self) -> Rows<'_> {
        Rows {
            indices: &mut self.indices,
            points: &mut self.points,
            counts: &mut self.counts,
        }
    }
}

fn chain(layout: &Layout, epsilon: f64, budget: u64) {
    let listed = layout.listed(Call::Mutual);
    let found = listed.rows(epsilon);
    let (pairs, rows) = (found.pairs, found.rows.len());
    let (mut lent, mut lent_too) = (Lent::new(rows), Lent::new(rows));
    let full = || {
        let answer = layout::ours(listed, epsilon, lent_too.slices());
        assert_eq!(black_box(answer), 0);
    };
    let name = format!("pages of {budget} pairs");
    let row = Row::new(&name).epsilon(epsilon).of(pairs).meeting(rows);
    let paged = || all_pages(listed, epsilon, budget, rows, &mut lent);
    row.timed(pairs, paged, full);
    for (name, layout) in with_traces(layout) {
        let traced = layout.listed(Call::Mutual);
        let rows_traced = traced.rows(epsilon).rows.len();
        let mut lent_traced = Lent::new(rows_traced.max(1));
        let row = Row::new(name).epsilon(epsilon).of(pairs);
        row.meeting(rows_traced).timed(
            pairs,
            || all_pages(traced, epsilon, budget, rows_traced, &mut lent_traced),
            || all_pages(listed, epsilon, budget, rows, &mut lent),
        );
    }
}

/// From position 0 to the end: there are so many rows.
fn all_pages(listed: Listed, epsilon: f64, budget: u64, rows: usize, lent: &mut Lent) {
    let (mut position, mut found) = (0, 0);
    loop {
        let span = Span { position, budget };
        assert_eq!(black_box(ours(listed, epsilon, span, lent.slices())), 0);
        let [here, _, next, all] = lent.counts;
        found += here;
        position = next;
        if position == all {
            break;
        }
    }
    assert_eq!(found, rows as u64, "the pages have other rows");
}

/// A page of one pair with traces, beside the same with all traces 0.
fn beside(name: &str, traced: Listed, listed: Listed, position: u64) {
    let (mut lent, mut lent_too) = (Lent::new(1), Lent::new(1));
    let call = |listed: Listed, lent: &mut Lent| {
        let span = Span {
            position,
            budget: 1,
        };
        let answer = ours(listed, EPSILONS[1], span, lent.slices());
        assert_eq!(black_box(answer), 0);
    };
    let row = Row::new(name).epsilon(EPSILONS[1]).of(1);
    row.timed(
        A_ROUND,
        || call(traced, &mut lent),
        || call(listed, &mut lent_too),
    );
}

fn one_pair(name: &str, listed: Listed, position: u64) {
    let epsilon = EPSILONS[1];
    let (mut lent, mut lent_too) = (Lent::new(1), Lent::new(1));
    let call = |budget: u64, expected: u64, lent: &mut Lent| {
        let answer = ours(listed, epsilon, Span { position, budget }, lent.slices());
        assert_eq!(black_box(answer), expected);
    };
    let row = Row::new(name).epsilon(epsilon).of(1);
    row.timed(
        A_ROUND,
        || call(1, 0, &mut lent),
        || call(0, of_page(NO_BUDGET).word(), &mut lent_too),
    );
}
