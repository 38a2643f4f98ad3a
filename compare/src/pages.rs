//! Pages of listings compared with a model that is written here from the request's words, over the model of listings: each call
//! by itself, every place of the lent slices, and the joined rows of chains.

pub mod ask;
mod bench;
mod chain;
mod kinds;
pub mod model;
mod score;
mod small;
#[cfg(test)]
mod stand_in;
#[cfg(test)]
mod tests;

use std::collections::BTreeSet;

pub use bench::run as bench;

use ask::{room_of, rooms_at, Asked};
use score::{Known, Score};

use crate::capi::{vj_mutual_page, vj_self_page, Rows, Span};
use crate::inputs::values::epsilon;
use crate::inputs::Point;
use crate::listings::layout::{self, Call, Drawn, Layout, CALLS};
use crate::listings::lent::Old;
use crate::listings::model::Listed;
use crate::listings::traces::{self, traced};
use crate::listings::{damage, draw, shapes, FLAGS, FULL};
use crate::rng::Rng;

/// After so many differences a run ends.
const ENOUGH: u64 = 1000;

/// Our calls: a page, and the full listing.
#[derive(Clone, Copy)]
pub struct Ours {
    page: fn(Listed, f64, Span, Rows) -> u64,
    full: fn(Listed, f64, Rows) -> u64,
}

const OURS: Ours = Ours {
    page: ours,
    full: layout::ours,
};

/// Our call of a page on lent paths.
pub fn ours(listed: Listed, epsilon: f64, span: Span, rows: Rows) -> u64 {
    match listed {
        Listed::Mutual(first, second) => vj_mutual_page(
            (first.numbers, first.closed),
            (second.numbers, second.closed),
            epsilon,
            span,
            rows,
        ),
        Listed::Own(path) => vj_self_page((path.numbers, path.closed), epsilon, span, rows),
    }
}

/// Compares pages on small layouts with every position and chosen budgets and rooms, on layouts with one fault and with two, on
/// long paths, and in chains on random layouts until these have `count / 10` calls. Answers how many differences there were,
/// plus the kinds of call and of chain that never occurred.
pub fn check(count: u64, seed: u64) -> u64 {
    let mut run = Run::new(OURS, seed, ENOUGH);
    run.all(count);
    run.report()
}

struct Run {
    rng: Rng,
    scores: [Score; 3],
    chained: u64,
    enough: u64,
}

impl Run {
    fn new(ours: Ours, seed: u64, enough: u64) -> Run {
        Run {
            rng: Rng::new(seed),
            scores: CALLS.map(|call| Score::new(call, ours)),
            chained: 0,
            enough,
        }
    }

    fn all(&mut self, count: u64) {
        self.damaged();
        self.far_faults();
        self.small();
        self.long_paths();
        while self.chained < count / 10 && self.goes_on() {
            self.chained += self.chains();
        }
        if count >= FULL && self.goes_on() {
            self.largest();
        }
    }

    fn goes_on(&self) -> bool {
        let differences: u64 = self.scores.iter().map(|score| score.differences).sum();
        differences < self.enough
    }

    fn report(&self) -> u64 {
        println!("pages: {} calls in random chains", self.chained);
        self.scores.iter().map(Score::report).sum()
    }

    /// Every position, and one beyond the end; no budget, one pair, two, all and the most; no row, one, two and enough. With the
    /// trace 0, with traces, and folds with each of some traces.
    fn small(&mut self) {
        let mut all = small::layouts(&mut self.rng);
        let again = all.iter().filter(|layout| small::has_pairs(layout));
        let again: Vec<Layout> = again.map(|layout| traced(layout, &mut self.rng)).collect();
        all.extend(again);
        all.extend(traces::folds());
        for layout in all {
            for call in CALLS {
                if !self.goes_on() {
                    return;
                }
                let known = Known::new(&layout, call);
                self.everywhere(&known);
                self.scores[call as usize].done_with(&known);
            }
        }
    }

    fn everywhere(&mut self, known: &Known) {
        let (all, rows) = (known.pages.all(), known.pages.rows().len());
        let budgets = BTreeSet::from([0, 1, 2, all, u64::MAX]);
        let rooms = BTreeSet::from([0, 1, 2, rows]);
        for position in (0..=all + 1).chain([u64::MAX]) {
            for &budget in &budgets {
                for room in rooms.iter().flat_map(|rows| rooms_at(*rows)) {
                    let (span, old) = (Span { position, budget }, Old::Nans);
                    let asked = Asked { span, room, old };
                    self.scores[known.call as usize].compare(known, &asked);
                }
            }
        }
    }

    /// Open and closed paths, with one fault and with two, and with anything wrong besides.
    fn damaged(&mut self) {
        for flags in FLAGS {
            let many = 4 + self.rng.below(3) as usize;
            for vertices in [[many, 4], [1, many], [many, 1], [2, 2]] {
                let layout = damage::accepted(vertices, flags, &mut self.rng);
                let one = damage::one_at_a_time(&layout);
                let two = damage::two_at_once(&layout, &mut self.rng);
                for damaged in one.iter().chain(&two) {
                    if !self.goes_on() {
                        return;
                    }
                    self.anything(damaged);
                }
            }
        }
    }

    /// A fault in the last vertex or segment of a path that is as long as can be: of the first path, and of the second.
    fn far_faults(&mut self) {
        for flags in FLAGS {
            for (first, second) in damage::far(flags, &mut self.rng) {
                if !self.goes_on() {
                    return;
                }
                for call in CALLS {
                    self.from_front(&first, call);
                }
                self.from_front(&second, Call::Mutual);
            }
        }
    }

    /// A call of one pair, with room for a row.
    fn from_front(&mut self, layout: &Layout, call: Call) {
        let span = Span {
            position: 0,
            budget: 1,
        };
        let asked = Asked {
            span,
            room: room_of(1),
            old: Old::draw(&mut self.rng),
        };
        let known = Known::new(layout, call);
        let score = &mut self.scores[call as usize];
        score.compare(&known, &asked);
        score.done_with(&known);
    }

    fn anything(&mut self, layout: &Layout) {
        for call in CALLS {
            let known = Known::new(layout, call);
            let asked = ask::any(&mut self.rng);
            let score = &mut self.scores[call as usize];
            score.compare(&known, &asked);
            score.done_with(&known);
        }
    }

    /// A chain, then a call at the end, and some calls at any positions.
    fn chain(&mut self, layout: &Layout, call: Call) -> u64 {
        let known = Known::new(layout, call);
        let (score, rng) = (&mut self.scores[call as usize], &mut self.rng);
        let calls = chain::run(score, &known, rng);
        chain::at_end(score, &known, rng);
        for _ in 0..4 {
            chain::anywhere(score, &known, rng);
        }
        score.done_with(&known);
        calls + 5
    }

    /// On a small layout and on a random one, and on both with traces.
    fn chains(&mut self) -> u64 {
        let vertices = [0; 2].map(|_| self.rng.below(7) as usize);
        let flags = self.rng.pick(&FLAGS);
        let small = damage::accepted(vertices, flags, &mut self.rng);
        let drawn = draw::draw(&mut self.rng);
        let twice = self.rng.one_in(4);
        let again = [&small, &drawn].map(|layout| traced(layout, &mut self.rng));
        let mut calls = 0;
        for layout in [&small, &drawn, &again[0], &again[1]] {
            calls += self.chain(layout, Call::Mutual) + self.chain(layout, Call::Own);
            if twice {
                calls += self.chain(layout, Call::Twice);
            }
        }
        calls
    }

    /// As many vertices as a path may have, before a short path and after it; and long paths by themselves.
    fn long_paths(&mut self) {
        for flags in FLAGS {
            if !self.goes_on() {
                return;
            }
            let rng = &mut self.rng;
            let mut path = |vertices: usize, closed: bool| {
                let path = shapes::on_grid(vertices, 30, rng);
                Drawn::new(&shapes::straightened(path), closed)
            };
            let (long, short) = (path(4096, flags[0]), path(3, flags[1]));
            let middle = path(400, flags[0]);
            let epsilon = epsilon(rng);
            let layout = |first: &Drawn, second: &Drawn| Layout {
                first: first.clone(),
                second: second.clone(),
                epsilon,
            };
            for (layout, call) in [
                (layout(&long, &short), Call::Mutual),
                (layout(&short, &long), Call::Mutual),
                (layout(&middle, &short), Call::Own),
            ] {
                self.chain(&layout, call);
                let again = traced(&layout, &mut self.rng);
                self.chain(&again, call);
            }
        }
    }

    /// The largest possible paths, closed, in pages of 2^20 pairs, and calls at any positions. With the trace 0, and in two
    /// tracks.
    fn largest(&mut self) {
        let coil = shapes::short_steps(4096);
        let by = Point { x: 120.0, y: 5.0 };
        let other = shapes::placed(&coil, (0.6, 0.8), 1.0, by);
        let layout = Layout {
            first: Drawn::new(&coil, true),
            second: Drawn::new(&other, true),
            epsilon: epsilon(&mut self.rng),
        };
        let halves = traces::in_halves(&layout);
        let both = [(&layout, Call::Mutual), (&layout, Call::Own)];
        for (layout, call) in both.into_iter().chain([(&halves, Call::Mutual)]) {
            let known = Known::new(layout, call);
            let (score, rng) = (&mut self.scores[call as usize], &mut self.rng);
            let room = room_of(known.pages.rows().len());
            chain::run_with(score, &known, u64::MAX, rng, |position, _| Asked {
                span: Span {
                    position,
                    budget: 1 << 20,
                },
                room,
                old: Old::Nans,
            });
            for _ in 0..256 {
                chain::anywhere(score, &known, rng);
            }
            score.done_with(&known);
        }
    }
}
