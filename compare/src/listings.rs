//! Whole-path listings compared with a listing that is written here from the scope's prose, over the Rust's pair function: rows,
//! counts, refusals and their order, and every place of the lent slices.

pub mod bench;
pub mod damage;
pub mod dense;
pub mod draw;
#[cfg(test)]
mod examples;
mod kinds;
pub mod layout;
pub mod lent;
pub mod model;
pub mod neighbours;
pub mod orders;
mod rooms;
pub mod score;
pub mod shapes;
pub mod sheets;
pub mod sites;
#[cfg(test)]
pub mod stand_in;
#[cfg(test)]
mod tests;
pub mod traces;

use layout::{Call, Drawn, Layout, CALLS};
use lent::{Old, Room};
use score::{Known, Score};
use traces::traced;

use crate::capi::Rows;
use crate::inputs::values::epsilon;
use crate::inputs::{Kind, Pair, Point, Vertex};
use crate::numbers::{hex, Numbers};
use crate::rng::Rng;

/// Whether each of two paths is closed.
pub const FLAGS: [[bool; 2]; 4] = [[false, false], [false, true], [true, false], [true, true]];

/// From this count on, the largest possible listings take part.
pub const FULL: u64 = 1 << 20;

/// After so many differences a run ends.
const ENOUGH: u64 = 1000;

/// Our call of a listing.
pub type Ours = fn(model::Listed, f64, Rows) -> u64;

/// Compares the listings on small paths of every size with every room, on layouts with chosen numbers of rows, and on layouts
/// with one fault and with two; on `count / 16` pairs of segments; and on random layouts until `count` pairs were looked at. Of
/// the sizes and of the random layouts, many come again with traces. Answers how many differences there were, plus the kinds of
/// input that never occurred.
pub fn check(count: u64, seed: u64) -> u64 {
    let mut run = Run::new(layout::ours, count, seed, ENOUGH);
    run.all(count);
    run.report()
}

/// Lists pairs of segments, given as for the pair call, with the epsilon of the first: all first segments as one path and all
/// second ones as another, or all in one path, with exactly the room needed. Answers how many pairs were looked at, and what
/// differs from the model, if anything.
pub fn wrong_on_pairs(pairs: &[Numbers], in_one: bool) -> (u64, Option<String>) {
    let vertices = |places: [usize; 2]| -> Vec<Vertex> {
        let vertex = |n: &Numbers, i: usize| shapes::vertex(n[i], n[i + 1], n[i + 2]);
        let segment = |n| places.map(|i| vertex(n, i));
        pairs.iter().flat_map(segment).collect()
    };
    let (mut first, mut second) = (vertices([0, 3]), vertices([6, 9]));
    if in_one {
        first.append(&mut second);
    }
    let layout = Layout {
        first: Drawn::new(&first, false),
        second: Drawn::new(&second, false),
        epsilon: pairs[0][12],
    };
    let call = if in_one { Call::Own } else { Call::Mutual };
    let known = Known::new(&layout, call);
    let wrong = known.wrong(layout::ours, Room::of(known.rows()), Old::Nans);
    let on = |what| format!("{what}, on paths from {}", hex(&pairs[0]));
    (known.pairs(), wrong.map(on))
}

struct Run {
    rng: Rng,
    scores: [Score; 3],
    enough: u64,
}

impl Run {
    fn new(ours: Ours, count: u64, seed: u64, enough: u64) -> Run {
        Run {
            rng: Rng::new(seed),
            scores: CALLS.map(|call| Score::new(call, ours, count >= FULL)),
            enough,
        }
    }

    fn all(&mut self, count: u64) {
        self.classes();
        self.folds();
        self.sizes();
        for _ in 0..2 + count / (4 * FULL) {
            self.damaged();
        }
        self.row_counts();
        self.long_paths();
        self.far_faults();
        for _ in 0..count / 16 {
            self.pairs();
        }
        let before = self.looked_at();
        while self.looked_at() < before + count && self.goes_on() {
            self.layout();
        }
        if count >= FULL {
            self.largest();
        }
    }

    /// Whether there were not yet differences enough. If there were, nothing more is asked.
    fn goes_on(&self) -> bool {
        let differences: u64 = self.scores.iter().map(|score| score.differences).sum();
        differences < self.enough
    }

    fn report(&self) -> u64 {
        self.scores.iter().map(Score::report).sum()
    }

    fn score(&mut self, call: Call) -> &mut Score {
        &mut self.scores[call as usize]
    }

    fn looked_at(&self) -> u64 {
        self.scores.iter().map(|score| score.pairs).sum()
    }

    /// One call with a drawn room.
    fn once(&mut self, layout: &Layout, call: Call) {
        if !self.goes_on() {
            return;
        }
        let known = Known::new(layout, call);
        let (room, old) = (
            Room::draw(known.rows(), &mut self.rng),
            Old::draw(&mut self.rng),
        );
        self.score(call).compare(&known, room, old);
    }

    fn every_call(&mut self, layout: &Layout) {
        for call in CALLS {
            self.once(layout, call);
        }
    }

    fn in_rooms(
        &mut self,
        layout: &Layout,
        call: Call,
        rooms: impl Fn(usize, &mut Rng) -> Vec<Room>,
    ) {
        if !self.goes_on() {
            return;
        }
        let known = Known::new(layout, call);
        for room in rooms(known.rows(), &mut self.rng) {
            let old = Old::draw(&mut self.rng);
            self.score(call).compare(&known, room, old);
        }
    }

    /// A row of each class by itself.
    fn classes(&mut self) {
        for pair in draw::of_each_class() {
            let layout = draw::of_pair(&pair, [false; 2]);
            self.in_rooms(&layout, Call::Mutual, Room::up_to);
            self.in_rooms(&layout, Call::Twice, Room::up_to);
            self.in_rooms(&draw::joined(&pair, false), Call::Own, Room::up_to);
        }
    }

    /// Folds with each of some traces.
    fn folds(&mut self) {
        for layout in traces::folds() {
            for call in CALLS {
                self.in_rooms(&layout, call, Room::up_to);
            }
        }
    }

    /// Paths of few vertices, open and closed, in every pairing, with every room up to one row more than needed; and the same
    /// with traces.
    fn sizes(&mut self) {
        for first in 0..6 {
            for second in 0..6 {
                for [first_closed, second_closed] in FLAGS {
                    let mut path = |vertices: usize, closed: bool| {
                        let path = shapes::on_grid(vertices, 2, &mut self.rng);
                        Drawn::new(&shapes::straightened(path), closed)
                    };
                    let first = path(first, first_closed);
                    let second = path(second, second_closed);
                    let epsilon = epsilon(&mut self.rng);
                    let layout = Layout {
                        first,
                        second,
                        epsilon,
                    };
                    let again = traced(&layout, &mut self.rng);
                    for call in CALLS {
                        self.in_rooms(&layout, call, Room::up_to);
                        self.in_rooms(&again, call, Room::up_to);
                    }
                }
            }
        }
    }

    /// Chosen numbers of rows, with room for about as many, and for about as many as where the code takes another way.
    fn row_counts(&mut self) {
        for rows in [1, 2047, 2048, 2049, 4290] {
            let (first, second) = shapes::crossed(rows, 46);
            let mutual = self.open(&first, &second);
            self.in_rooms(&mutual, Call::Mutual, Room::about);
            let own = self.open(&shapes::crossed_by_itself(rows, 46), &[]);
            self.in_rooms(&own, Call::Own, Room::about);
        }
    }

    fn open(&mut self, first: &[Vertex], second: &[Vertex]) -> Layout {
        Layout {
            first: Drawn::new(first, false),
            second: Drawn::new(second, false),
            epsilon: self.rng.pick(&[1e-8, 1e-5, 1.0 / 1024.0]),
        }
    }

    /// As many vertices as a path may have, and one more, before a short path and after it; and the same with a fault far behind.
    fn long_paths(&mut self) {
        for (vertices, flags) in [4096, 4097].into_iter().flat_map(|n| FLAGS.map(|f| (n, f))) {
            let rng = &mut self.rng;
            let mut path = |vertices: usize, closed: bool| {
                let path = shapes::on_grid(vertices, 1000, rng);
                Drawn::new(&shapes::straightened(path), closed)
            };
            let (long, short) = (path(vertices, flags[0]), path(3, flags[1]));
            let mut faulty = long.clone();
            let at = rng.below(long.numbers.len() as u64) as usize;
            faulty.numbers[at] = f64::NAN;
            let epsilon = epsilon(rng);
            let layout = |first: &Drawn, second: &Drawn| Layout {
                first: first.clone(),
                second: second.clone(),
                epsilon,
            };
            let rooms = |rows: usize, rng: &mut Rng| vec![Room::of(rows), Room::draw(rows, rng)];
            self.in_rooms(&layout(&long, &short), Call::Mutual, rooms);
            self.in_rooms(&layout(&short, &long), Call::Mutual, rooms);
            self.once(&layout(&short, &faulty), Call::Mutual);
            self.every_call(&layout(&faulty, &short));
            if vertices > 4096 {
                self.every_call(&layout(&long, &short));
            } else {
                let again = traced(&layout(&long, &short), &mut self.rng);
                self.in_rooms(&again, Call::Mutual, rooms);
                let again = traced(&layout(&short, &long), &mut self.rng);
                self.in_rooms(&again, Call::Mutual, rooms);
            }
        }
    }

    /// A fault in the last vertex or segment of a path that is as long as can be: of the first path, and of the second.
    fn far_faults(&mut self) {
        for flags in FLAGS {
            for (first, second) in damage::far(flags, &mut self.rng) {
                let exact = |rows: usize, _: &mut Rng| vec![Room::of(rows)];
                for call in CALLS {
                    self.in_rooms(&first, call, exact);
                }
                self.in_rooms(&second, Call::Mutual, exact);
            }
        }
    }

    /// Open and closed paths, with one fault and with two. Four vertices or more have a first, an inner and a last segment. A
    /// single vertex has no segment, but its numbers are checked.
    fn damaged(&mut self) {
        for flags in FLAGS {
            let many = 4 + self.rng.below(3) as usize;
            for vertices in [[many, 4], [1, many], [many, 1], [2, 2]] {
                let layout = damage::accepted(vertices, flags, &mut self.rng);
                for damaged in damage::one_at_a_time(&layout) {
                    self.every_call(&damaged);
                }
                for damaged in damage::two_at_once(&layout, &mut self.rng) {
                    self.every_call(&damaged);
                }
                if !self.goes_on() {
                    return;
                }
            }
        }
    }

    /// A pair of segments, drawn as for the pair call, as two paths or in one; one in four again with traces.
    fn pairs(&mut self) {
        let pair = Pair::draw(Kind::Accepted, &mut self.rng);
        let closed = [0; 2].map(|_| self.rng.one_in(4));
        let (layout, call) = if self.rng.one_in(2) {
            (draw::of_pair(&pair, closed), Call::Mutual)
        } else {
            (draw::joined(&pair, closed[0]), Call::Own)
        };
        self.once(&layout, call);
        if self.rng.one_in(4) {
            let again = traced(&layout, &mut self.rng);
            self.once(&again, call);
        }
    }

    /// A random layout, and the same with traces.
    fn layout(&mut self) {
        let layout = draw::draw(&mut self.rng);
        let again = traced(&layout, &mut self.rng);
        for layout in [&layout, &again] {
            self.once(layout, Call::Mutual);
            self.once(layout, Call::Own);
            if self.rng.one_in(4) {
                self.once(layout, Call::Twice);
            }
        }
    }

    /// The largest possible paths, closed, with exactly the room that they need: round coils, one of which reaches into the
    /// other. With the trace 0, and in two tracks.
    fn largest(&mut self) {
        let coil = shapes::short_steps(4096);
        let by = Point { x: 120.0, y: 5.0 };
        let other = shapes::placed(&coil, (0.6, 0.8), 1.0, by);
        let layout = Layout {
            first: Drawn::new(&coil, true),
            second: Drawn::new(&other, true),
            epsilon: epsilon(&mut self.rng),
        };
        for layout in [&layout, &traces::in_halves(&layout)] {
            for call in [Call::Mutual, Call::Own] {
                self.in_rooms(layout, call, |rows, _| vec![Room::of(rows)]);
            }
        }
    }
}
