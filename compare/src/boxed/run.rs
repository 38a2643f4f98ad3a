//! A run: chosen layouts and random ones, each with its rooms.

use super::ask::Asked;
use super::score::{Known, Score};
use super::{draw, examples, touching, Ours};
use crate::inputs::values::epsilon;
use crate::inputs::Point;
use crate::listings::layout::{Call, Drawn, Layout, CALLS};
use crate::listings::lent::Old;
use crate::listings::traces::{self, traced};
use crate::listings::{self, damage, shapes, FLAGS, FULL};
use crate::rng::Rng;

/// So many small random layouts come for each larger one.
const SMALL: usize = 24;
/// So often each touching of boxes comes for each of the sizes. Few depend on the last bit of a chord.
const TOUCHING: usize = 8;

pub struct Run {
    rng: Rng,
    ours: Ours,
    scores: [Score; 3],
    /// Examples that are answered otherwise.
    wrong: u64,
    /// Pairs of random layouts, those of each listing counted once.
    random: u64,
    enough: u64,
}

impl Run {
    pub fn new(ours: Ours, count: u64, seed: u64, enough: u64) -> Run {
        Run {
            rng: Rng::new(seed),
            ours,
            scores: CALLS.map(|call| Score::new(call, ours, count >= FULL)),
            wrong: 0,
            random: 0,
            enough,
        }
    }

    pub fn all(&mut self, count: u64) {
        for _ in 0..2 + count / FULL {
            self.part(Run::sizes);
            for _ in 0..TOUCHING {
                self.part(Run::touching);
            }
            self.part(Run::chosen);
        }
        self.part(Run::folds);
        for _ in 0..2 {
            self.part(Run::damaged);
        }
        self.part(Run::far_faults);
        self.part(Run::long_paths);
        while self.random < count && self.goes_on() {
            self.layouts();
        }
        if count >= FULL {
            self.part(Run::largest);
        }
    }

    /// A part of the run, unless there were differences enough.
    fn part(&mut self, part: fn(&mut Run)) {
        if self.goes_on() {
            part(self);
        }
    }

    pub fn goes_on(&self) -> bool {
        let differences: u64 = self.scores.iter().map(|score| score.differences).sum();
        self.wrong + differences < self.enough
    }

    pub fn report(&self) -> u64 {
        println!(
            "boxed: {} pairs in random layouts, {} examples wrong",
            self.random, self.wrong
        );
        let scores: u64 = self.scores.iter().map(Score::report).sum();
        self.wrong + scores
    }

    pub fn examples(&mut self) {
        for example in examples::all() {
            if let Some(what) = example.wrong(self.ours) {
                println!("boxed: {what}");
                self.wrong += 1;
            }
        }
    }

    /// Calls that are asked in a given way. Answers how many pairs the full listing has.
    fn ask(
        &mut self,
        layout: &Layout,
        call: Call,
        ask: impl Fn(&Known, &mut Rng) -> Vec<Asked>,
    ) -> u64 {
        if !self.goes_on() {
            return 0;
        }
        let known = Known::new(layout, call);
        let score = &mut self.scores[call as usize];
        for asked in ask(&known, &mut self.rng) {
            score.compare(&known, &asked);
        }
        if known.boxed.faults.is_empty() {
            score.beside_full(&known);
        }
        score.done_with(&known);
        known.boxed.all_pairs
    }

    /// One call, with rooms near what is needed.
    fn once(&mut self, layout: &Layout, call: Call) -> u64 {
        self.ask(layout, call, |known, rng| {
            vec![Asked::draw(&known.boxed, rng)]
        })
    }

    /// A call with exactly the room that it needs.
    fn exactly(&mut self, layout: &Layout, call: Call) -> u64 {
        self.ask(layout, call, |known, rng| {
            vec![Asked::exact(&known.boxed, Old::draw(rng))]
        })
    }

    /// Calls with rooms about what is needed.
    fn in_rooms(&mut self, layout: &Layout, call: Call) {
        self.ask(layout, call, |known, rng| Asked::about(&known.boxed, rng));
    }

    /// Each size about a group with each other, open and closed; and again with traces.
    fn sizes(&mut self) {
        for flags in FLAGS {
            for (n, m) in draw::SIZES
                .into_iter()
                .flat_map(|n| draw::SIZES.map(|m| (n, m)))
            {
                let layout = Layout {
                    first: draw::of_size(n, flags[0], &mut self.rng),
                    second: draw::of_size(m, flags[1], &mut self.rng),
                    epsilon: epsilon(&mut self.rng),
                };
                let again = traced(&layout, &mut self.rng);
                for layout in [&layout, &again] {
                    self.in_rooms(layout, Call::Mutual);
                    if n == m {
                        self.in_rooms(layout, Call::Own);
                        self.in_rooms(layout, Call::Twice);
                    }
                }
            }
        }
    }

    /// Folds with each of some traces.
    fn folds(&mut self) {
        for layout in traces::folds() {
            for call in CALLS {
                self.in_rooms(&layout, call);
            }
        }
    }

    /// Boxes that touch, and that are or are not apart by a last bit, on each side, of lines and of arcs.
    fn touching(&mut self) {
        for (gap, way) in (0..3).flat_map(|gap| (0..touching::WAYS).map(move |way| (gap, way))) {
            for arcs in FLAGS {
                let pair = touching::pair(gap, arcs, &mut self.rng);
                self.exactly(&touching::alone(&pair, way), Call::Mutual);
                let among = touching::among_others(&pair, way, &mut self.rng);
                self.exactly(&among, Call::Mutual);
                let closed = self.rng.one_in(2);
                let one = touching::in_one_path(&pair, way, closed, &mut self.rng);
                self.exactly(&one, Call::Own);
                self.exactly(&one, Call::Twice);
            }
        }
    }

    /// Arcs whose chord decides, rows whose boxes are apart, and segments of which each is near each other.
    fn chosen(&mut self) {
        for way in 0..touching::WAYS {
            for layout in draw::by_chord(way, &mut self.rng) {
                self.in_rooms(&layout, Call::Mutual);
            }
            for layout in draw::by_chord_in_one(way, &mut self.rng) {
                self.in_rooms(&layout, Call::Own);
                self.in_rooms(&layout, Call::Twice);
            }
        }
        for _ in 0..8 {
            let (two, some) = (
                draw::two_left_out(&mut self.rng),
                draw::left_out(&mut self.rng),
            );
            self.in_rooms(&two, Call::Mutual);
            self.in_rooms(&draw::joined(&two), Call::Own);
            let close = draw::close(&mut self.rng);
            let [some_again, close_again] = [&some, &close].map(|of| traced(of, &mut self.rng));
            for layout in [&some, &some_again, &close, &close_again] {
                for call in CALLS {
                    self.in_rooms(layout, call);
                }
            }
        }
    }

    /// Open and closed paths, with one fault and with two, and with any room.
    fn damaged(&mut self) {
        for flags in FLAGS {
            let many = 4 + self.rng.below(3) as usize;
            for vertices in [[many, 4], [1, many], [many, 1], [2, 2]] {
                let layout = damage::accepted(vertices, flags, &mut self.rng);
                let one = damage::one_at_a_time(&layout);
                let two = damage::two_at_once(&layout, &mut self.rng);
                for damaged in one.iter().chain(&two) {
                    for call in CALLS {
                        self.once(damaged, call);
                    }
                }
            }
        }
    }

    /// A fault in the last vertex or segment of a path that is as long as can be: of the first path, and of the second.
    fn far_faults(&mut self) {
        for flags in FLAGS {
            for (first, second) in damage::far(flags, &mut self.rng) {
                for call in CALLS {
                    self.exactly(&first, call);
                }
                self.exactly(&second, Call::Mutual);
            }
        }
    }

    /// As many vertices as a path may have, with short paths before and after.
    fn long_paths(&mut self) {
        for flags in FLAGS {
            let segments = if flags[0] { 4096 } else { 4095 };
            for short in [0, 1, 2, 17] {
                let (long, short) = (
                    draw::of_size(segments, flags[0], &mut self.rng),
                    draw::of_size(short, flags[1], &mut self.rng),
                );
                let epsilon = epsilon(&mut self.rng);
                let layout = |first: &Drawn, second: &Drawn| Layout {
                    first: first.clone(),
                    second: second.clone(),
                    epsilon,
                };
                for layout in [layout(&long, &short), layout(&short, &long)] {
                    self.in_rooms(&layout, Call::Mutual);
                    let again = traced(&layout, &mut self.rng);
                    self.exactly(&again, Call::Mutual);
                }
            }
        }
    }

    /// Small random layouts, and a larger one; each of them again with traces.
    fn layouts(&mut self) {
        for _ in 0..SMALL {
            let layout = listings::draw::draw(&mut self.rng);
            let again = traced(&layout, &mut self.rng);
            for layout in [&layout, &again] {
                self.random += self.once(layout, Call::Mutual) + self.once(layout, Call::Own);
                if self.rng.one_in(4) {
                    self.random += self.once(layout, Call::Twice);
                }
            }
        }
        let layout = draw::larger(&mut self.rng);
        let again = traced(&layout, &mut self.rng);
        for layout in [&layout, &again] {
            for call in CALLS {
                self.random += self.once(layout, call);
            }
        }
    }

    /// The largest possible paths, closed, with exactly the room that they need.
    fn largest(&mut self) {
        let coil = shapes::short_steps(4096);
        let by = Point { x: 120.0, y: 5.0 };
        let other = shapes::placed(&coil, (0.6, 0.8), 1.0, by);
        let layout = Layout {
            first: Drawn::new(&coil, true),
            second: Drawn::new(&other, true),
            epsilon: epsilon(&mut self.rng),
        };
        for layout in [&layout, &traces::in_halves(&layout)] {
            for call in CALLS {
                self.exactly(layout, call);
            }
        }
    }
}
