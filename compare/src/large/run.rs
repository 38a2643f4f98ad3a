//! A run: chosen layouts at each limit, layouts with faults, pairs, random layouts, and the longest paths.

use super::ask::{Asked, Kind, KINDS};
use super::beside::Beside;
use super::pairs::{self, Pairs, Room};
use super::score::{Known, Score};
use super::{circle, damage, draw, edges, examples, Ours};
use crate::capi::Span;
use crate::listings::layout::{Call, Drawn, Layout, CALLS};
use crate::listings::lent::Old;
use crate::listings::traces::traced;
use crate::listings::{FLAGS, FULL};
use crate::rng::Rng;

pub struct Run {
    rng: Rng,
    seed: u64,
    ours: Ours,
    scores: Vec<Score>,
    pairs: Pairs,
    beside: Beside,
    /// Examples that are answered otherwise, and arcs whose halves are off their circle.
    wrong: u64,
    /// Pairs of the cut paths of random layouts.
    random: u64,
    enough: u64,
}

impl Run {
    pub fn new(ours: Ours, seed: u64, enough: u64) -> Run {
        let mut scores = Vec::new();
        for kind in KINDS {
            let calls = CALLS.into_iter().filter(|call| is_call(kind, *call));
            scores.extend(calls.map(|call| Score::new(kind, call, ours)));
        }
        Run {
            rng: Rng::new(seed),
            seed,
            ours,
            scores,
            pairs: Pairs::new(ours),
            beside: Beside::default(),
            wrong: 0,
            random: 0,
            enough,
        }
    }

    pub fn examples(&mut self) {
        for name in examples::wrong(self.ours) {
            println!("large: the example \"{name}\" is answered otherwise");
            self.wrong += 1;
        }
    }

    pub fn all(&mut self, count: u64) {
        self.part(Run::some_pairs);
        self.part(Run::sizes);
        self.part(Run::far);
        self.part(Run::limits);
        self.part(Run::chosen);
        self.part(Run::long);
        self.part(Run::damaged);
        for _ in 0..count / 16 {
            if !self.goes_on() {
                return;
            }
            let (numbers, room) = (pairs::draw(&mut self.rng), Room::draw(&mut self.rng));
            self.pairs.compare(&numbers, room);
        }
        while self.random < count / 4 && self.goes_on() {
            self.layout();
        }
        if count >= FULL {
            self.part(Run::largest);
        }
    }

    /// The circles of halves. It needs no library.
    pub fn circles(&mut self, count: u64) {
        self.wrong += circle::check((count / 32).max(1 << 14), self.seed);
    }

    pub fn goes_on(&self) -> bool {
        let scores: u64 = self.scores.iter().map(|score| score.differences).sum();
        scores + self.pairs.differences + self.beside.differences < self.enough
    }

    fn part(&mut self, part: fn(&mut Run)) {
        if self.goes_on() {
            part(self);
        }
    }

    pub fn report(&self) -> u64 {
        println!("large: {} pairs of random layouts", self.random);
        let scores: u64 = self.scores.iter().map(Score::report).sum();
        scores + self.pairs.report() + self.beside.report() + self.wrong
    }

    fn score(&mut self, kind: Kind, call: Call) -> &mut Score {
        let is = |score: &&mut Score| score.kind == kind && score.call == call;
        let mut scores = self.scores.iter_mut();
        scores.find(is).expect("each call has a score")
    }

    /// A call of each kind, asked in a given way, and both modes beside each other.
    fn ask(
        &mut self,
        layout: &Layout,
        call: Call,
        ask: impl Fn(Kind, &Known, &mut Rng) -> Vec<Asked>,
    ) -> u64 {
        if !self.goes_on() {
            return 0;
        }
        let known = Known::new(layout, call);
        for kind in KINDS.into_iter().filter(|kind| is_call(*kind, call)) {
            for asked in ask(kind, &known, &mut self.rng) {
                self.score(kind, call).compare(&known, &asked);
            }
        }
        self.beside.compare(self.ours, &known);
        known.large.all
    }

    /// Rooms about what is needed.
    fn about(&mut self, layout: &Layout, call: Call) {
        self.ask(layout, call, |kind, known, rng| {
            let mut all = Asked::about(kind, &known.large, rng);
            all.push(Asked::draw(kind, &known.large, rng));
            all
        });
    }

    /// One drawn call of each kind, and one with exactly the room that it needs.
    fn drawn(&mut self, layout: &Layout, call: Call) -> u64 {
        self.ask(layout, call, |kind, known, rng| {
            let exact = Asked {
                old: Old::draw(rng),
                ..Asked::exact(kind, &known.large)
            };
            vec![exact, Asked::draw(kind, &known.large, rng)]
        })
    }

    /// One call, of a kind that is drawn: for refusals, which are the same in each.
    fn once(&mut self, layout: &Layout, call: Call) {
        if !self.goes_on() {
            return;
        }
        let known = Known::new(layout, call);
        let kind = self.rng.pick(&[
            Kind::Full,
            Kind::Full,
            Kind::Page,
            Kind::Boxed,
            Kind::Counted,
        ]);
        let kind = if is_call(kind, call) {
            kind
        } else {
            Kind::Full
        };
        let mut asked = Asked::exact(kind, &known.large);
        asked.old = Old::draw(&mut self.rng);
        if self.rng.one_in(8) {
            asked = Asked::draw(kind, &known.large, &mut self.rng);
        }
        self.score(kind, call).compare(&known, &asked);
    }

    /// Closed paths of two, loops whose ends are near, rows whose boxes are apart; and with traces.
    fn chosen(&mut self) {
        let mut all = draw::of_two(&mut self.rng);
        all.extend(draw::near_ends());
        all.extend([draw::apart(), draw::apart_in_one()]);
        all.extend([0; 16].map(|_| draw::two_rows_of_loops(&mut self.rng)));
        for layout in all {
            let again = traced(&layout, &mut self.rng);
            for call in CALLS {
                self.drawn(&layout, call);
                self.drawn(&again, call);
            }
        }
    }

    /// Segments at each limit, at each place of a path, of the first and of the second.
    fn limits(&mut self) {
        for segment in edges::segments(&mut self.rng) {
            for layout in edges::layouts(segment, &mut self.rng) {
                for call in CALLS {
                    self.drawn(&layout, call);
                }
            }
        }
    }

    fn some_pairs(&mut self) {
        for _ in 0..4 {
            let mut all = pairs::at_limits(&mut self.rng);
            all.extend(pairs::one_at_a_time(&mut self.rng));
            all.extend(pairs::two_at_once(&mut self.rng));
            for numbers in all {
                let room = Room::draw(&mut self.rng);
                self.pairs.compare(&numbers, room);
                if !self.goes_on() {
                    return;
                }
            }
        }
        let one = pairs::at_limits(&mut self.rng)[0];
        for words in 0..=Room::ENOUGH.words + 1 {
            for floats in 0..=Room::ENOUGH.floats + 1 {
                let old = Old::draw(&mut self.rng);
                self.pairs.compare(&one, Room { words, floats, old });
            }
        }
    }

    /// Paths of few vertices, open and closed, in every pairing, with rooms about what they need; and with traces.
    fn sizes(&mut self) {
        for (first, second) in (0..5).flat_map(|n| (0..5).map(move |m| (n, m))) {
            for flags in FLAGS {
                let layout = draw::small([first, second], flags, &mut self.rng);
                let again = traced(&layout, &mut self.rng);
                for call in CALLS {
                    self.about(&layout, call);
                    self.drawn(&again, call);
                }
            }
        }
    }

    /// Paths of 2,048 and 2,049 vertices, of 4,096 and of 4,097, all cut, with a short path, first and second.
    fn long(&mut self) {
        for vertices in [2048, 2049, 4096, 4097] {
            for flags in FLAGS {
                let long = draw::all_cut(vertices, flags[0], &mut self.rng);
                let short = draw::short(flags[1], &mut self.rng);
                let layout = |first: &Drawn, second: &Drawn| Layout {
                    first: first.clone(),
                    second: second.clone(),
                    epsilon: 1.0 / 1024.0,
                };
                for layout in [layout(&long, &short), layout(&short, &long)] {
                    self.drawn(&layout, Call::Mutual);
                    let again = traced(&layout, &mut self.rng);
                    self.drawn(&again, Call::Mutual);
                    self.page_far(&layout);
                }
                if vertices > 4096 {
                    self.drawn(&layout(&long, &short), Call::Own);
                    self.drawn(&layout(&long, &short), Call::Twice);
                }
            }
        }
    }

    /// Pages at positions near the end.
    fn page_far(&mut self, layout: &Layout) {
        let known = Known::new(layout, Call::Mutual);
        let all = known.large.all;
        for back in [0, 1, 2, 3, 17, 4096, 8191, 8192, 8193] {
            let mut asked = Asked::exact(Kind::Page, &known.large);
            asked.span = Span {
                position: all.saturating_sub(back),
                budget: 1 + self.rng.below(9000),
            };
            self.score(Kind::Page, Call::Mutual).compare(&known, &asked);
        }
    }

    fn far(&mut self) {
        for closed in [false, true] {
            for layout in damage::far(closed, &mut self.rng) {
                for call in CALLS {
                    self.ask(&layout, call, |kind, known, rng| {
                        vec![Asked {
                            old: Old::draw(rng),
                            ..Asked::exact(kind, &known.large)
                        }]
                    });
                }
            }
        }
    }

    /// Open and closed paths, with one fault and with two.
    fn damaged(&mut self) {
        for flags in FLAGS {
            let many = 4 + self.rng.below(2) as usize;
            for vertices in [[many, 4], [1, many], [many, 1], [2, 2]] {
                let layout = draw::small(vertices, flags, &mut self.rng);
                let mut all = damage::one_at_a_time(&layout);
                if vertices == [many, 4] {
                    for _ in 0..2 {
                        all.extend(damage::two_at_once(&layout, &mut self.rng));
                    }
                }
                for damaged in &all {
                    for call in CALLS {
                        self.once(damaged, call);
                    }
                    if !self.goes_on() {
                        return;
                    }
                }
            }
        }
    }

    /// A random layout, with traces and without, and a chain of pages through it.
    fn layout(&mut self) {
        let layout = draw::draw(&mut self.rng);
        let again = traced(&layout, &mut self.rng);
        for layout in [&layout, &again] {
            self.random += self.drawn(layout, Call::Mutual) + self.drawn(layout, Call::Own);
            if self.rng.one_in(4) {
                self.random += self.drawn(layout, Call::Twice);
            }
        }
        let call = self.rng.pick(&CALLS);
        self.chain(&layout, call);
    }

    /// Pages from position 0 to the end, each at the next position. Each is compared, so their rows are the listing's.
    fn chain(&mut self, layout: &Layout, call: Call) {
        let known = Known::new(layout, call);
        if !known.large.faults.is_empty() {
            return;
        }
        let all = known.large.all;
        let most = 1 + all / (1 + self.rng.below(16));
        let mut position = 0;
        while position < all && self.goes_on() {
            let span = Span {
                position,
                budget: 1 + self.rng.below(most),
            };
            let rows = 1 + self.rng.below(8) as usize;
            let asked = Asked {
                span,
                ..Asked::exact(Kind::Page, &known.large).with_rows(rows)
            };
            position = known.large.expected(&asked).counts[2];
            self.score(Kind::Page, call).compare(&known, &asked);
        }
    }

    /// As many segments as there can be, 8,192, by themselves, and with a path of 256 arcs.
    fn largest(&mut self) {
        let layout = Layout {
            first: draw::all_cut(4096, true, &mut self.rng),
            second: draw::all_cut(256, true, &mut self.rng),
            epsilon: 1.0 / 1024.0,
        };
        for call in [Call::Own, Call::Mutual] {
            self.ask(&layout, call, |kind, known, rng| {
                vec![Asked {
                    old: Old::draw(rng),
                    ..Asked::exact(kind, &known.large)
                }]
            });
        }
    }
}

/// Counted listings are of two paths.
fn is_call(kind: Kind, call: Call) -> bool {
    kind != Kind::Counted || call != Call::Own
}
