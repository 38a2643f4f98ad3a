//! A run: chosen layouts with reports at each limit, a month of them, random layouts, and joins.

use super::ask::{Asked, Joining};
use super::model::{Report, LAYOUTS, MOST_LAYOUTS};
use super::score::{Known, Score};
use super::{draw, examples, Ours};
use crate::inputs::values::epsilon;
use crate::inputs::Point;
use crate::listings::layout::{Call, Drawn, Layout};
use crate::listings::lent::Room;
use crate::listings::traces::{self, traced};
use crate::listings::{self, damage, shapes, FLAGS, FULL};
use crate::rng::Rng;

/// The counted listing has two paths, which may be one.
const CALLS: [Call; 2] = [Call::Mutual, Call::Twice];

/// So often two joins come for each random layout.
const JOINS: usize = 4;

pub struct Run {
    rng: Rng,
    ours: Ours,
    score: Score,
    /// Examples that are answered otherwise.
    wrong: u64,
    /// The report in which random layouts are counted, how many were begun, and pairs of these layouts.
    running: Report,
    begun: u64,
    random: u64,
    enough: u64,
}

impl Run {
    pub fn new(ours: Ours, count: u64, seed: u64, enough: u64) -> Run {
        Run {
            rng: Rng::new(seed),
            ours,
            score: Score::new(ours, count >= FULL),
            wrong: 0,
            running: Report::FRESH,
            begun: 1,
            random: 0,
            enough,
        }
    }

    pub fn all(&mut self, count: u64) {
        self.part(Run::joins);
        self.part(Run::limits);
        self.part(Run::rooms);
        self.part(Run::sizes);
        self.part(Run::month);
        self.part(Run::row_counts);
        self.part(Run::long_paths);
        self.part(Run::damaged);
        self.part(Run::far_faults);
        while self.random < count / 2 && self.goes_on() {
            self.layouts();
        }
        if count >= FULL {
            self.part(Run::largest);
        }
    }

    /// A part of the run, unless there were differences enough.
    fn part(&mut self, part: fn(&mut Run)) {
        if self.goes_on() {
            part(self);
        }
    }

    pub fn goes_on(&self) -> bool {
        self.wrong + self.score.differences < self.enough
    }

    pub fn report(&self) -> u64 {
        println!(
            "month: {} pairs in random layouts, in {} reports, {} examples wrong",
            self.random, self.begun, self.wrong
        );
        self.wrong + self.score.report()
    }

    pub fn examples(&mut self) {
        for what in examples::wrong(self.ours) {
            println!("month: {what}");
            self.wrong += 1;
        }
    }

    /// Calls that are asked in a given way.
    fn ask(&mut self, layout: &Layout, call: Call, ask: impl Fn(&Known, &mut Rng) -> Vec<Asked>) {
        if !self.goes_on() {
            return;
        }
        let known = Known::new(layout, call);
        for asked in ask(&known, &mut self.rng) {
            self.score.compare(&known, &asked);
        }
    }

    /// In the running report, with a drawn room. A report that is too full is asked some times more, and then another is begun.
    fn once(&mut self, layout: &Layout, call: Call) -> u64 {
        if !self.goes_on() {
            return 0;
        }
        if self.running.is_too_full() && self.rng.one_in(4) || self.rng.one_in(1024) {
            self.begun += 1;
            self.running = if self.rng.one_in(2) {
                Report::FRESH
            } else {
                Report::draw(&mut self.rng)
            };
        }
        let known = Known::new(layout, call);
        let asked = Asked::draw(self.running, known.rows(), &mut self.rng);
        self.running = self.score.compare(&known, &asked);
        known.pairs()
    }

    /// Small layouts, accepted and refused with every number.
    fn chosen(&mut self) -> Vec<Layout> {
        let mut all = draw::accepted(&mut self.rng);
        let refused = |number: &u64| draw::refused(*number, &mut self.rng);
        all.extend(draw::NUMBERS.iter().map(refused));
        all
    }

    /// Reports at each limit: with each chosen layout, and room for its rows and for one less.
    fn limits(&mut self) {
        let reports = draw::at_limits();
        for layout in self.chosen() {
            for call in CALLS {
                self.ask(&layout, call, |known, rng| {
                    let rows = known.rows();
                    let rooms = [rows, rows.saturating_sub(1)].map(Room::of);
                    let mut asked = Vec::new();
                    for report in &reports {
                        let room = rng.pick(&rooms);
                        asked.push(Asked::of(*report, room, rng));
                    }
                    let chosen = [Report::FRESH, Report::FRESH.with(LAYOUTS, 1)];
                    let chosen = chosen.into_iter().chain([0; 6].map(|_| Report::draw(rng)));
                    for report in chosen {
                        asked.extend(rooms.map(|room| Asked::of(report, room, rng)));
                    }
                    asked
                });
            }
        }
    }

    /// Slices of a report that are too short, exact and longer, and any room for counts: with reports that are too full, and with
    /// others.
    fn rooms(&mut self) {
        let full = [
            Report::FRESH.with(LAYOUTS, MOST_LAYOUTS),
            Report::FRESH.with(39, u64::MAX),
        ];
        for layout in self.chosen() {
            self.ask(&layout, Call::Mutual, |known, rng| {
                let reports = [Report::FRESH, Report::draw(rng), full[0], full[1]];
                let each = |report| Asked::in_rooms(report, known.rows(), rng);
                reports.into_iter().flat_map(each).collect()
            });
        }
    }

    /// Paths of few vertices, open and closed, in every pairing, with every room up to one row more than needed; and the same
    /// with traces.
    fn sizes(&mut self) {
        for (first, second) in (0..5).flat_map(|n| (0..5).map(move |m| (n, m))) {
            for flags in FLAGS {
                let layout = damage::accepted([first, second], flags, &mut self.rng);
                let again = traced(&layout, &mut self.rng);
                for layout in [&layout, &again] {
                    self.ask(layout, Call::Mutual, |known, rng| {
                        let rooms = Room::up_to(known.rows(), rng);
                        let asked = |room| {
                            let report = Report::draw(rng);
                            Asked::of(report, room, rng)
                        };
                        rooms.into_iter().map(asked).collect()
                    });
                }
            }
        }
    }

    /// A month: 10,000 layouts, small ones and every refusal among them, in one report, and the same in two by turns. The
    /// 10,001st is refused. The two joined are the one.
    fn month(&mut self) {
        let layouts = [(); 3].map(|()| self.chosen()).concat();
        let known: Vec<Known> = layouts
            .iter()
            .flat_map(|layout| CALLS.map(|call| Known::new(layout, call)))
            .collect();
        let pick = |rng: &mut Rng| &known[rng.below(known.len() as u64) as usize];
        let (mut all, mut before) = (Report::FRESH, Report::FRESH);
        let mut parts = [Report::FRESH; 2];
        let mut last = Report::FRESH;
        for k in 0..MOST_LAYOUTS {
            let known = pick(&mut self.rng);
            let rows = known.rows();
            let rows = if self.rng.one_in(8) { rows / 2 } else { rows };
            let room = Room::uneven(rows, &mut self.rng);
            let room = Room { counts: 2, ..room };
            before = all;
            all = self.counted(known, all, room);
            let part = k as usize % 2;
            parts[part] = self.counted(known, parts[part], room);
            last = self.counted(known, Report::FRESH, room);
            if !self.goes_on() {
                return;
            }
        }
        for _ in 0..64 {
            let known = pick(&mut self.rng);
            let room = Room::draw(known.rows(), &mut self.rng);
            self.counted(known, all, room);
        }
        for (reports, right) in [
            (parts, all),
            // 9,999 and 1; 10,000 and none
            ([before, last], all),
            ([last, before], all),
            ([all, Report::FRESH], all),
            ([Report::FRESH, all], all),
            // 10,000 and 1
            ([all, last], all),
            ([last, all], last),
        ] {
            let asked = Joining::of(reports, &mut self.rng);
            if self.score.join(&asked) != right {
                println!("month: the sum of two parts of a month is not the month's report");
                self.wrong += 1;
            }
        }
    }

    fn counted(&mut self, known: &Known, report: Report, room: Room) -> Report {
        let asked = Asked::of(report, room, &mut self.rng);
        self.score.compare(known, &asked)
    }

    /// Chosen numbers of rows, with room for about as many.
    fn row_counts(&mut self) {
        for rows in [2047, 2048, 2049, 4290] {
            let (first, second) = shapes::crossed(rows, 46);
            let layout = Layout {
                first: Drawn::new(&first, false),
                second: Drawn::new(&second, false),
                epsilon: self.rng.pick(&[1e-8, 1e-5, 1.0 / 1024.0]),
            };
            self.ask(&layout, Call::Mutual, |_, rng| {
                let rooms = [0, 1, 2047, 2048, 2049, rows - 1, rows, rows + 1];
                let mut asked = Vec::new();
                for rows in rooms {
                    let exact = Asked::of(Report::FRESH, Room::of(rows), rng);
                    let uneven = Room::uneven(rows, rng);
                    asked.extend([exact, Asked::of(Report::draw(rng), uneven, rng)]);
                }
                asked
            });
        }
    }

    /// As many vertices as a path may have, and one more, before a short path and after it.
    fn long_paths(&mut self) {
        for (vertices, flags) in [4096, 4097].into_iter().flat_map(|n| FLAGS.map(|f| (n, f))) {
            let layout = damage::accepted([vertices, 3], flags, &mut self.rng);
            let turned = Layout {
                first: layout.second.clone(),
                second: layout.first.clone(),
                epsilon: layout.epsilon,
            };
            for layout in [layout, turned] {
                let again = traced(&layout, &mut self.rng);
                for layout in [&layout, &again] {
                    self.ask(layout, Call::Mutual, |known, rng| {
                        let room = Room::of(known.rows());
                        vec![
                            Asked::of(Report::FRESH, room, rng),
                            Asked::of(Report::draw(rng), room, rng),
                        ]
                    });
                }
            }
        }
    }

    /// Open and closed paths, with one fault and with two, in running reports.
    fn damaged(&mut self) {
        for flags in FLAGS {
            let many = 4 + self.rng.below(3) as usize;
            for vertices in [[many, 4], [1, many], [many, 1], [2, 2]] {
                let layout = damage::accepted(vertices, flags, &mut self.rng);
                let one = damage::one_at_a_time(&layout);
                let two = damage::two_at_once(&layout, &mut self.rng);
                for damaged in one.iter().chain(&two) {
                    self.once(damaged, Call::Mutual);
                    if self.rng.one_in(16) {
                        self.once(damaged, Call::Twice);
                    }
                }
            }
        }
    }

    /// A fault in the last vertex or segment of a path that is as long as can be: of the first path, and of the second.
    fn far_faults(&mut self) {
        for flags in FLAGS {
            for (first, second) in damage::far(flags, &mut self.rng) {
                for layout in [&first, &second] {
                    self.ask(layout, Call::Mutual, |_, rng| {
                        vec![Asked::of(Report::FRESH, Room::of(0), rng)]
                    });
                }
            }
        }
    }

    /// A random layout, and the same with traces. After one in four comes a layout that is refused with a drawn number; then some joins.
    fn layouts(&mut self) {
        let layout = listings::draw::draw(&mut self.rng);
        let again = traced(&layout, &mut self.rng);
        for layout in [&layout, &again] {
            self.random += self.once(layout, Call::Mutual);
            if self.rng.one_in(4) {
                self.random += self.once(layout, Call::Twice);
            }
        }
        if self.rng.one_in(4) {
            let number = self.rng.pick(&draw::NUMBERS);
            let refused = draw::refused(number, &mut self.rng);
            self.random += self.once(&refused, Call::Mutual);
        }
        for _ in 0..JOINS {
            let reports = draw::some(&mut self.rng);
            let asked = Joining::draw(reports, &mut self.rng);
            self.score.join(&asked);
            let mut reports = [self.running, Report::draw(&mut self.rng)];
            if self.rng.one_in(2) {
                reports.reverse();
            }
            let asked = Joining::draw(reports, &mut self.rng);
            self.score.join(&asked);
        }
    }

    /// Sums at each limit, in exact slices; and some in slices of every length.
    fn joins(&mut self) {
        for reports in draw::to_join(&mut self.rng) {
            let asked = Joining::of(reports, &mut self.rng);
            self.score.join(&asked);
        }
        let one = Report::FRESH.with(LAYOUTS, 1);
        for reports in [
            draw::some(&mut self.rng),
            [one.with(LAYOUTS, MOST_LAYOUTS), one],
            [one.with(39, u64::MAX), one.with(39, 1)],
        ] {
            for asked in Joining::in_rooms(reports, &mut self.rng) {
                self.score.join(&asked);
            }
        }
    }

    /// The largest possible paths, closed, with exactly the room that they need: with the trace 0, and in two tracks.
    fn largest(&mut self) {
        let coil = shapes::short_steps(4096);
        let by = Point { x: 120.0, y: 5.0 };
        let other = shapes::placed(&coil, (0.6, 0.8), 1.0, by);
        let layout = Layout {
            first: Drawn::new(&coil, true),
            second: Drawn::new(&other, true),
            epsilon: epsilon(&mut self.rng),
        };
        for layout in [&layout, &traces::in_halves(&layout)] {
            self.ask(layout, Call::Mutual, |known, rng| {
                let room = Room::of(known.rows());
                vec![Asked::of(Report::FRESH.with(1, 1 << 40), room, rng)]
            });
        }
    }
}
