//! A run: chosen paths and drawn ones, each listed in full, in pages and boxed.

use super::beside::beside;
use super::joint::{joints, Joint, LINKS, SORTS};
use super::kinds::{kinds, of_traces};
use super::{draw, examples, grid, Ours};
use crate::boxed::ask::Asked;
use crate::boxed::lent::Lent as BoxedLent;
use crate::boxed::model::Boxed;
use crate::capi::Span;
use crate::listings::layout::{Call, Layout};
use crate::listings::lent::{Expected, Lent, LentPath, Old, Room};
use crate::listings::model::{row_room, Listed, Listing};
use crate::listings::traces;
use crate::listings::FULL;
use crate::met::Met;
use crate::pages::ask::room_of;
use crate::pages::model::Pages;
use crate::rng::Rng;

const SHOWN: u64 = 5;
/// At least so many paths are drawn, and one for so many of the count. Some kinds of joint are rare.
const LEAST: u64 = 1 << 14;
const A_PATH: u64 = 512;

pub struct Run {
    pub rng: Rng,
    pub ours: Ours,
    /// Joints that are looked at, and all of them by their traces.
    kinds: Met<Joint>,
    traces: Met<Joint>,
    /// Neighbours that meet, by their sort: without a row, and with one.
    met: [[u64; 2]; 4],
    /// Neighbours of one trace that meet: without a row else, and with one.
    passed: [u64; 2],
    paths: u64,
    pages: u64,
    pub grid: grid::Count,
    pub differences: u64,
    enough: u64,
}

impl Run {
    pub fn new(ours: Ours, seed: u64, enough: u64) -> Run {
        Run {
            rng: Rng::new(seed),
            ours,
            kinds: kinds(),
            traces: of_traces(),
            passed: [0; 2],
            met: [[0; 2]; 4],
            paths: 0,
            pages: 0,
            grid: grid::Count::default(),
            differences: 0,
            enough,
        }
    }

    pub fn all(&mut self, count: u64) {
        self.examples();
        self.drawn((count / A_PATH).max(LEAST));
        grid::every(self, count >= FULL);
    }

    pub fn goes_on(&self) -> bool {
        self.differences < self.enough
    }

    fn examples(&mut self) {
        for example in examples::all() {
            if let Some(what) = example.wrong(self.ours) {
                self.differ(&example.layout(), &what);
            }
        }
    }

    /// Each path as it is drawn, with epsilons beside the distances of its points, and with traces. Folds with each of some
    /// traces.
    pub fn drawn(&mut self, paths: u64) {
        self.once(&draw::fold());
        for layout in traces::folds() {
            self.once(&layout);
        }
        for _ in 0..paths {
            if !self.goes_on() {
                return;
            }
            let layout = draw::draw(&mut self.rng);
            self.once(&layout);
            for layout in beside(&layout, &mut self.rng) {
                self.once(&layout);
            }
            let again = traces::traced(&layout, &mut self.rng);
            self.once(&again);
        }
    }

    /// Lists a path in every way, and counts its joints.
    pub fn once(&mut self, layout: &Layout) {
        self.paths += 1;
        self.full(layout);
        self.paged(layout);
        self.boxed(layout);
        for joint in joints(layout.first.path(), layout.epsilon) {
            self.traces.count(&joint);
            let neighbours = LINKS.contains(&joint.link);
            if joint.is_passed() {
                self.passed[usize::from(joint.would_row())] += u64::from(neighbours);
                continue;
            }
            self.kinds.count(&joint);
            if neighbours {
                self.met[joint.sort][usize::from(joint.makes_row())] += 1;
            }
        }
    }

    /// With exactly the room that the rows need, and with another.
    fn full(&mut self, layout: &Layout) {
        let listing = Listing::new(layout.listed(Call::Own), layout.epsilon);
        assert!(listing.faults.is_empty(), "a drawn path has a fault");
        let rows = listing.rows.rows.len();
        for room in [Room::of(rows), Room::draw(rows, &mut self.rng)] {
            let expected = match listing.fault(row_room(room.indices, room.points)) {
                _ if room.counts < 2 => Expected::NoRoom,
                Some(fault) => Expected::Refused(fault),
                None => Expected::Answered {
                    rows: &listing.rows.rows,
                    counts: vec![rows as u64, listing.rows.pairs],
                },
            };
            let path = LentPath::new(&layout.first);
            let mut lent = Lent::new(room, Old::draw(&mut self.rng));
            let listed = Listed::Own(path.path());
            let answer = (self.ours.full)(listed, layout.epsilon, lent.slices());
            let wrong = lent.wrong(answer, &expected);
            self.note(layout, "full", wrong, path.is(&layout.first));
        }
    }

    /// From position 0 to the end: each pair by itself, or as many at once as are drawn for the chain.
    fn paged(&mut self, layout: &Layout) {
        let pages = Pages::new(layout.listed(Call::Own), layout.epsilon);
        let path = LentPath::new(&layout.first);
        let budget = match self.rng.below(3) {
            0 => 1,
            1 => 1 + self.rng.below(pages.all() + 1),
            _ => u64::MAX,
        };
        let rows = 1 + self.rng.below(3) as usize;
        let mut position = 0;
        loop {
            let span = Span { position, budget };
            let page = pages.page(span, rows).expect("nothing is refused");
            let expected = Expected::Answered {
                rows: page.rows,
                counts: page.counts(),
            };
            let mut lent = Lent::new(room_of(rows), Old::Nans);
            let listed = Listed::Own(path.path());
            let answer = (self.ours.page)(listed, layout.epsilon, span, lent.slices());
            self.pages += 1;
            let wrong = lent.wrong(answer, &expected);
            self.note(layout, "a page", wrong, path.is(&layout.first));
            position = page.next;
            if position == pages.all() {
                return;
            }
        }
    }

    /// With exactly the room that it needs, and with another.
    fn boxed(&mut self, layout: &Layout) {
        let boxed = Boxed::new(layout.listed(Call::Own), layout.epsilon);
        let old = Old::draw(&mut self.rng);
        for asked in [
            Asked::exact(&boxed, old),
            Asked::draw(&boxed, &mut self.rng),
        ] {
            let expected = match boxed.fault(asked.boxes, asked.rows()) {
                _ if asked.room.counts < 2 => Expected::NoRoom,
                Some(fault) => Expected::Refused(fault),
                None => Expected::Answered {
                    rows: &boxed.rows,
                    counts: boxed.counts(),
                },
            };
            let index = match expected {
                Expected::Answered { .. } => &boxed.index[..],
                _ => &[],
            };
            let path = LentPath::new(&layout.first);
            let mut lent = BoxedLent::new(&asked);
            let (boxes, rows) = lent.slices();
            let listed = Listed::Own(path.path());
            let answer = (self.ours.boxed)(listed, layout.epsilon, boxes, rows);
            let wrong = lent.wrong(answer, &expected, index);
            self.note(layout, "boxed", wrong, path.is(&layout.first));
        }
    }

    fn note(&mut self, layout: &Layout, how: &str, wrong: Option<String>, unchanged: bool) {
        let touched = (!unchanged).then(|| "the path was written to".to_string());
        if let Some(what) = wrong.or(touched) {
            self.differ(layout, &format!("{how}: {what}"));
        }
    }

    pub fn differ(&mut self, layout: &Layout, what: &str) {
        self.differences += 1;
        if self.differences > SHOWN {
            return;
        }
        println!("joints: {what}");
        let (path, closed) = (&layout.first.numbers, layout.first.closed);
        println!("  epsilon {:e}, closed {closed}: {path:?}", layout.epsilon);
    }

    /// Prints the counts, and answers how many differences there were; a kind that never occurred counts as one.
    pub fn report(&self) -> u64 {
        let sorts = SORTS.iter().zip(self.met);
        let sorts: Vec<String> = sorts
            .map(|(sort, [silent, rows])| format!("{sort} {silent} without a row, {rows} with one"))
            .collect();
        println!(
            "joints: {} paths, {} pages, neighbours that meet: {}; of one trace {} and, else with a row, {}; {} differences",
            self.paths,
            self.pages,
            sorts.join("; "),
            self.passed[0],
            self.passed[1],
            self.differences
        );
        let grid::Count {
            paths,
            neighbours,
            rows,
        } = self.grid;
        println!(
            "joints: {paths} paths on the grid, {neighbours} neighbours, {rows} of them with a row"
        );
        let mut unmet = self.kinds.report("joints", "joint");
        unmet.extend(self.traces.report("joints", "joint by its traces"));
        for what in &unmet {
            println!("joints: NEVER MET: {what}");
        }
        self.differences + unmet.len() as u64
    }
}
