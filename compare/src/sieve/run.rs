//! A run: listings on the edges of the sieve, with rows at each place of a block, and with many rows.

use super::blocks::{self, Cut, Sort, PAIRS, SIZES, SORTS};
use super::edges::{Edges, FAMILIES};
use super::forms::{self, Form, FORMS};
use super::grids::Sort as Grid;
use super::marks::{self, Case};
use super::places::{Places, BLOCK};
use super::{grids, stars, Ours};
use crate::listings::layout::{Call, Layout};
use crate::listings::lent::{Old, Room};
use crate::listings::score::Known;
use crate::met::Met;
use crate::rng::Rng;

const SHOWN: u64 = 5;
/// A family whose draws miss an edge ends all the same, after so many listings for each thousand pairs.
const MOST: u64 = 64;
/// From this count on the largest listings take part.
const FULL: u64 = 1 << 17;
/// Segments of a long path.
const LONG: usize = 4095;
/// Many pairs.
const MANY: usize = 1 << 19;
/// Up to so many rows there is also room for a row of every pair.
const ROOM_FOR_ALL: usize = 1 << 21;

/// A listing as its kinds see it.
pub struct Listing {
    sizes: [usize; 2],
    call: Call,
    sort: Sort,
    closed: bool,
    rows: usize,
}

pub struct Run {
    rng: Rng,
    ours: Ours,
    /// So many pairs on each side of an edge, and in listings of each size.
    half: u64,
    full: bool,
    edges: Vec<Edges>,
    places: Places,
    blocks: Met<Listing>,
    marks: Met<Case>,
    /// Pairs of listings on the edges, about blocks and with many rows.
    pairs: [u64; 3],
    listings: [u64; 3],
    rows: [u64; 3],
    differences: u64,
    enough: u64,
}

/// The parts, in the order of their counts.
const ON_EDGES: usize = 0;
const ABOUT_BLOCKS: usize = 1;
const WITH_MARKS: usize = 2;

impl Run {
    pub fn new(ours: Ours, count: u64, seed: u64, enough: u64) -> Run {
        let full = count >= FULL;
        Run {
            rng: Rng::new(seed),
            ours,
            half: count / 2,
            full,
            edges: FAMILIES.map(Edges::of).into(),
            places: Places::new(),
            blocks: kinds_of_blocks(full),
            marks: marks::kinds(full),
            pairs: [0; 3],
            listings: [0; 3],
            rows: [0; 3],
            differences: 0,
            enough,
        }
    }

    pub fn all(&mut self) {
        self.on_edges();
        self.about_blocks();
        self.with_marks();
    }

    pub fn goes_on(&self) -> bool {
        self.differences < self.enough
    }

    /// Listings for each family, until each side of each of its edges has pairs enough.
    pub fn on_edges(&mut self) {
        let mut edges = std::mem::take(&mut self.edges);
        for family in &mut edges {
            for _ in 0..MOST * (1 + self.half / 1000) {
                let [beside, at] = family.least();
                if beside.min(at) >= self.half || !self.goes_on() {
                    break;
                }
                let (layout, call) = stars::draw(family.family, at < beside, &mut self.rng);
                self.once(&layout, call, ON_EDGES);
                family.count(layout.listed(call), layout.epsilon);
            }
        }
        self.edges = edges;
    }

    /// One call, with exactly the room that it needs, with more, or with room for every pair.
    fn once(&mut self, layout: &Layout, call: Call, part: usize) {
        if !self.goes_on() {
            return;
        }
        let known = Known::plain(layout, call);
        let [n, m] = sizes(layout, call);
        let rows = known.rows();
        let room = match self.rng.below(4) {
            0 => Room::of(n * m),
            1 => Room::uneven(rows + 1, &mut self.rng),
            _ => Room::of(rows),
        };
        let room = Room { counts: 2, ..room };
        let old = Old::draw(&mut self.rng);
        if let Some(what) = known.wrong(self.ours.full, room, old) {
            self.differ(layout, call, &format!("{what}, {room:?}"));
        }
        self.listings[part] += 1;
        self.rows[part] += rows as u64;
        // a refused listing looks at no pair
        self.pairs[part] += known.pairs();
        let listing = known.listing();
        assert!(
            part == ON_EDGES || listing.faults.is_empty(),
            "no fault is drawn about blocks"
        );
        if listing.faults.is_empty() {
            let listed = layout.listed(call);
            self.places
                .count(listed, layout.epsilon, &listing.rows.rows);
        }
    }

    /// Second paths of each size, pairs about the limit, every count of segments beyond whole blocks, and rows that the test alone
    /// would lose.
    pub fn about_blocks(&mut self) {
        for m in SIZES {
            let (mut pairs, mut turns) = (0, 0);
            while (pairs < self.half || turns < 2) && self.goes_on() {
                turns += 1;
                for sort in SORTS {
                    let n = (2048 / m + 2 + self.rng.below(16) as usize).max(9);
                    self.block([n, m], sort, Call::Mutual);
                    pairs += (n * m) as u64;
                    // one path has both, and a segment between them
                    if m < LONG {
                        let n = m / 3;
                        self.block([n, m - n - 1], sort, Call::Own);
                    }
                }
            }
            // by itself a long path has eight million pairs
            if m >= LONG && self.full {
                let cut = if m > LONG {
                    Cut::Anywhere
                } else {
                    Cut::Nowhere
                };
                self.block_of([200, m - 201], Sort::Lines, Call::Own, cut);
            }
        }
        let mut pairs = 0;
        while pairs < self.half && self.goes_on() {
            for ([n, m], sort) in PAIRS
                .into_iter()
                .flat_map(|of| SORTS.map(|sort| (of, sort)))
            {
                match n == m {
                    true => self.block([15, n - 16], sort, Call::Own),
                    false => self.block([n, m], sort, Call::Mutual),
                }
            }
            // each sort, with tracks and without
            pairs += 2 * SORTS.len() as u64 * 2047;
        }
        for turn in 0..5 + self.half / (1 << 17) {
            for rest in 0..BLOCK {
                for sort in [Sort::Lines, SORTS[1 + (turn as usize + rest) % 5]] {
                    let n = 32 + self.rng.below(16) as usize;
                    let m = 2 * BLOCK + rest;
                    // an odd factor, so that there is a run from each place on
                    let from = 1 + (5 * rest + 13 * turn as usize) % BLOCK;
                    let length = if rest == 0 { BLOCK } else { rest };
                    for call in [Call::Mutual, Call::Own] {
                        self.block_of([n, m], sort, call, Cut::Nowhere);
                        self.block_of([n, m], sort, call, Cut::Into { from, length });
                    }
                }
                let call = [Call::Mutual, Call::Own][usize::from(rest % 8 == 0)];
                let layout = blocks::unusual(call, &mut self.rng);
                self.once(&layout, call, ABOUT_BLOCKS);
            }
        }
    }

    /// A listing without tracks, and one with.
    fn block(&mut self, of: [usize; 2], sort: Sort, call: Call) {
        for cut in [Cut::Nowhere, Cut::Anywhere] {
            self.block_of(of, sort, call, cut);
        }
    }

    fn block_of(&mut self, of: [usize; 2], sort: Sort, call: Call, cut: Cut) {
        let layout = blocks::draw(of, sort, call, cut, &mut self.rng);
        let before = self.rows[ABOUT_BLOCKS];
        self.once(&layout, call, ABOUT_BLOCKS);
        let paths = layout.listed(call).paths();
        self.blocks.count(&Listing {
            sizes: sizes(&layout, call),
            call,
            sort,
            closed: paths[paths.len() - 1].closed,
            rows: (self.rows[ABOUT_BLOCKS] - before) as usize,
        });
    }

    /// Numbers of rows at which the code takes another way, and many; numbers of pairs at which two share a mark; and from a full
    /// count on as many as there can be.
    pub fn with_marks(&mut self) {
        for rows in [2047, 2048, 2049, 20_001, 30_011] {
            let across = if rows < 4096 { 46 } else { 170 };
            for large in [false, true] {
                let layouts = grids::with_rows(rows, across, large, &mut self.rng);
                for (layout, call) in layouts.iter().zip([Call::Mutual, Call::Own]) {
                    self.in_forms(layout, call, !large, true);
                }
            }
        }
        for sizes in [[1024, 1023], [1023, 1024], [1024, 1024], [1025, 1023]] {
            let layout = grids::of_two(sizes, 3, Grid::Usual, &mut self.rng);
            self.in_forms(&layout, Call::Mutual, true, true);
        }
        for size in [1023, 1024, 1025] {
            let layout = grids::of_one(size, 3, Grid::Usual, &mut self.rng);
            self.in_forms(&layout, Call::Own, true, true);
        }
        // where only marks tell what is looked at again
        for sort in [Grid::Wide, Grid::Arcs] {
            let two = grids::of_two([1024; 2], 3, sort, &mut self.rng);
            self.in_forms(&two, Call::Mutual, true, sort == Grid::Wide);
            let one = grids::of_one(1024, 3, sort, &mut self.rng);
            self.in_forms(&one, Call::Own, true, sort == Grid::Wide);
        }
        if self.full {
            let two = grids::of_two([4096; 2], 12, Grid::Usual, &mut self.rng);
            self.in_forms(&two, Call::Mutual, true, true);
            let one = grids::of_one(4096, 8, Grid::Usual, &mut self.rng);
            self.in_forms(&one, Call::Own, true, true);
        }
    }

    /// A layout in each form, with rooms about what it needs.
    fn in_forms(&mut self, layout: &Layout, call: Call, plain: bool, large: bool) {
        if !self.goes_on() {
            return;
        }
        let known = forms::Known::new(layout, call, plain, large);
        let forms = FORMS.into_iter().filter(|form| form.has(call));
        for form in forms.filter(|form| if form.is_large() { large } else { plain }) {
            let rows = known.rows(form);
            let pairs = known.sizes(form).iter().product::<usize>();
            let mut rooms = vec![rows, rows.saturating_sub(1)];
            // of many pairs only for one form
            if pairs <= MANY || form == Form::Full {
                rooms.push(rows + 1);
                if pairs <= ROOM_FOR_ALL {
                    rooms.extend([pairs - 1, pairs]);
                }
            }
            for room in rooms {
                let old = self.rng.pick(&[Old::Nans, Old::Zeros]);
                if let Some(what) = known.wrong(&self.ours, form, room, old) {
                    self.differ(layout, call, &format!("{what}, {form:?}, room for {room}"));
                }
                self.listings[WITH_MARKS] += 1;
                if room >= rows {
                    self.pairs[WITH_MARKS] += known.pairs(form);
                    self.rows[WITH_MARKS] += rows as u64;
                }
                self.marks.count(&Case::new(&known, form, call, room));
                if !self.goes_on() {
                    return;
                }
            }
        }
    }

    fn differ(&mut self, layout: &Layout, call: Call, what: &str) {
        const NUMBERS: usize = 24;
        self.differences += 1;
        if self.differences > SHOWN {
            return;
        }
        println!("sieve: {what}");
        println!("  {call:?}, epsilon {:e}", layout.epsilon);
        for path in layout.listed(call).paths() {
            let front = &path.numbers[..path.numbers.len().min(NUMBERS)];
            let (length, closed) = (path.numbers.len(), path.closed);
            println!("  a path of {length} numbers, closed {closed}: {front:?}");
        }
    }

    /// Prints the counts, and answers how many differences there were; a side with too few pairs, a place or a kind that never
    /// occurred counts as one.
    pub fn report(&self) -> u64 {
        let parts = ["on edges", "about blocks", "with many rows"];
        for (part, name) in parts.into_iter().enumerate() {
            let (listings, pairs, rows) = (self.listings[part], self.pairs[part], self.rows[part]);
            println!("sieve, {name}: {listings} listings, {pairs} pairs, {rows} rows");
        }
        let short: u64 = self.edges.iter().map(|edges| edges.report(self.half)).sum();
        let unmet: Vec<String> = self
            .places
            .report()
            .into_iter()
            .chain(self.blocks.report("sieve, about blocks", "listing"))
            .chain(self.marks.report("sieve, with many rows", "call"))
            .collect();
        for what in &unmet {
            println!("sieve: NEVER MET: {what}");
        }
        println!("sieve: {} differences", self.differences);
        self.differences + short + unmet.len() as u64
    }
}

/// Segments of the first path and of the second, which may be the same.
fn sizes(layout: &Layout, call: Call) -> [usize; 2] {
    let paths = layout.listed(call).paths();
    [paths[0], paths[paths.len() - 1]].map(|path| path.segments())
}

fn kinds_of_blocks(full: bool) -> Met<Listing> {
    let mut kinds = Met::new();
    for m in SIZES {
        for sort in SORTS {
            kinds.add(
                format!("two paths, {m} segments, {sort:?}, rows"),
                move |l: &Listing| {
                    l.call == Call::Mutual && l.sizes[1] == m && l.sort == sort && l.rows > 0
                },
            );
            if m < LONG {
                kinds.add(
                    format!("one path, {m} segments, {sort:?}, rows"),
                    move |l: &Listing| {
                        l.call == Call::Own && l.sizes[1] == m && l.sort == sort && l.rows > 0
                    },
                );
            }
        }
        if m >= LONG && full {
            kinds.add(format!("one path, {m} segments"), move |l: &Listing| {
                l.call == Call::Own && l.sizes[1] == m
            });
        }
        for closed in [false, true] {
            // an open path has at most 4,095 segments
            if m == 4096 && !closed {
                continue;
            }
            let name = format!("two paths, {m} segments, closed {closed}");
            kinds.add(name, move |l: &Listing| {
                l.call == Call::Mutual && l.sizes[1] == m && l.closed == closed
            });
        }
    }
    for [n, m] in PAIRS {
        let call = if n == m { Call::Own } else { Call::Mutual };
        let name = format!("{call:?}, {} pairs of any two", n * m);
        kinds.add(name, move |l: &Listing| {
            l.call == call && l.sizes == [n, m] && l.rows > 0
        });
    }
    kinds
}
