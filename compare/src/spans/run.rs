//! A run: pairs on the edges, and sheets.

use super::edges::{table, Edge, FEWEST};
use super::forms::{rows_of, wrong, Form, Ours, FORMS};
use super::model::{is_line, RULE};
use super::sheet::{self, SORTS};
use crate::inputs::{Pair, Point, Segment, Vertex};
use crate::listings::layout::{Call, Drawn, Layout};
use crate::listings::lent::Old;
use crate::listings::model::{Path, Row};
use crate::numbers::hex;
use crate::rng::Rng;

const SHOWN: u64 = 5;
/// An edge that its draws miss ends all the same, after so many draws for each pair that is asked for.
const MOST: u64 = 400;
/// Of so many turns one lists several pairs at once, and one lists so many that there is a sieve.
const SEVERAL: u64 = 64;
const SIEVED: u64 = 1024;
/// How many pairs these are, and so many segments of the second path are a sieve's.
const FEW: usize = 6;
const MANY: usize = 16;
const PADDED: usize = 8 * MANY + 16;
/// Of the pairs on a sheet at least one in so many is judged.
const IN_PLAY: u64 = 8;

/// What was compared in one part, in each form.
#[derive(Clone, Copy, Default)]
struct Counts {
    listings: u64,
    pairs: u64,
    rows: u64,
}

pub struct Run {
    rng: Rng,
    ours: Ours,
    /// So many pairs on each side of an edge, and of each sort on sheets.
    half: u64,
    edges: Vec<Edge>,
    forms: [Counts; FORMS.len()],
    sheets: [Counts; SORTS.len()],
    /// Pairs on sheets that the shortcut judges.
    judged: [u64; SORTS.len()],
    differences: u64,
    enough: u64,
}

impl Run {
    pub fn new(ours: Ours, count: u64, seed: u64, enough: u64) -> Run {
        Run {
            rng: Rng::new(seed),
            ours,
            half: count / 2,
            edges: table(),
            forms: [Counts::default(); FORMS.len()],
            sheets: [Counts::default(); SORTS.len()],
            judged: [0; SORTS.len()],
            differences: 0,
            enough,
        }
    }

    pub fn all(&mut self) {
        self.on_edges();
        self.on_sheets();
    }

    pub fn goes_on(&self) -> bool {
        self.differences < self.enough
    }

    /// Pairs of each edge, until each of its sides has enough.
    pub fn on_edges(&mut self) {
        let mut edges = std::mem::take(&mut self.edges);
        for edge in &mut edges {
            for _ in 0..MOST * (16 + self.half) {
                if edge.least() >= self.half || !self.goes_on() {
                    break;
                }
                self.turn(edge);
            }
        }
        self.edges = edges;
    }

    /// One listing with pairs of an edge: mostly one pair.
    fn turn(&mut self, edge: &mut Edge) {
        let epsilon = (edge.epsilon)(&mut self.rng);
        let count = match () {
            _ if self.rng.one_in(SIEVED) => MANY,
            _ if self.rng.one_in(SEVERAL) => FEW,
            _ => 1,
        };
        // for a sieve each path has the same kind of segments
        let ordered = count == MANY;
        let mut pairs = Vec::with_capacity(count);
        for _ in 0..8 * count {
            if let Some((pair, side)) = edge.pair(epsilon, ordered, &mut self.rng) {
                // a side that has enough is not listed again
                if count > 1 || edge.sides[side].pairs < self.half {
                    pairs.push((pair, side));
                }
            }
            if pairs.len() == count {
                break;
            }
        }
        if pairs.is_empty() {
            return;
        }
        let flipped = ordered && self.rng.one_in(2);
        if flipped {
            for (pair, _) in &mut pairs {
                let both_arcs = !is_line(pair.v) && !is_line(pair.u);
                if !both_arcs {
                    (pair.v, pair.u) = (pair.u, pair.v);
                }
            }
        }
        let (layout, call) = self.layout(&pairs, epsilon);
        let form = match self.rng.below(16) {
            0 | 1 if call != Call::Own => Form::Counted,
            2 => Form::Page,
            3 => Form::Boxed,
            _ => Form::Full,
        };
        let met = self.compare(&layout, call, form, Some(&edge.name));
        for (k, (pair, side)) in pairs.iter().enumerate() {
            let indices = match call {
                Call::Own => [0, 2],
                _ => [2 * k as u64; 2],
            };
            let row = met.iter().any(|row| row.indices == indices);
            edge.count(*side, row, pair);
        }
    }

    /// The pairs as two paths, with lines between them, or one pair in one path.
    fn layout(&mut self, pairs: &[(Pair, usize)], epsilon: f64) -> (Layout, Call) {
        let ends = |s: Segment, bulge: f64| {
            let to = Vertex { bulge, ..s.to };
            [s.from, to]
        };
        if let [(Pair { v, u, .. }, _)] = pairs {
            let own = self.rng.one_in(8);
            let call = if own { Call::Own } else { Call::Mutual };
            let [v, u] = if own {
                [[ends(*v, 0.0), ends(*u, 0.0)].concat(), Vec::new()]
            } else {
                [v, u].map(|s| vec![s.from, s.to])
            };
            return (paths(&v, &u, epsilon), call);
        }
        let all = |of: fn(&Pair) -> Segment| -> Vec<Vertex> {
            let each = pairs.iter().flat_map(|(pair, _)| ends(of(pair), 0.0));
            each.collect()
        };
        let (first, mut second) = (all(|pair| pair.v), all(|pair| pair.u));
        if pairs.len() == MANY {
            while second.len() < PADDED {
                let at = second[self.rng.below(2 * MANY as u64) as usize].at;
                let mut near = |x: f64| (x + self.rng.between(-50.0, 50.0)).clamp(-1e6, 1e6);
                let at = Point {
                    x: near(at.x),
                    y: near(at.y),
                };
                second.push(Vertex { at, bulge: 0.0 });
            }
        }
        (paths(&first, &second, epsilon), Call::Mutual)
    }

    /// Lists in one form, and answers the model's rows.
    fn compare(&mut self, layout: &Layout, call: Call, form: Form, edge: Option<&str>) -> Vec<Row> {
        let (rows, pairs) = rows_of(form, layout.listed(call), layout.epsilon);
        let old = self.rng.pick(&[Old::Nans, Old::Zeros]);
        if let Some(what) = wrong(self.ours, form, layout, call, (&rows, pairs), old) {
            let place = edge.unwrap_or("on a sheet");
            self.differ(layout, call, &format!("{what}, {form:?}, {place}"));
        }
        if edge.is_some() {
            let counts = &mut self.forms[form as usize];
            counts.listings += 1;
            counts.pairs += pairs;
            counts.rows += rows.len() as u64;
        }
        rows
    }

    pub fn on_sheets(&mut self) {
        for (at, (_, arcs)) in SORTS.into_iter().enumerate() {
            while self.sheets[at].pairs < self.half && self.goes_on() {
                let layout = sheet::draw(arcs, &mut self.rng);
                let form = self
                    .rng
                    .pick(&[Form::Full, Form::Full, Form::Counted, Form::Page]);
                let rows = self.compare(&layout, Call::Mutual, form, None);
                let paths = [&layout.first, &layout.second].map(Drawn::path);
                let sizes = paths.map(Path::segments);
                let of = |which: usize, i: usize| segment(paths[which], i);
                for i in 0..sizes[0] {
                    for j in 0..sizes[1] {
                        let (v, u, epsilon) = (of(0, i), of(1, j), layout.epsilon);
                        self.judged[at] += u64::from(RULE.misses(&Pair { v, u, epsilon }));
                    }
                }
                let counts = &mut self.sheets[at];
                counts.listings += 1;
                counts.pairs += (sizes[0] * sizes[1]) as u64;
                counts.rows += rows.len() as u64;
            }
        }
    }

    fn differ(&mut self, layout: &Layout, call: Call, what: &str) {
        const NUMBERS: usize = 16;
        self.differences += 1;
        if self.differences > SHOWN {
            return;
        }
        println!("spans: {what}");
        let epsilon = layout.epsilon;
        println!("  {call:?}, epsilon {epsilon:e} {}", hex(&[epsilon]));
        for path in layout.listed(call).paths() {
            let front = &path.numbers[..path.numbers.len().min(NUMBERS)];
            let length = path.numbers.len();
            println!("  a path of {length} numbers: {front:?}");
            println!("  {}", hex(front));
        }
    }

    /// Prints the counts, and answers how many differences there were; a side that is not as asked, and a sort of which too few
    /// pairs were judged, counts as one.
    pub fn report(&self) -> u64 {
        let mut wrong: u64 = self.edges.iter().map(|edge| edge.report(self.half)).sum();
        let sides = self.edges.iter().flat_map(|edge| edge.sides);
        let [pairs, rows, judged] = sides.fold([0; 3], |[pairs, rows, judged], side| {
            [pairs + side.pairs, rows + side.rows, judged + side.judged]
        });
        let edges = self.edges.len();
        println!("spans, {edges} edges: {pairs} pairs, {rows} with a row, {judged} judged");
        for (form, counts) in FORMS.into_iter().zip(self.forms) {
            println!("spans, on edges, {form:?}: {}", told(counts));
            if self.half >= FEWEST && counts.rows == 0 {
                println!("spans, on edges, {form:?}: NO ROW");
                wrong += 1;
            }
        }
        for (at, (sort, _)) in SORTS.into_iter().enumerate() {
            let (counts, judged) = (self.sheets[at], self.judged[at]);
            println!(
                "spans, on sheets, {sort}: {}, {judged} judged",
                told(counts)
            );
            if judged * IN_PLAY < counts.pairs || judged == 0 {
                println!("spans, on sheets, {sort}: TOO FEW JUDGED");
                wrong += 1;
            }
        }
        println!("spans: {} differences", self.differences);
        self.differences + wrong
    }
}

fn told(counts: Counts) -> String {
    let Counts {
        listings,
        pairs,
        rows,
    } = counts;
    format!("{listings} listings, {pairs} pairs, {rows} rows")
}

fn paths(first: &[Vertex], second: &[Vertex], epsilon: f64) -> Layout {
    Layout {
        first: Drawn::new(first, false),
        second: Drawn::new(second, false),
        epsilon,
    }
}

/// A path's segment.
pub fn segment(path: Path, i: usize) -> Segment {
    let [from, to] = <[_; 2]>::from(path.segment(i)).map(|v| Vertex {
        at: Point { x: v.x, y: v.y },
        bulge: v.bulge,
    });
    Segment { from, to }
}
