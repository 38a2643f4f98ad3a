//! Where the rows of a sieved listing stand: at which place of a block, counted from the start of a run, and how many there are of
//! pairs that the sieve's test would take away if it judged them. A run is what a listing walks of the second path's indices
//! without a break: from 0 on, or in one path from the index behind the first segment's; and from each pair on that follows one
//! of the same trace.

use super::lines::{Side, RULE};
use crate::crossing::faults::two_to;
use crate::listings::model::{Listed, Path, Row};

/// So many consecutive indices of a run are a block.
pub const BLOCK: usize = 64;

/// From so many segments of the second path, up to so many, and from so many pairs on a listing is sieved, if the sieve judges seven
/// of eight segments of the second path.
const LEAST_SEGMENTS: usize = 32;
const MOST_SEGMENTS: usize = 4096;
const LEAST_PAIRS: usize = 2048;

pub fn is_sieved(first: usize, second: &[Side], epsilon: f64) -> bool {
    let m = second.len();
    could_be_sieved([first, m]) && 8 * unjudged(second, epsilon) <= m
}

/// By its sizes.
pub fn could_be_sieved([n, m]: [usize; 2]) -> bool {
    (LEAST_SEGMENTS..=MOST_SEGMENTS).contains(&m) && n * m >= LEAST_PAIRS
}

/// How many segments of the second path the sieve does not judge.
pub fn unjudged(second: &[Side], epsilon: f64) -> usize {
    let judged = |side: &&Side| RULE.judges(side, 1, epsilon);
    second.len() - second.iter().filter(judged).count()
}

type Each = [u64; BLOCK];

/// Counts of one call, with traces that cut runs or without.
#[derive(Clone, Copy)]
struct Counts {
    /// Rows at each place of a run's first block, and of a later one.
    rows: [Each; 2],
    /// Rows at the last index of a run, by how many indices its last block has.
    lasts: Each,
    /// Runs with a row at their first index, by where in the second path they start.
    starts: Each,
    /// Arcs at each place of a block that make a row with a line, though their chord is clearly apart from it.
    arcs: Each,
}

/// Why the sieve leaves a pair that its test would take away, and that makes a row.
const GUARDS: [&str; 4] = [
    "the first is an arc",
    "the second is an arc",
    "the first is short",
    "the second is short",
];

const POINTS: [&str; 2] = [
    "a row of a first line without length",
    "a row of a second line without length",
];

pub struct Places {
    /// Of two paths and of one; without a cut and with some.
    counts: [[Counts; 2]; 2],
    guards: [u64; GUARDS.len()],
    points: [u64; POINTS.len()],
}

impl Places {
    pub fn new() -> Places {
        let counts = Counts {
            rows: [[0; BLOCK]; 2],
            lasts: [0; BLOCK],
            starts: [0; BLOCK],
            arcs: [0; BLOCK],
        };
        Places {
            counts: [[counts; 2]; 2],
            guards: [0; GUARDS.len()],
            points: [0; POINTS.len()],
        }
    }

    /// Counts the rows of a listing, if it is sieved.
    pub fn count(&mut self, listed: Listed, epsilon: f64, rows: &[Row]) {
        let (first, second, own) = match listed {
            Listed::Mutual(first, second) => (first, second, false),
            Listed::Own(path) => (path, path, true),
        };
        let sides = [first, second].map(Side::all);
        if !is_sieved(first.segments(), &sides[1], epsilon) {
            return;
        }
        for of_one in rows.chunk_by(|a, b| a.indices[0] == b.indices[0]) {
            let i = of_one[0].indices[0] as usize;
            let mut runs = Runs::of(first, second, i, own);
            for row in of_one {
                let j = row.indices[1] as usize;
                let arc = self.guard([&sides[0][i], &sides[1][j]], epsilon);
                let counts = &mut self.counts[usize::from(own)][usize::from(runs.cut)];
                let (from, to) = runs.with(j);
                let place = (j - from) % BLOCK;
                counts.rows[usize::from(j - from >= BLOCK)][place] += 1;
                counts.lasts[(to - from) % BLOCK] += u64::from(j + 1 == to);
                counts.starts[from % BLOCK] += u64::from(j == from);
                counts.arcs[place] += u64::from(arc);
            }
        }
    }

    /// Counts a row by what keeps the sieve from taking its pair away, if only one thing does. Answers whether that is that the
    /// second is an arc.
    fn guard(&mut self, [v, u]: [&Side; 2], epsilon: f64) -> bool {
        for (points, side) in self.points.iter_mut().zip([v, u]) {
            *points += u64::from(side.square == 0.0);
        }
        let is_short = |side: &Side| side.square < two_to(-10);
        let guards = [v.is_arc(), u.is_arc(), is_short(v), is_short(u)];
        if !RULE.says_apart(v, u, epsilon) || guards.iter().filter(|is| **is).count() != 1 {
            return false;
        }
        for (count, is) in self.guards.iter_mut().zip(guards) {
            *count += u64::from(is);
        }
        guards[1]
    }

    /// Prints what was met, and answers what was not.
    pub fn report(&self) -> Vec<String> {
        let mut unmet = Vec::new();
        let calls = ["two paths", "one path"].into_iter().zip(&self.counts);
        for (call, counts) in calls {
            for (cut, counts) in ["", ", runs cut by traces"].into_iter().zip(counts) {
                let mut each = |what: &str, each: &Each| {
                    let least = each.iter().min().copied().unwrap_or(0);
                    println!("sieve, {call}{cut}: {what}, at least {least} at each of {BLOCK}");
                    for (place, _) in each.iter().enumerate().filter(|(_, met)| **met == 0) {
                        unmet.push(format!("{call}{cut}: {what}, {place}"));
                    }
                };
                each("rows at a place of a run's first block", &counts.rows[0]);
                each("rows at a place of a later block", &counts.rows[1]);
                each(
                    "rows at a run's last index, by its last block",
                    &counts.lasts,
                );
                each(
                    "arcs at a place of a block, their chord apart",
                    &counts.arcs,
                );
                // two paths without a cut have all their runs from 0 on
                if !(call == "two paths" && cut.is_empty()) {
                    each(
                        "runs with a row at their first index, by that",
                        &counts.starts,
                    );
                }
            }
        }
        let guards = GUARDS.iter().zip(&self.guards);
        for (what, met) in guards.chain(POINTS.iter().zip(&self.points)) {
            println!("sieve, rows that the test alone would lose, or of points: {what}, {met}");
            if *met == 0 {
                unmet.push(what.to_string());
            }
        }
        unmet
    }
}

/// The runs of a first path's segment.
struct Runs {
    all: Vec<(usize, usize)>,
    at: usize,
    /// Whether a trace cuts them.
    cut: bool,
}

impl Runs {
    fn of(first: Path, second: Path, i: usize, own: bool) -> Runs {
        let from = if own { i + 1 } else { 0 };
        let (to, trace) = (second.segments(), first.trace(i));
        let mut all = vec![(from, to)];
        if trace > 0.0 {
            let other: Vec<usize> = (from..to).filter(|j| second.trace(*j) != trace).collect();
            let runs = other.chunk_by(|a, b| a + 1 == *b);
            all = runs.map(|run| (run[0], run[run.len() - 1] + 1)).collect();
        }
        let cut = all != [(from, to)];
        Runs { all, at: 0, cut }
    }

    /// The run that has an index. Indices come in order.
    fn with(&mut self, j: usize) -> (usize, usize) {
        while self.all[self.at].1 <= j {
            self.at += 1;
        }
        self.all[self.at]
    }
}

/// Every row's place in its block, and whether it is the last of its run: for stand-ins.
#[cfg(test)]
pub fn places_of(listed: Listed, rows: &[Row]) -> Vec<(usize, usize, bool)> {
    let (first, second, own) = match listed {
        Listed::Mutual(first, second) => (first, second, false),
        Listed::Own(path) => (path, path, true),
    };
    let mut all = Vec::new();
    for of_one in rows.chunk_by(|a, b| a.indices[0] == b.indices[0]) {
        let mut runs = Runs::of(first, second, of_one[0].indices[0] as usize, own);
        for row in of_one {
            let j = row.indices[1] as usize;
            let (from, to) = runs.with(j);
            all.push(((j - from) / BLOCK, (j - from) % BLOCK, j + 1 == to));
        }
    }
    all
}
