//! Segments of a lent path, from the path itself and from a view of it, and the second call of a listing, compared with a model
//! that is written here from the scope's prose. It needs no Rust text.

mod draw;
mod lent;
mod model;
mod score;
mod stored;

use std::path::Path;

use lent::Lent;
use score::{Filled, Segments};
use stored::Stored;

use crate::probe;
use crate::rng::Rng;
use crate::tally::Tally;
use crate::vertex::VERTEX;

/// The stored layouts and their answers, beside this program's sources.
const STORED: &str = concat!(env!("CARGO_MANIFEST_DIR"), "/../layouts");

/// Our functions.
pub struct Ours {
    /// Segment i of a path, by name. It goes into a slice, and the call returns how many numbers were written.
    segment: [(&'static str, Ask); 2],
    /// How many segments a view has.
    count: fn(&[f64], bool) -> usize,
    /// The front part of float rows, also in a slice.
    filled: Fill,
}

type Ask = fn(&[f64], bool, usize, &mut [f64]) -> usize;
type Fill = fn(&[f64], usize, &mut [f64]) -> usize;

pub const OURS: Ours = Ours {
    segment: [
        ("segment of a path", probe::vjp_segment),
        ("segment of a view", probe::vjp_view_segment),
    ],
    count: probe::vjp_view_segment_count,
    filled: probe::vjp_filled,
};

/// Compares each function on the stored layouts, on chosen lengths and on random inputs, `count / 4` in all. Answers how many
/// differences there were, plus the kinds of input that never occurred.
pub fn check(count: u64, seed: u64) -> u64 {
    of(&OURS, Path::new(STORED), count / 4, seed)
}

fn of(ours: &Ours, folder: &Path, inputs: u64, seed: u64) -> u64 {
    let mut run = Run::new(ours, seed);
    let stored = run.stored(folder);
    for length in draw::lengths() {
        let numbers = draw::numbers(length, &mut run.rng);
        run.drawn_path(&numbers);
        run.drawn_rows(&numbers);
    }
    while run.segments[0].asked() < inputs {
        let path = draw::path(&mut run.rng);
        run.drawn_path(&path);
    }
    while run.filled.asked() < inputs {
        let rows = draw::rows(&mut run.rng);
        run.drawn_rows(&rows);
    }
    stored + run.report()
}

struct Run {
    rng: Rng,
    segments: Vec<Segments>,
    counts: Tally,
    count: fn(&[f64], bool) -> usize,
    filled: Filled,
}

impl Run {
    fn new(ours: &Ours, seed: u64) -> Run {
        let segments = ours.segment.map(|(name, ask)| Segments::new(name, ask));
        Run {
            rng: Rng::new(seed),
            segments: segments.into(),
            counts: Tally::new("segment count of a view"),
            count: ours.count,
            filled: Filled::new("filled part of rows", ours.filled),
        }
    }

    /// Every index of every stored path and two beyond, open and closed; every count of the rows of every stored answer and two
    /// beyond. Answers 1 if nothing is stored, else 0.
    fn stored(&mut self, folder: &Path) -> u64 {
        let Stored { paths, rows } = match stored::read(folder) {
            Ok(found) => found,
            Err(why) => {
                println!("{why}");
                return 1;
            }
        };
        let beyond =
            |places: usize| -> Vec<usize> { (0..=places + 1).chain([usize::MAX]).collect() };
        for path in &paths {
            let indices = beyond(path.len() / VERTEX);
            for closed in [false, true] {
                self.path(path, closed, &indices);
            }
        }
        for rows in &rows {
            self.rows(rows, &beyond(rows.len() / model::ROW));
        }
        let (of_paths, of_rows) = (paths.len(), rows.len());
        println!("segments of {of_paths} stored paths, filled parts of {of_rows} stored answers");
        u64::from(of_paths == 0 || of_rows == 0)
    }

    fn drawn_path(&mut self, path: &[f64]) {
        let indices = draw::indices(path.len() / VERTEX, &mut self.rng);
        for closed in [false, true] {
            self.path(path, closed, &indices);
        }
    }

    fn drawn_rows(&mut self, rows: &[f64]) {
        let counts = draw::counts(rows.len() / model::ROW, &mut self.rng);
        self.rows(rows, &counts);
    }

    fn path(&mut self, path: &[f64], closed: bool, indices: &[usize]) {
        let expected = model::segments(path, closed);
        let lent = Lent::holding(path);
        for segments in &mut self.segments {
            for &i in indices {
                segments.compare(&lent, closed, i, &expected, &mut self.rng);
            }
        }
        let answer = (self.count)(lent.slice(), closed);
        let (right, length) = (answer == expected.len(), path.len());
        self.counts.add(right && lent.is_unchanged(), || {
            format!(
                "{length} numbers, closed {closed}: {answer}, expected {}",
                expected.len()
            )
        });
    }

    fn rows(&mut self, rows: &[f64], counts: &[usize]) {
        let lent = Lent::holding(rows);
        for &count in counts {
            self.filled.compare(&lent, count, &mut self.rng);
        }
    }

    fn report(&self) -> u64 {
        let segments: u64 = self.segments.iter().map(Segments::report).sum();
        segments + self.counts.report() + self.filled.report()
    }
}

#[cfg(test)]
mod tests;
