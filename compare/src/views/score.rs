//! Compares one call after the other with the model, and counts the kinds of input that came up, read from the input itself.

use super::draw::room;
use super::lent::Lent;
use super::model::{empty, filled, Empty, Segment, ROW, SEGMENT};
use super::{Ask, Fill};
use crate::numbers::hex;
use crate::rng::Rng;
use crate::tally::Tally;
use crate::vertex::{TRACE, VERTEX};

const OF_SEGMENTS: [&str; 8] = [
    "inner",
    "back to vertex 0",
    "none by 6",
    "none by 7",
    "none of fewer than 2 vertices",
    "none, one beyond",
    "none, further",
    "without room",
];
/// The trace of a segment that is given.
const OF_TRACES: [&str; 6] = [
    "trace 0",
    "trace -0",
    "a trace above 0",
    "a NaN for a trace",
    "another number for a trace",
    "the trace of a segment back to vertex 0, another than vertex 0's",
];
const OF_ROWS: [&str; 6] = [
    "no row",
    "some rows",
    "all rows",
    "one beyond",
    "further",
    "without room",
];

/// One way to ask for a segment.
pub struct Segments {
    ask: Ask,
    tally: Tally,
    kinds: Kinds,
    traces: Kinds,
}

impl Segments {
    pub fn new(name: &'static str, ask: Ask) -> Segments {
        Segments {
            ask,
            tally: Tally::new(name),
            kinds: Kinds::new(name, &OF_SEGMENTS),
            traces: Kinds::new(name, &OF_TRACES),
        }
    }

    pub fn asked(&self) -> u64 {
        self.kinds.all()
    }

    /// Asks for segment i of a lent path. `all` has the model's segments.
    pub fn compare(&mut self, path: &Lent, closed: bool, i: usize, all: &[Segment], rng: &mut Rng) {
        let expected = all.get(i).map_or(&[][..], |segment| segment);
        let mut out = Lent::room(room(SEGMENT, rng));
        let short = out.slice().len() < expected.len();
        let answer = (self.ask)(path.slice(), closed, i, out.slice_mut());
        let right = is_given(&out, answer, expected) && path.is_unchanged();
        self.tally.add(right, || {
            let (length, written) = (path.slice().len(), hex(out.slice()));
            let expected = hex(expected);
            format!(
                "{length} numbers, closed {closed}, {i}: {answer} {written}, expected {expected}"
            )
        });
        let kind = kind_of(path.slice(), closed, i, all.len());
        self.kinds.count(if short { "without room" } else { kind });
        if let Some([.., trace]) = all.get(i).filter(|_| !short) {
            let back = kind == "back to vertex 0" && *trace != path.slice()[TRACE];
            self.traces.count(match *trace {
                _ if back => OF_TRACES[5],
                x if x == 0.0 => OF_TRACES[usize::from(x.is_sign_negative())],
                x if (1..256).any(|whole| x == f64::from(whole)) => OF_TRACES[2],
                x if x.is_nan() => OF_TRACES[3],
                _ => OF_TRACES[4],
            });
        }
    }

    pub fn report(&self) -> u64 {
        self.tally.report() + self.kinds.report() + self.traces.report()
    }
}

fn kind_of(path: &[f64], closed: bool, i: usize, segments: usize) -> &'static str {
    match empty(path) {
        Some(Empty::Length) => "none by 6",
        Some(Empty::Vertices) => "none by 7",
        Some(Empty::Few) => "none of fewer than 2 vertices",
        None if closed && i + 1 == path.len() / VERTEX => "back to vertex 0",
        None if i < segments => "inner",
        None if i == segments => "none, one beyond",
        None => "none, further",
    }
}

/// The second call.
pub struct Filled {
    ask: Fill,
    tally: Tally,
    kinds: Kinds,
}

impl Filled {
    pub fn new(name: &'static str, ask: Fill) -> Filled {
        Filled {
            ask,
            tally: Tally::new(name),
            kinds: Kinds::new(name, &OF_ROWS),
        }
    }

    pub fn asked(&self) -> u64 {
        self.kinds.all()
    }

    /// Asks for the first so many of lent rows.
    pub fn compare(&mut self, rows: &Lent, count: usize, rng: &mut Rng) {
        let expected = filled(rows.slice(), count);
        let mut out = Lent::room(room(rows.slice().len(), rng));
        let short = out.slice().len() < expected.len();
        let answer = (self.ask)(rows.slice(), count, out.slice_mut());
        let right = is_given(&out, answer, &expected) && rows.is_unchanged();
        self.tally.add(right, || {
            let (length, part) = (rows.slice().len(), expected.len());
            format!("{length} numbers, {count} rows: {answer} numbers or others, expected {part}")
        });
        let whole = rows.slice().len() / ROW;
        let kind = match count {
            _ if short => "without room",
            0 => "no row",
            n if n < whole => "some rows",
            n if n == whole => "all rows",
            n if n == whole + 1 => "one beyond",
            _ => "further",
        };
        self.kinds.count(kind);
    }

    pub fn report(&self) -> u64 {
        self.tally.report() + self.kinds.report()
    }
}

/// Whether the numbers were written if they fit, and nothing else was. Numbers are passed on unchanged: a zero's sign too.
/// The bits of a NaN are not promised.
fn is_given(out: &Lent, answer: usize, numbers: &[f64]) -> bool {
    let numbers = if out.slice().len() < numbers.len() {
        &[]
    } else {
        numbers
    };
    let same = |(a, b): (&f64, &f64)| a.to_bits() == b.to_bits() || a.is_nan() && b.is_nan();
    answer == numbers.len()
        && out
            .written(answer)
            .is_some_and(|ours| ours.iter().zip(numbers).all(same))
}

/// How often each kind came up. All possible kinds are there from the start.
struct Kinds {
    name: &'static str,
    met: Vec<(&'static str, u64)>,
}

impl Kinds {
    fn new(name: &'static str, kinds: &[&'static str]) -> Kinds {
        let met = kinds.iter().map(|kind| (*kind, 0)).collect();
        Kinds { name, met }
    }

    fn count(&mut self, kind: &str) {
        let found = self.met.iter_mut().find(|(name, _)| *name == kind);
        found.expect("a kind of the list").1 += 1;
    }

    fn all(&self) -> u64 {
        self.met.iter().map(|(_, count)| count).sum()
    }

    /// Prints how often each occurred, and answers how many never did.
    fn report(&self) -> u64 {
        let met: Vec<String> = self
            .met
            .iter()
            .map(|(kind, count)| format!("{kind} {count}"))
            .collect();
        println!("{}: {}", self.name, met.join("; "));
        let unmet = self.met.iter().filter(|(_, count)| *count == 0);
        unmet
            .map(|(kind, _)| println!("{}: NEVER MET: {kind}", self.name))
            .count() as u64
    }
}
