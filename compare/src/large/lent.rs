//! The memory that is lent to a call of this mode: slices whose old contents are known, among others, so that afterwards every
//! place can be compared with what it should be.

use super::ask::{Asked, Kind};
use super::model::{Expected, Large, WORDS};
use crate::capi::Rows;
use crate::listings::lent::Old;
use crate::month::model::{Report, WORDS as REPORT};
use crate::numbers::hex;

/// Places before a lent slice and behind it: more than a report or the boxes of a group.
const GUARD: usize = 4 * 20;

pub struct Lent {
    old: Old,
    words: usize,
    indices: Vec<u64>,
    points: Vec<f64>,
    counts: Vec<u64>,
    boxes: Vec<f64>,
    report: Vec<u64>,
}

/// What a place of a slice should hold.
enum Place {
    /// These bits.
    Bits(u64),
    /// This number: a zero of either sign, any NaN.
    Number(f64),
}

impl Lent {
    pub fn new(asked: &Asked) -> Lent {
        let old = asked.old;
        let filled = |places: usize| (0..GUARD + places + GUARD).map(move |place| old.at(place));
        // a slice that the call does not have is empty
        let [boxes, words] = [(Kind::Boxed, asked.boxes), (Kind::Counted, asked.words)]
            .map(|(kind, places)| if asked.kind == kind { places } else { 0 });
        let mut report: Vec<u64> = filled(words).collect();
        put(&mut report, &asked.report, words);
        Lent {
            old,
            words,
            indices: filled(asked.room.indices).collect(),
            points: filled(asked.room.points).map(f64::from_bits).collect(),
            counts: filled(asked.room.counts).collect(),
            boxes: filled(boxes).map(f64::from_bits).collect(),
            report,
        }
    }

    /// Rows and counts, the floats for boxes, and the report.
    pub fn slices(&mut self) -> (Rows<'_>, &mut [f64], &mut [u64]) {
        fn inner<T>(memory: &mut [T]) -> &mut [T] {
            let end = memory.len() - GUARD;
            &mut memory[GUARD..end]
        }
        let rows = Rows {
            indices: inner(&mut self.indices),
            points: inner(&mut self.points),
            counts: inner(&mut self.counts),
        };
        (rows, inner(&mut self.boxes), inner(&mut self.report))
    }

    /// Puts the report back as it was lent.
    pub fn fresh(&mut self, asked: &Asked) {
        put(&mut self.report, &asked.report, self.words);
    }

    /// What is not as expected, if anything: the returned word, or a place of a slice, or a place beside it.
    pub fn wrong(&self, answer: u64, large: &Large, expected: &Expected) -> Option<String> {
        if answer != expected.word {
            let right = expected.word;
            return Some(format!("returned {answer:#x}, expected {right:#x}"));
        }
        let rows = &expected.rows;
        let indices = rows.iter().flat_map(|row| large.words(*row));
        let points = rows.iter().flat_map(|row| {
            let row = &large.found.rows[*row];
            (0..4).map(|at| match at < row.given {
                true => Place::Number(row.points[at]),
                false => Place::Bits(0),
            })
        });
        let index: &[f64] = if expected.boxes { &large.index } else { &[] };
        let report = &expected.report.0[..self.words.min(REPORT)];
        None.or_else(|| self.wrong_words("counts", &self.counts, expected.counts.iter().copied()))
            .or_else(|| self.wrong_words("indices", &self.indices, indices))
            .or_else(|| self.wrong_floats("points", &self.points, points))
            .or_else(|| {
                let bits = index.iter().map(|x| Place::Bits(x.to_bits()));
                self.wrong_floats("boxes", &self.boxes, bits)
            })
            .or_else(|| self.wrong_words("report", &self.report, report.iter().copied()))
    }

    fn wrong_words(
        &self,
        name: &str,
        memory: &[u64],
        mut right: impl Iterator<Item = u64>,
    ) -> Option<String> {
        for (place, ours) in memory.iter().enumerate() {
            let given = if place < GUARD { None } else { right.next() };
            let expected = given.unwrap_or(self.old.at(place));
            if *ours != expected {
                let at = place as isize - GUARD as isize;
                let part = if at >= 0 && name == "indices" {
                    let row = GUARD + at as usize / WORDS * WORDS;
                    let end = memory.len().min(row + WORDS);
                    format!(" of row {:?}", &memory[row..end])
                } else {
                    String::new()
                };
                return Some(format!("{name}[{at}] is {ours}, expected {expected}{part}"));
            }
        }
        right
            .next()
            .map(|_| format!("{name} have no room for all of them"))
    }

    fn wrong_floats(
        &self,
        name: &str,
        memory: &[f64],
        mut right: impl Iterator<Item = Place>,
    ) -> Option<String> {
        for (place, ours) in memory.iter().enumerate() {
            let given = if place < GUARD { None } else { right.next() };
            let at = place as isize - GUARD as isize;
            let (is, expected) = match given {
                Some(Place::Number(x)) => (*ours == x || ours.is_nan() && x.is_nan(), x),
                Some(Place::Bits(bits)) => (ours.to_bits() == bits, f64::from_bits(bits)),
                None => {
                    let bits = self.old.at(place);
                    (ours.to_bits() == bits, f64::from_bits(bits))
                }
            };
            if !is {
                let [ours, expected] = [*ours, expected].map(|x| hex(&[x]));
                return Some(format!("{name}[{at}] is {ours}, expected {expected}"));
            }
        }
        right
            .next()
            .map(|_| format!("{name} have no room for all of them"))
    }
}

/// Writes a report into its memory, as far as the slice has room.
fn put(memory: &mut [u64], report: &Report, words: usize) {
    let given = words.min(REPORT);
    memory[GUARD..GUARD + given].copy_from_slice(&report.0[..given]);
}

#[cfg(test)]
mod tests {
    use super::super::ask::KINDS;
    use super::*;
    use crate::large::examples::{loop_by_itself, EXAMPLE_EPSILON};
    use crate::listings::model::Listed;

    /// What a right call leaves, and then a change at each place: each is noticed.
    #[test]
    fn every_place_is_looked_at() {
        let drawn = loop_by_itself();
        let large = Large::new(Listed::Own(drawn.path()), EXAMPLE_EPSILON);
        for kind in KINDS {
            let mut asked = Asked::exact(kind, &large);
            asked.room.indices += 3;
            asked.room.points += 2;
            asked.room.counts += 1;
            asked.boxes += 1;
            asked.words += 1;
            let expected = large.expected(&asked);
            assert_eq!(expected.word, 0);
            let right = || {
                let mut lent = Lent::new(&asked);
                let (rows, boxes, report) = lent.slices();
                for (at, row) in expected.rows.iter().enumerate() {
                    let words = large.words(*row);
                    rows.indices[WORDS * at..WORDS * (at + 1)].copy_from_slice(&words);
                    let points = &large.found.rows[*row].points;
                    rows.points[4 * at..4 * at + 4].copy_from_slice(points);
                }
                rows.counts[..expected.counts.len()].copy_from_slice(&expected.counts);
                if expected.boxes {
                    boxes[..large.index.len()].copy_from_slice(&large.index);
                }
                if kind == Kind::Counted {
                    report[..REPORT].copy_from_slice(&expected.report.0);
                }
                lent
            };
            assert_eq!(right().wrong(0, &large, &expected), None);
            assert!(right().wrong(1, &large, &expected).is_some());
            let spoilt = |spoil: &dyn Fn(&mut Lent)| {
                let mut lent = right();
                spoil(&mut lent);
                assert!(lent.wrong(0, &large, &expected).is_some());
            };
            let flip = |x: &mut f64| *x = f64::from_bits(x.to_bits() ^ 1);
            for at in 0..right().indices.len() {
                spoilt(&|lent| lent.indices[at] ^= 1);
            }
            for at in 0..right().points.len() {
                spoilt(&|lent| flip(&mut lent.points[at]));
            }
            for at in 0..right().counts.len() {
                spoilt(&|lent| lent.counts[at] ^= 1);
            }
            for at in 0..right().boxes.len() {
                spoilt(&|lent| flip(&mut lent.boxes[at]));
            }
            for at in 0..right().report.len() {
                spoilt(&|lent| lent.report[at] ^= 1);
            }
        }
    }
}
