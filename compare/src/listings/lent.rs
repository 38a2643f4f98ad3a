//! The memory that is lent to a listing: paths with other numbers around them, and slices whose old contents are known, so that
//! afterwards every place can be compared with what it should be.

use super::layout::Drawn;
use super::model::{Path, Row};
use crate::capi;
use crate::crossing::faults::Fault;
use crate::crossing::NO_ROOM;
use crate::numbers::{hex, same};
use crate::rng::Rng;

/// Places before a lent slice and behind it: whole vertices, and whole rows of either kind.
const GUARD: usize = 24;

/// A path with NaNs on either side: a call that reads one of them answers something else.
pub struct LentPath {
    memory: Vec<f64>,
    closed: bool,
}

impl LentPath {
    pub fn new(drawn: &Drawn) -> LentPath {
        let guard = [f64::NAN; GUARD];
        LentPath {
            memory: [&guard, &drawn.numbers[..], &guard].concat(),
            closed: drawn.closed,
        }
    }

    pub fn path(&self) -> Path<'_> {
        Path {
            numbers: &self.memory[GUARD..self.memory.len() - GUARD],
            closed: self.closed,
        }
    }

    /// Whether it still holds what was drawn.
    pub fn is(&self, drawn: &Drawn) -> bool {
        let bits = |numbers: &[f64]| -> Vec<u64> { numbers.iter().map(|x| x.to_bits()).collect() };
        bits(&self.memory) == bits(&LentPath::new(drawn).memory)
    }
}

/// The lengths of the slices that are lent for the answer.
#[derive(Clone, Copy, Debug)]
pub struct Room {
    pub indices: usize,
    pub points: usize,
    pub counts: usize,
}

/// What the slices hold before the call.
#[derive(Clone, Copy, Debug, PartialEq)]
pub enum Old {
    /// Signalling NaNs, no two the same.
    Nans,
    /// Zeros of either sign in turns.
    Zeros,
    /// Random bits, from a seed.
    Bits(u64),
}

impl Old {
    /// The bits at a place of the memory, which begins before the slice.
    pub fn at(self, place: usize) -> u64 {
        let place = place as u64;
        match self {
            Old::Nans => 0x7ff4_0000_0000_0001 + (place << 8),
            Old::Zeros => place << 63,
            Old::Bits(seed) => Rng::new(seed ^ (place << 20)).bits(),
        }
    }
}

/// What a call should do.
pub enum Expected<'a> {
    /// The counts have no room: this comes before everything else.
    NoRoom,
    /// The whole word is compared, with the place.
    Refused(Fault),
    Answered {
        rows: &'a [Row],
        counts: Vec<u64>,
    },
}

pub struct Lent {
    old: Old,
    indices: Vec<u64>,
    points: Vec<f64>,
    counts: Vec<u64>,
}

impl Lent {
    pub fn new(room: Room, old: Old) -> Lent {
        let filled = |places: usize| (0..GUARD + places + GUARD).map(|place| old.at(place));
        Lent {
            old,
            indices: filled(room.indices).collect(),
            points: filled(room.points).map(f64::from_bits).collect(),
            counts: filled(room.counts).collect(),
        }
    }

    pub fn slices(&mut self) -> capi::Rows<'_> {
        let inner = |len: usize| GUARD..len - GUARD;
        let (i, p, c) = (self.indices.len(), self.points.len(), self.counts.len());
        capi::Rows {
            indices: &mut self.indices[inner(i)],
            points: &mut self.points[inner(p)],
            counts: &mut self.counts[inner(c)],
        }
    }

    /// What is not as expected, if anything: the returned number, or a place of a slice, or a place beside it.
    pub fn wrong(&self, answer: u64, expected: &Expected) -> Option<String> {
        let (returned, rows, counts): (u64, &[Row], &[u64]) = match expected {
            Expected::NoRoom => (NO_ROOM, &[], &[]),
            Expected::Refused(fault) => (fault.word(), &[], &[]),
            Expected::Answered { rows, counts } => (0, rows, counts),
        };
        if answer != returned {
            return Some(format!("returned {answer:#x}, expected {returned:#x}"));
        }
        let written = rows.len();
        self.wrong_counts(counts)
            .or_else(|| self.wrong_row(rows))
            .or_else(|| self.touched("indices", &self.indices, 3 * written, |x| *x))
            .or_else(|| self.touched("points", &self.points, 4 * written, |x| x.to_bits()))
            .or_else(|| self.touched("counts", &self.counts, counts.len(), |x| *x))
    }

    fn wrong_counts(&self, expected: &[u64]) -> Option<String> {
        let ours = &self.counts[GUARD..GUARD + expected.len()];
        (ours != expected).then(|| format!("counts {ours:?}, expected {expected:?}"))
    }

    fn wrong_row(&self, rows: &[Row]) -> Option<String> {
        let indices = self.indices[GUARD..].chunks_exact(3);
        let points = self.points[GUARD..].chunks_exact(4);
        for ((row, indices), points) in rows.iter().zip(indices).zip(points) {
            if !is_row(row, indices, points) {
                let Row {
                    indices: [i, j],
                    class,
                    points: expected,
                    ..
                } = row;
                let (ours, expected) = (hex(points), hex(expected));
                return Some(format!(
                    "row {indices:?} {ours}, expected [{i}, {j}, {class}] {expected}"
                ));
            }
        }
        None
    }

    /// A place that has changed, after the first so many of the slice.
    fn touched<T>(
        &self,
        name: &str,
        memory: &[T],
        written: usize,
        bits: impl Fn(&T) -> u64,
    ) -> Option<String> {
        let untouched = |place: usize| place < GUARD || place >= GUARD + written;
        let differs = |(place, x): (usize, &T)| untouched(place) && bits(x) != self.old.at(place);
        let place = memory.iter().enumerate().position(differs)? as isize - GUARD as isize;
        Some(format!("{name}[{place}] was touched, {written} to write"))
    }
}

/// Whether this is the row, with +0 in the places that its points do not need.
pub fn is_row(row: &Row, indices: &[u64], points: &[f64]) -> bool {
    let (given, absent) = points.split_at(row.given);
    indices == [row.indices[0], row.indices[1], row.class]
        && same(given, &row.points[..row.given])
        && absent.iter().all(|x| x.to_bits() == 0)
}

#[cfg(test)]
mod tests {
    use super::*;
    use crate::listings::model::no_row_left;

    const ROOM: Room = Room {
        indices: 7,
        points: 9,
        counts: 3,
    };

    /// A row of one point, whose x is a NaN and whose y is zero, and two unused places.
    const ROW: Row = Row {
        indices: [3, 5],
        class: 2,
        points: [f64::NAN, 0.0, 0.0, 0.0],
        given: 2,
    };

    /// What a right call leaves, and then a change to it.
    fn answered(spoil: impl Fn(capi::Rows)) -> Option<String> {
        let mut lent = Lent::new(ROOM, Old::Nans);
        let slices = lent.slices();
        slices.indices[..3].copy_from_slice(&[3, 5, 2]);
        slices.points[..4].copy_from_slice(&[-f64::NAN, -0.0, 0.0, 0.0]);
        slices.counts[..2].copy_from_slice(&[1, 40]);
        spoil(lent.slices());
        let (rows, counts) = (&[ROW][..], vec![1, 40]);
        lent.wrong(0, &Expected::Answered { rows, counts })
    }

    /// Too many rows: the word, and what it stands for.
    fn refused() -> (u64, Expected<'static>) {
        (0x9_0108, Expected::Refused(no_row_left()))
    }

    #[test]
    fn right_answer_passes() {
        assert_eq!(answered(|_| {}), None);
        let lent = Lent::new(ROOM, Old::Bits(7));
        let (word, expected) = refused();
        assert_eq!(lent.wrong(word, &expected), None);
        assert_eq!(lent.wrong(NO_ROOM, &Expected::NoRoom), None);
    }

    #[test]
    fn every_place_is_looked_at() {
        for place in 0..ROOM.indices {
            assert!(answered(|lent| lent.indices[place] ^= 1).is_some());
        }
        for place in 0..ROOM.points {
            let spoil = |x: f64| if x.is_nan() { 1.0 } else { x + 1.0 };
            assert!(answered(|lent| lent.points[place] = spoil(lent.points[place])).is_some());
        }
        for place in 0..ROOM.counts {
            assert!(answered(|lent| lent.counts[place] += 1).is_some());
        }
        // an unused number is +0, and another NaN than the old one is a change
        assert!(answered(|lent| lent.points[3] = -0.0).is_some());
        assert!(answered(|lent| lent.points[8] = f64::NAN).is_some());
    }

    #[test]
    fn places_beside_the_slices_are_looked_at() {
        let untouched = || Lent::new(ROOM, Old::Nans);
        let refused = |lent: Lent| {
            let (word, expected) = refused();
            lent.wrong(word, &expected)
        };
        assert_eq!(refused(untouched()), None);
        for beside in [0, GUARD - 1] {
            for behind in [false, true] {
                let at = |len: usize| if behind { len - 1 - beside } else { beside };
                let mut lents = [untouched(), untouched(), untouched()];
                lents[0].indices[at(GUARD + ROOM.indices + GUARD)] = 1;
                lents[1].points[at(GUARD + ROOM.points + GUARD)] = 1.0;
                lents[2].counts[at(GUARD + ROOM.counts + GUARD)] = 1;
                assert!(lents.into_iter().all(|lent| refused(lent).is_some()));
            }
        }
    }

    #[test]
    fn refusals_write_nothing_and_tell_their_number_and_place() {
        let mut lent = Lent::new(ROOM, Old::Zeros);
        let (word, expected) = refused();
        for bit in 0..64 {
            assert!(lent.wrong(word ^ 1 << bit, &expected).is_some());
        }
        assert!(lent.wrong(0, &expected).is_some());
        assert!(lent.wrong(word, &Expected::NoRoom).is_some());
        lent.slices().counts[0] = 1;
        assert!(lent.wrong(word, &expected).is_some());
        assert!(lent.wrong(NO_ROOM, &Expected::NoRoom).is_some());
    }

    #[test]
    fn paths_are_looked_at() {
        let drawn = Drawn {
            numbers: vec![0.0, 1.0, f64::NAN],
            closed: true,
        };
        let mut lent = LentPath::new(&drawn);
        assert!(lent.is(&drawn) && lent.path().numbers.len() == 3);
        lent.memory[GUARD] = -0.0;
        assert!(!lent.is(&drawn));
    }
}
