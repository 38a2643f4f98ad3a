//! The memory that is lent to a boxed listing: that of a listing, and the floats of the index among others.

use super::ask::Asked;
use crate::capi::Rows;
use crate::listings::lent::{self, Expected, Old};

/// Places before the index and behind it: the boxes of a group and its own.
const GUARD: usize = 4 * 17;

pub struct Lent {
    pub rows: lent::Lent,
    old: Old,
    boxes: Vec<f64>,
}

impl Lent {
    pub fn new(asked: &Asked) -> Lent {
        let places = 0..GUARD + asked.boxes + GUARD;
        Lent {
            rows: lent::Lent::new(asked.room, asked.old),
            old: asked.old,
            boxes: places
                .map(|place| f64::from_bits(asked.old.at(place)))
                .collect(),
        }
    }

    pub fn slices(&mut self) -> (&mut [f64], Rows<'_>) {
        let end = self.boxes.len() - GUARD;
        (&mut self.boxes[GUARD..end], self.rows.slices())
    }

    /// What is not as expected, if anything: of the listing, or of the index, which is empty if none is to be written.
    pub fn wrong(&self, answer: u64, expected: &Expected, index: &[f64]) -> Option<String> {
        let wrong = self.rows.wrong(answer, expected);
        wrong.or_else(|| self.wrong_index(index))
    }

    /// A number with other bits; one that no box may have; or a place that was touched before the index or behind it.
    fn wrong_index(&self, index: &[f64]) -> Option<String> {
        for (place, ours) in self.boxes.iter().enumerate() {
            let at = place as isize - GUARD as isize;
            let expected = usize::try_from(at).ok().and_then(|at| index.get(at));
            let bits = ours.to_bits();
            match expected {
                Some(expected) if bits != expected.to_bits() => {
                    return Some(format!("boxes[{at}] is {ours:e}, expected {expected:e}"));
                }
                Some(_) if !ours.is_finite() || bits == 1 << 63 => {
                    return Some(format!("boxes[{at}] is {ours:e}, which no box may have"));
                }
                None if bits != self.old.at(place) => {
                    let written = index.len();
                    return Some(format!("boxes[{at}] was touched, {written} to write"));
                }
                _ => {}
            }
        }
        None
    }
}

#[cfg(test)]
mod tests {
    use super::*;
    use crate::listings::lent::Room;

    const INDEX: [f64; 8] = [-1.0, 0.0, 2.0, 3.5, -4.0, 0.25, 6.0, 7.0];

    /// What a right call leaves with a longer slice, and then a change to it.
    fn answered(index: [f64; 8], spoil: impl Fn(&mut Vec<f64>)) -> Option<String> {
        let mut lent = Lent::new(&Asked {
            boxes: 11,
            room: Room::of(0),
            old: Old::Nans,
        });
        lent.slices().0[..8].copy_from_slice(&index);
        lent.slices().1.counts.fill(0);
        spoil(&mut lent.boxes);
        let (rows, counts) = (&[][..], vec![0, 0]);
        lent.wrong(0, &Expected::Answered { rows, counts }, &index)
    }

    #[test]
    fn every_place_is_looked_at() {
        assert_eq!(answered(INDEX, |_| {}), None);
        for place in 0..GUARD + 11 + GUARD {
            let spoil = |boxes: &mut Vec<f64>| {
                boxes[place] = f64::from_bits(boxes[place].to_bits() ^ 1);
            };
            assert!(answered(INDEX, spoil).is_some(), "{place}");
        }
    }

    #[test]
    fn no_zero_with_a_sign_and_nothing_infinite() {
        for number in [-0.0, f64::NAN, f64::INFINITY, f64::NEG_INFINITY] {
            let mut index = INDEX;
            index[5] = number;
            assert!(answered(index, |_| {}).is_some());
        }
    }
}
