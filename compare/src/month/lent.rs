//! A report as it is lent: among other words, which are known too, so that afterwards every place can be compared with what it
//! should be.

use super::model::{Report, WORDS};
use crate::listings::lent::Old;

/// Words before the slice and behind it: more than a report has.
const GUARD: usize = 48;

pub struct LentReport {
    old: Old,
    words: usize,
    memory: Vec<u64>,
}

impl LentReport {
    /// A slice of so many words. The first 40 of them are the report's.
    pub fn new(report: &Report, words: usize, old: Old) -> LentReport {
        let mut memory: Vec<u64> = (0..GUARD + words + GUARD)
            .map(|place| old.at(place))
            .collect();
        let given = words.min(WORDS);
        memory[GUARD..GUARD + given].copy_from_slice(&report.0[..given]);
        LentReport { old, words, memory }
    }

    pub fn slice(&mut self) -> &mut [u64] {
        &mut self.memory[GUARD..GUARD + self.words]
    }

    pub fn shared(&self) -> &[u64] {
        &self.memory[GUARD..GUARD + self.words]
    }

    /// A place that is not as it should be if the slice has this report, if there is one: of the slice, or beside it.
    pub fn wrong(&self, name: &str, expected: &Report) -> Option<String> {
        let right = LentReport::new(expected, self.words, self.old);
        let mut places = self.memory.iter().zip(&right.memory);
        let place = places.position(|(ours, expected)| ours != expected)?;
        let [ours, expected] = [self, &right].map(|report| report.memory[place]);
        let at = place as isize - GUARD as isize;
        Some(format!("{name}[{at}] is {ours}, expected {expected}"))
    }
}

#[cfg(test)]
mod tests {
    use super::*;

    #[test]
    fn every_place_is_looked_at() {
        let report = Report(std::array::from_fn(|k| 7 * k as u64));
        for words in [0, 1, 39, 40, 41, 50] {
            for old in [Old::Nans, Old::Zeros, Old::Bits(3)] {
                let mut lent = LentReport::new(&report, words, old);
                assert_eq!(lent.slice().len(), words);
                assert_eq!(lent.wrong("report", &report), None);
                for place in 0..GUARD + words + GUARD {
                    lent.memory[place] ^= 1;
                    assert!(lent.wrong("report", &report).is_some());
                    lent.memory[place] ^= 1;
                }
            }
        }
    }
}
