//! Compares one call after the other, and counts what came up: answers by class, refusals by number and place, and differences.

use std::fmt::Display;

use super::calls::Call;
use super::sites::Sites;
use crate::lent::Lent;
use crate::numbers::{hex, same, Numbers};

const SHOWN: u64 = 5;
/// What a call returns if the room for an answer is too small.
pub const NO_ROOM: u64 = 512;
const PLACES: usize = 4;

pub struct Score {
    name: String,
    pub call: &'static Call,
    pub answered: u64,
    classes: [u64; 6],
    refusals: [u64; 16],
    pub sites: Sites,
    no_room: u64,
    differences: u64,
    turn: usize,
}

impl Score {
    pub fn new(call: &'static Call, of: impl Display) -> Score {
        Score {
            name: format!("{}{of}", call.name),
            call,
            answered: 0,
            classes: [0; 6],
            refusals: [0; 16],
            sites: Sites::default(),
            no_room: 0,
            differences: 0,
            turn: 0,
        }
    }

    /// Makes our call and the Rust's on these numbers, with a lent slice of the next length.
    pub fn compare(&mut self, numbers: &Numbers) {
        let room = self.room();
        self.compare_in(room, numbers);
    }

    /// The same with a slice that has room for an answer. Says whether there is one.
    pub fn in_full(&mut self, numbers: &Numbers) -> bool {
        let before = self.answered;
        self.compare_in(PLACES, numbers);
        self.answered > before
    }

    fn compare_in(&mut self, room: usize, numbers: &Numbers) {
        let mut lent = Lent::new(room);
        let given = (self.call.ours)(numbers, lent.slice());
        let right = if room < PLACES {
            self.no_room += 1;
            given == NO_ROOM && lent.written(0).is_some()
        } else {
            match self.call.expected(numbers) {
                Ok((case, values)) => {
                    self.answered += 1;
                    self.classes[case as usize] += 1;
                    let written = lent.written(PLACES);
                    given == case && written.is_some_and(|ours| filled(ours, &values))
                }
                Err(fault) => {
                    self.refusals[fault.number as usize] += 1;
                    self.sites.count(self.call, numbers, fault);
                    given == fault.word() && lent.written(0).is_some()
                }
            }
        };
        if !right {
            self.differ(numbers, given, lent.slice());
        }
    }

    /// Four places or five; in one of sixteen calls fewer.
    fn room(&mut self) -> usize {
        self.turn += 1;
        if self.turn % 16 == 0 {
            self.turn / 16 % PLACES
        } else {
            PLACES + self.turn % 2
        }
    }

    fn differ(&mut self, numbers: &Numbers, given: u64, slice: &[f64]) {
        self.differences += 1;
        if self.differences > SHOWN {
            return;
        }
        let expected = match self.call.expected(numbers) {
            Ok((case, values)) => format!("{case}, {}", hex(&values)),
            Err(fault) => format!("{:#x}, {fault:?}", fault.word()),
        };
        let (on, ours, room) = (hex(numbers), hex(slice), slice.len());
        println!(
            "{} of {on}: {given:#x}, {ours} in a room of {room}, expected {expected}",
            self.name
        );
    }

    pub fn differences(&self) -> u64 {
        self.differences
    }

    /// Whether the call was made.
    pub fn is_met(&self) -> bool {
        self.answered + self.refusals.iter().sum::<u64>() > 0
    }

    /// The call's answers by class, for those that came up.
    pub fn met(&self) -> String {
        format!("{} ({})", self.call.name, self.classes(1))
    }

    fn classes(&self, least: u64) -> String {
        let named = |(name, count): (&&str, &u64)| format!("{name} {count}");
        let classes = self.call.classes.iter().zip(&self.classes);
        let classes = classes.filter(|(_, count)| **count >= least);
        classes.map(named).collect::<Vec<String>>().join(", ")
    }

    /// Prints the counts, and answers how many differences there were.
    pub fn report(&self) -> u64 {
        let refusals: Vec<String> = (1..)
            .zip(&self.refusals[1..])
            .filter(|(_, count)| **count > 0)
            .map(|(number, count)| format!("{count} by {number}"))
            .collect();
        println!(
            "{}: {} answered ({}), refused {}, {} without room, {} differences",
            self.name,
            self.answered,
            self.classes(0),
            refusals.join(", "),
            self.no_room,
            self.differences
        );
        self.differences
    }
}

/// Whether these are the values, and +0 in the other places.
fn filled(ours: &[f64], values: &[f64]) -> bool {
    let (front, rest) = ours.split_at(values.len());
    same(front, values) && rest.iter().all(|x| x.to_bits() == 0)
}
