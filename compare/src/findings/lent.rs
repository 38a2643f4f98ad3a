//! The two slices that a call is lent, with bytes before and behind each.

use crate::lent::Lent;

pub const PLACES: usize = 4;

/// A word that no finding has.
const UNTOUCHED: u64 = 0xa5a5_5a5a_c3c3_3c3c;
const BEFORE: usize = 2;
const LENGTH: usize = 10;

/// How many places the two slices have.
#[derive(Clone, Copy, Debug)]
pub struct Room {
    pub points: usize,
    pub findings: usize,
}

impl Room {
    /// Four places or five; in one of sixteen calls fewer, in one slice or in both.
    pub fn of_turn(turn: usize) -> Room {
        if turn % 16 > 0 {
            return Room {
                points: PLACES + turn % 2,
                findings: PLACES + turn / 2 % 2,
            };
        }
        let turn = turn / 16 % 36;
        Room {
            points: turn % 6,
            findings: turn / 6,
        }
    }

    pub fn is_enough(&self) -> bool {
        self.points >= PLACES && self.findings >= PLACES
    }
}

pub struct Slices {
    points: Lent,
    findings: [u64; LENGTH],
    room: Room,
}

impl Slices {
    pub fn new(room: Room) -> Slices {
        Slices {
            points: Lent::new(room.points),
            findings: [UNTOUCHED; LENGTH],
            room,
        }
    }

    pub fn both(&mut self) -> (&mut [f64], &mut [u64]) {
        let findings = &mut self.findings[BEFORE..BEFORE + self.room.findings];
        (self.points.slice(), findings)
    }

    /// The four places of each, if nothing else was written.
    pub fn written(&self) -> Option<(&[f64], &[u64])> {
        let (before, rest) = self.findings.split_at(BEFORE);
        let (findings, behind) = rest.split_at(PLACES);
        let mut around = before.iter().chain(behind);
        let clean = around.all(|word| *word == UNTOUCHED);
        let points = self.points.written(PLACES).filter(|_| clean)?;
        Some((points, findings))
    }

    pub fn are_untouched(&self) -> bool {
        let untouched = self.findings.iter().all(|word| *word == UNTOUCHED);
        untouched && self.points.written(0).is_some()
    }
}
