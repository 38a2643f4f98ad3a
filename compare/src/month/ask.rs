//! What is lent to a counted listing beside its paths, and to a join.

use super::model::{Report, WORDS};
use crate::listings::lent::{Old, Room};
use crate::listings::model::row_room;
use crate::rng::Rng;

/// How many counts a listing gives.
pub const COUNTS: usize = 2;

/// A report in a slice of so many words, and the slices of a listing.
#[derive(Clone, Copy, Debug)]
pub struct Asked {
    pub report: Report,
    pub words: usize,
    pub room: Room,
    pub old: Old,
}

impl Asked {
    /// How many whole rows fit.
    pub fn rows(&self) -> usize {
        row_room(self.room.indices, self.room.points)
    }

    /// Whether the report and the counts have room.
    pub fn has_room(&self) -> bool {
        self.room.counts >= COUNTS && self.words >= WORDS
    }

    /// Exactly a report's words, and these rooms.
    pub fn of(report: Report, room: Room, rng: &mut Rng) -> Asked {
        Asked {
            report,
            words: WORDS,
            room,
            old: Old::draw(rng),
        }
    }

    /// Rooms as they are drawn for a listing of so many rows.
    pub fn draw(report: Report, rows: usize, rng: &mut Rng) -> Asked {
        let words = words(rng);
        let room = Room::draw(rows, rng);
        Asked {
            words,
            ..Asked::of(report, room, rng)
        }
    }

    /// Short, exact and longer slices of a report, each with each room for counts.
    pub fn in_rooms(report: Report, rows: usize, rng: &mut Rng) -> Vec<Asked> {
        let mut all = Vec::new();
        for words in ROOMS {
            for counts in 0..5 {
                let room = Room::draw(rows, rng);
                let room = Room { counts, ..room };
                all.push(Asked {
                    words,
                    ..Asked::of(report, room, rng)
                });
            }
        }
        all
    }
}

/// Two reports, and how many words are lent of each.
#[derive(Clone, Copy, Debug)]
pub struct Joining {
    pub into: Report,
    pub other: Report,
    pub words: [usize; 2],
    pub old: Old,
}

impl Joining {
    pub fn has_room(&self) -> bool {
        self.words.iter().all(|words| *words >= WORDS)
    }

    pub fn of([into, other]: [Report; 2], rng: &mut Rng) -> Joining {
        Joining {
            into,
            other,
            words: [WORDS; 2],
            old: Old::draw(rng),
        }
    }

    pub fn draw(reports: [Report; 2], rng: &mut Rng) -> Joining {
        let words = [0; 2].map(|_| words(rng));
        Joining {
            words,
            ..Joining::of(reports, rng)
        }
    }

    /// Short, exact and longer slices of each.
    pub fn in_rooms(reports: [Report; 2], rng: &mut Rng) -> Vec<Joining> {
        let each = ROOMS
            .into_iter()
            .flat_map(|a| ROOMS.into_iter().map(move |b| [a, b]));
        each.map(|words| Joining {
            words,
            ..Joining::of(reports, rng)
        })
        .collect()
    }
}

const ROOMS: [usize; 7] = [0, 1, 39, 40, 41, 42, 80];

/// Mostly exactly a report's words; else more, one less, or fewer.
fn words(rng: &mut Rng) -> usize {
    match rng.below(16) {
        0 => WORDS - 1,
        1 => rng.below(WORDS as u64) as usize,
        2..=4 => WORDS + 1 + rng.below(40) as usize,
        _ => WORDS,
    }
}
