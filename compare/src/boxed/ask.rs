//! The slices that are lent to a boxed listing: that of the index, and those of a listing.

use std::collections::BTreeSet;

use super::model::Boxed;
use crate::listings::lent::{Old, Room};
use crate::listings::model::row_room;
use crate::rng::Rng;

/// How many counts a listing gives.
pub const COUNTS: usize = 2;

#[derive(Clone, Copy, Debug)]
pub struct Asked {
    /// How many floats the index has room for.
    pub boxes: usize,
    pub room: Room,
    pub old: Old,
}

impl Asked {
    /// How many whole rows fit.
    pub fn rows(&self) -> usize {
        row_room(self.room.indices, self.room.points)
    }

    /// Exactly what is needed.
    pub fn exact(boxed: &Boxed, old: Old) -> Asked {
        Asked {
            boxes: boxed.floats,
            room: Room::of(boxed.rows.len()),
            old,
        }
    }

    /// Mostly enough for the index, and for the rows. Else a float short, any number of floats, or no row fits.
    pub fn draw(boxed: &Boxed, rng: &mut Rng) -> Asked {
        let floats = boxed.floats;
        let boxes = match rng.below(16) {
            0 => floats.saturating_sub(1),
            1 => rng.below(floats as u64 + 1) as usize,
            2 => 0,
            3 => floats + 1,
            4 => floats + 1 + rng.below(80) as usize,
            _ => floats,
        };
        let mut room = Room::draw(boxed.rows.len(), rng);
        if rng.one_in(8) {
            room.indices = rng.below(3) as usize;
        }
        Asked {
            boxes,
            room,
            old: Old::draw(rng),
        }
    }

    /// Rooms for the index about what it needs, with rooms for the rows about what these need.
    pub fn about(boxed: &Boxed, rng: &mut Rng) -> Vec<Asked> {
        let (rows, floats) = (boxed.rows.len(), boxed.floats);
        let less = |by: usize| floats.saturating_sub(by);
        let boxes = [0, boxed.first_floats, less(4), less(1), floats];
        let more = [1, 2, 3, 4, 17].map(|by| floats + by);
        let boxes: BTreeSet<usize> = boxes.into_iter().chain(more).collect();
        let exact = Room::of(rows);
        let [indices, points] = [exact.indices, exact.points].map(|n| n.saturating_sub(1));
        let rooms = [
            Room::of(0),
            Room::of(boxed.full_rows),
            Room { indices, ..exact },
            Room { points, ..exact },
            Room::draw(rows, rng),
        ];
        let mut all: Vec<(usize, Room)> = boxes.into_iter().map(|boxes| (boxes, exact)).collect();
        for boxes in [less(1), floats, floats + 4] {
            all.extend(rooms.map(|room| (boxes, room)));
        }
        for boxes in [less(1), floats] {
            for room in [Room::of(0), exact] {
                let counts = rng.below(COUNTS as u64) as usize;
                all.push((boxes, Room { counts, ..room }));
            }
        }
        let mut asked = |(boxes, room)| {
            let old = Old::draw(rng);
            Asked { boxes, room, old }
        };
        all.into_iter().map(&mut asked).collect()
    }
}
