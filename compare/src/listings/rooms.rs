//! Lengths of the slices that are lent for the rows, near what they need.

use super::lent::{Old, Room};
use crate::rng::Rng;

impl Room {
    /// Exactly what this many rows need.
    pub fn of(rows: usize) -> Room {
        Room {
            indices: 3 * rows,
            points: 4 * rows,
            counts: 2,
        }
    }

    /// Room for this many rows, whichever slice decides it, with or without places beyond the whole rows.
    pub fn uneven(rows: usize, rng: &mut Rng) -> Room {
        let Room {
            mut indices,
            mut points,
            mut counts,
        } = Room::of(rows);
        match rng.below(4) {
            0 => indices += 3 * (1 + rng.below(4) as usize),
            1 => points += 4 * (1 + rng.below(4) as usize),
            _ => {}
        }
        if rng.one_in(2) {
            indices += rng.below(3) as usize;
            points += rng.below(4) as usize;
        }
        counts += rng.below(3) as usize;
        if rng.one_in(16) {
            counts = rng.below(2) as usize;
        }
        Room {
            indices,
            points,
            counts,
        }
    }

    /// Mostly enough for this many rows; otherwise one row short, or room for any number of rows.
    pub fn draw(rows: usize, rng: &mut Rng) -> Room {
        let room = match rng.below(8) {
            0 => rows.saturating_sub(1),
            1 => rng.below(rows as u64 + 1) as usize,
            2 | 3 => rows + rng.below(4) as usize,
            _ => rows,
        };
        Room::uneven(room, rng)
    }

    /// Each number of rows up to one more than needed, exact and uneven.
    pub fn up_to(rows: usize, rng: &mut Rng) -> Vec<Room> {
        let each = |room| [Room::of(room), Room::uneven(room, rng)];
        (0..rows + 2).flat_map(each).collect()
    }

    /// None, one, about what is needed, and about the numbers at which the code takes another way.
    pub fn about(rows: usize, rng: &mut Rng) -> Vec<Room> {
        let near = |rows: usize| rows.saturating_sub(2)..rows + 3;
        let rooms = [0, 1].into_iter().chain(near(rows)).chain(near(2048));
        rooms
            .flat_map(|room| [Room::of(room), Room::uneven(room, rng)])
            .collect()
    }
}

impl Old {
    pub fn draw(rng: &mut Rng) -> Old {
        match rng.below(4) {
            0 => Old::Zeros,
            1 => Old::Bits(rng.bits()),
            _ => Old::Nans,
        }
    }
}
