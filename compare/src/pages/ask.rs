//! What a call is asked, besides the paths: where to start, how many pairs to pass, and the slices that are lent for the answer.

use crate::capi::Span;
use crate::listings::lent::{Old, Room};
use crate::listings::model::row_room;
use crate::rng::Rng;

/// How many counts a page gives.
pub const COUNTS: usize = 4;
/// More pairs than any two paths have.
pub const BEYOND_ALL: u64 = 4096 * 4096 + 1;

#[derive(Clone, Copy, Debug)]
pub struct Asked {
    pub span: Span,
    pub room: Room,
    pub old: Old,
}

impl Asked {
    /// How many whole rows fit.
    pub fn rows(&self) -> usize {
        row_room(self.room.indices, self.room.points)
    }
}

/// Exactly what this many rows need.
pub fn room_of(rows: usize) -> Room {
    Room {
        counts: COUNTS,
        ..Room::of(rows)
    }
}

/// Exact, with one number too few in the indices, and with one too few in the points.
pub fn rooms_at(rows: usize) -> [Room; 3] {
    let exact = room_of(rows);
    let [indices, points] = [exact.indices, exact.points].map(|n| n.saturating_sub(1));
    [exact, Room { indices, ..exact }, Room { points, ..exact }]
}

/// What the calls of a chain are asked, more or less: so that it has few calls or many, and stops for every reason.
pub struct Style {
    budget: u64,
    rows: usize,
    /// Whether each budget is 1.
    one_by_one: bool,
}

impl Style {
    pub fn draw(all: u64, rows: usize, rng: &mut Rng) -> Style {
        Style {
            budget: (all >> rng.below(10)).max(1),
            rows: (rows >> rng.below(8)).max(1),
            one_by_one: all < 64 && rng.one_in(4),
        }
    }

    /// A call that is not refused, at a position that is not beyond the end.
    pub fn ask(&self, position: u64, all: u64, rng: &mut Rng) -> Asked {
        let left = all - position;
        let budget = match rng.below(64) {
            _ if self.one_by_one => 1,
            0 => u64::MAX,
            1 => left.saturating_sub(1),
            2 => left,
            3 => left + 1 + rng.below(3),
            // beyond 2^64 from here
            4 => position.wrapping_neg().wrapping_add(rng.below(4)),
            5 => rng.bits(),
            // nothing in its lower half
            6 => (1 + rng.below(1 << 31)) << 32,
            7..=12 => 1,
            13..=16 => 2,
            _ => 1 + rng.below(2 * self.budget),
        };
        let rows = match rng.below(8) {
            0 => 1,
            1 => 2,
            _ => 1 + rng.below(2 * self.rows as u64) as usize,
        };
        Asked {
            span: Span {
                position,
                budget: budget.max(1),
            },
            room: uneven(rows, rng),
            old: Old::draw(rng),
        }
    }

    /// A call for which something is wrong: the position, the budget, the room for rows, that for counts, or several of them.
    pub fn refused(&self, position: u64, all: u64, rng: &mut Rng) -> Asked {
        let mut asked = self.ask(position, all, rng);
        let what = 1 + rng.below(15);
        if what & 1 != 0 {
            asked.span.position = beyond(all, rng);
        }
        if what & 2 != 0 {
            asked.span.budget = 0;
        }
        if what & 4 != 0 {
            asked.room = no_row(rng);
        }
        if what & 8 != 0 {
            asked.room.counts = rng.below(COUNTS as u64) as usize;
        }
        asked
    }
}

/// A call on paths that may have a fault: anything may be wrong with the rest as well.
pub fn any(rng: &mut Rng) -> Asked {
    let position = match rng.below(4) {
        0 => 0,
        1 => rng.below(16),
        2 => BEYOND_ALL + rng.below(4),
        _ => beyond(rng.pick(&[0, 16, BEYOND_ALL]), rng),
    };
    let budget = rng.pick(&[0, 1, 2, 7, 1 << 32, u64::MAX]);
    let rows = rng.below(6) as usize;
    let mut room = if rng.one_in(3) {
        no_row(rng)
    } else {
        uneven(rows, rng)
    };
    if rng.one_in(8) {
        room.counts = rng.below(COUNTS as u64) as usize;
    }
    Asked {
        span: Span { position, budget },
        room,
        old: Old::draw(rng),
    }
}

/// A position beyond the end.
fn beyond(all: u64, rng: &mut Rng) -> u64 {
    match rng.below(4) {
        0 => u64::MAX,
        1 => all + 1,
        2 => all + 1 + rng.below(1 << 20),
        // a right position in its lower half
        _ => ((1 + rng.below(1 << 31)) << 32) + rng.below(all + 1),
    }
}

fn uneven(rows: usize, rng: &mut Rng) -> Room {
    Room {
        counts: COUNTS + rng.below(3) as usize,
        ..Room::uneven(rows, rng)
    }
}

/// No whole row fits: into the indices, into the points, or into neither.
fn no_row(rng: &mut Rng) -> Room {
    let mut room = uneven(1 + rng.below(3) as usize, rng);
    let which = 1 + rng.below(3);
    if which & 1 != 0 {
        room.indices = rng.below(3) as usize;
    }
    if which & 2 != 0 {
        room.points = rng.below(4) as usize;
    }
    room
}
