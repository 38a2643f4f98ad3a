//! The calls, and the slices that are lent to them.

use super::lent::Old;
use super::model::{LONGEST, LONGEST_TEXT, MOST_NUMBERS};
use crate::rng::Rng;

#[derive(Clone, Copy, Debug, PartialEq)]
pub enum Call {
    Pack,
    Unpack,
    Read,
}

pub const CALLS: [Call; 3] = [Call::Pack, Call::Unpack, Call::Read];
/// How many places a call tells its answer in.
pub const TOLD: usize = 2;
/// Rooms beyond what is asked for.
pub const MORE: usize = 40;

impl Call {
    pub fn name(self) -> &'static str {
        match self {
            Call::Pack => "pack",
            Call::Unpack => "unpack",
            Call::Read => "read",
        }
    }

    /// The room that it asks for, in each slice that it writes the layout to: enough for every layout.
    pub fn room(self) -> usize {
        match self {
            Call::Pack => LONGEST,
            Call::Unpack => LONGEST_TEXT,
            Call::Read => MOST_NUMBERS,
        }
    }

    /// How many such slices it has.
    pub fn slices(self) -> usize {
        match self {
            Call::Read => 2,
            _ => 1,
        }
    }
}

#[derive(Clone, Copy, Debug)]
pub struct Asked {
    /// Places in the slices for the layout; the second is that of `read` only.
    pub room: [usize; 2],
    pub told: usize,
    pub old: Old,
}

impl Asked {
    pub fn exact(call: Call, rng: &mut Rng) -> Asked {
        Asked {
            room: [call.room(); 2],
            told: TOLD,
            old: Old::draw(rng),
        }
    }

    /// Mostly what is needed; else more, a place less, fewer, or none.
    pub fn draw(call: Call, rng: &mut Rng) -> Asked {
        let mut asked = Asked::exact(call, rng);
        let needed = call.room();
        for room in &mut asked.room[..call.slices()] {
            *room = match rng.below(64) {
                0 => needed - 1,
                1 => rng.below(needed as u64) as usize,
                2 => 0,
                3..=9 => needed + 1 + rng.below(MORE as u64) as usize,
                _ => needed,
            };
        }
        asked.told = match rng.below(64) {
            0 => 0,
            1 => 1,
            2..=4 => 3,
            _ => TOLD,
        };
        asked
    }

    /// Whether every slice has the room that is asked for.
    pub fn fits(&self, call: Call) -> bool {
        let enough = |room: &usize| *room >= call.room();
        self.told >= TOLD && self.room[..call.slices()].iter().all(enough)
    }
}
