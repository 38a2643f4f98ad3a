//! The slices that are lent to a call. Short ones have memory of their own, since all of it is looked at after each call.

use crate::packed::lent::{Bits, Lent, Old};
use crate::rng::Rng;

const FEW: usize = 512;

/// Places to write to, few or many.
pub struct Places<T> {
    few: Lent<T>,
    many: Lent<T>,
    lent: usize,
}

impl<T: Bits> Places<T> {
    pub fn new(most: usize) -> Places<T> {
        Places {
            few: Lent::new(FEW),
            many: Lent::new(most),
            lent: 0,
        }
    }

    pub fn lend(&mut self, room: usize, old: Old) -> &mut [T] {
        self.lent = room;
        match room {
            0..=FEW => self.few.lend(room, old),
            _ => self.many.lend(room, old),
        }
    }

    pub fn wrong(&self, written: &[T]) -> Option<String> {
        match self.lent {
            0..=FEW => self.few.wrong(written),
            _ => self.many.wrong(written),
        }
    }
}

/// A path to lend, among other numbers.
pub struct Path {
    memory: Vec<f64>,
}

const GUARD: usize = 16;
/// Beside a path: a reader that goes on there finds a vertex.
const BESIDE: f64 = 1.0;

impl Path {
    pub fn new() -> Path {
        Path { memory: Vec::new() }
    }

    pub fn hold(&mut self, path: &[f64]) {
        self.memory.clear();
        self.memory.extend([BESIDE; GUARD]);
        self.memory.extend(path);
        self.memory.extend([BESIDE; GUARD]);
    }

    pub fn numbers(&self) -> &[f64] {
        &self.memory[GUARD..self.memory.len() - GUARD]
    }

    /// Whether everything is as it was.
    pub fn is(&self, path: &[f64]) -> bool {
        let end = self.memory.len() - GUARD;
        f64::same(self.numbers(), path)
            && f64::same(&self.memory[..GUARD], &[BESIDE; GUARD])
            && f64::same(&self.memory[end..], &[BESIDE; GUARD])
    }
}

/// The rooms of a call, and what the slices hold before it.
#[derive(Clone, Copy, Debug)]
pub struct Asked {
    pub room: usize,
    pub told: usize,
    pub old: Old,
}

impl Asked {
    pub fn of(room: usize, told: usize, rng: &mut Rng) -> Asked {
        let old = Old::draw(rng);
        Asked { room, told, old }
    }

    /// Mostly exactly what is needed or more; else a place less, fewer, or none. If nothing is needed, since the call is refused
    /// anyway, any small room.
    pub fn draw(needed: usize, told: usize, rng: &mut Rng) -> Asked {
        let room = match rng.below(16) {
            0 => needed.saturating_sub(1),
            1 => rng.below(needed as u64 + 1) as usize,
            2 => 0,
            3..=5 => needed + 1 + rng.below(40) as usize,
            _ => needed,
        };
        let told = match rng.below(32) {
            0 => 0,
            1 => told - 1,
            2..=4 => told + 1,
            _ => told,
        };
        Asked::of(room, told, rng)
    }
}

#[cfg(test)]
mod tests {
    use super::*;

    #[test]
    fn paths_are_looked_at() {
        let mut path = Path::new();
        for place in 0..GUARD + 2 + GUARD {
            path.hold(&[0.0, -0.5]);
            assert!(path.is(&[0.0, -0.5]) && !path.is(&[-0.0, -0.5]));
            path.memory[place] += 1.0;
            assert!(!path.is(&[0.0, -0.5]), "{place}");
        }
    }

    #[test]
    fn both_sizes_are_looked_at() {
        let mut places: Places<u8> = Places::new(FEW + 9);
        for room in [0, 1, FEW, FEW + 1, FEW + 9] {
            let lent = places.lend(room, Old::Mixed);
            assert_eq!(lent.len(), room);
            if let Some(first) = lent.first_mut() {
                *first ^= 1;
                assert!(places.wrong(&[]).is_some());
            } else {
                assert!(places.wrong(&[]).is_none());
            }
        }
    }
}
