//! Memory to lend: an input among other bytes, and places to write to among others. Afterwards it shows what has changed.

use crate::rng::Rng;

/// Places before a lent slice and behind it.
const GUARD: usize = 64;

/// What the places hold before a call.
#[derive(Clone, Copy, Debug)]
pub enum Old {
    Zeros,
    Ones,
    /// Each place another number.
    Mixed,
}

const OLD: [Old; 3] = [Old::Zeros, Old::Ones, Old::Mixed];

impl Old {
    pub fn draw(rng: &mut Rng) -> Old {
        rng.pick(&[Old::Zeros, Old::Ones, Old::Mixed, Old::Mixed])
    }

    fn at(self, place: usize) -> u64 {
        match self {
            Old::Zeros => 0,
            Old::Ones => u64::MAX,
            Old::Mixed => (place as u64 + 1).wrapping_mul(0x9e37_79b9_7f4a_7c15),
        }
    }
}

pub trait Bits: Copy {
    fn of(bits: u64) -> Self;
    fn bits(self) -> u64;
    fn same(ours: &[Self], expected: &[Self]) -> bool;
}

impl Bits for u8 {
    fn same(ours: &[u8], expected: &[u8]) -> bool {
        ours == expected
    }

    fn of(bits: u64) -> u8 {
        (bits >> 56) as u8
    }

    fn bits(self) -> u64 {
        self.into()
    }
}

impl Bits for u64 {
    fn same(ours: &[u64], expected: &[u64]) -> bool {
        ours == expected
    }

    fn of(bits: u64) -> u64 {
        bits
    }

    fn bits(self) -> u64 {
        self
    }
}

impl Bits for f64 {
    /// All are looked at, so that the loop needs no branch.
    fn same(ours: &[f64], expected: &[f64]) -> bool {
        let differ = |sum: u64, (a, b): (&f64, &f64)| sum | (a.to_bits() ^ b.to_bits());
        ours.len() == expected.len() && ours.iter().zip(expected).fold(0, differ) == 0
    }

    fn of(bits: u64) -> f64 {
        f64::from_bits(bits)
    }

    fn bits(self) -> u64 {
        self.to_bits()
    }
}

/// Places to write to.
pub struct Lent<T> {
    memory: Vec<T>,
    /// What they hold before a call, for each `Old`.
    before: [Vec<T>; 3],
    old: Old,
    room: usize,
}

impl<T: Bits> Lent<T> {
    /// For slices of at most so many places.
    pub fn new(most: usize) -> Lent<T> {
        let places = GUARD + most + GUARD;
        let before = |old: Old| (0..places).map(|place| T::of(old.at(place))).collect();
        Lent {
            memory: vec![T::of(0); places],
            before: OLD.map(before),
            old: Old::Zeros,
            room: 0,
        }
    }

    /// This many places, as they are before a call.
    pub fn lend(&mut self, room: usize, old: Old) -> &mut [T] {
        self.memory.copy_from_slice(&self.before[old as usize]);
        (self.old, self.room) = (old, room);
        &mut self.memory[GUARD..GUARD + room]
    }

    /// What is not as expected, if anything: the numbers that should have been written, or any other place.
    pub fn wrong(&self, written: &[T]) -> Option<String> {
        let before = &self.before[self.old as usize];
        let fits = written.len() <= self.room;
        let end = GUARD + written.len();
        if fits
            && T::same(&self.memory[GUARD..end], written)
            && T::same(&self.memory[..GUARD], &before[..GUARD])
            && T::same(&self.memory[end..], &before[end..])
        {
            return None;
        }
        if !fits {
            return Some(format!("{} places do not hold it", self.room));
        }
        let expected = before[..GUARD].iter().chain(written).chain(&before[end..]);
        let mut places = self.memory.iter().zip(expected).enumerate();
        let (place, (ours, expected)) =
            places.find(|(_, (ours, expected))| ours.bits() != expected.bits())?;
        let (at, ours, expected) = (
            place as isize - GUARD as isize,
            ours.bits(),
            expected.bits(),
        );
        let written = written.len();
        Some(format!(
            "[{at}] is {ours:#x}, expected {expected:#x}, {written} to write"
        ))
    }
}

/// What lies behind an input: a reader that goes on there finds what it misses.
#[derive(Clone, Copy, Debug)]
pub enum Behind {
    Byte(u8),
    Lines,
    /// Of a drawing's body.
    Groups,
}

impl Behind {
    pub fn draw(rng: &mut Rng) -> Behind {
        match rng.below(6) {
            0 => Behind::Lines,
            _ => Behind::Byte(rng.pick(&[0, 1, 2, b'0', b' ', b'\n', 0x80, 0xff])),
        }
    }

    fn at(self, place: usize) -> u8 {
        match self {
            Behind::Byte(byte) => byte,
            Behind::Lines => b"\n0 0 0"[place % 6],
            Behind::Groups => b"\n10\n0\n20\n5\n42\n0\n1"[place % 17],
        }
    }
}

/// An input among other bytes.
pub struct Input {
    memory: Vec<u8>,
}

impl Input {
    pub fn new() -> Input {
        Input { memory: Vec::new() }
    }

    pub fn hold(&mut self, bytes: &[u8], behind: Behind) {
        self.memory.clear();
        let before = (0..GUARD).map(|place| Old::Mixed.at(place) as u8);
        self.memory.extend(before);
        self.memory.extend(bytes);
        self.memory.extend((0..GUARD).map(|place| behind.at(place)));
    }

    pub fn bytes(&self) -> &[u8] {
        &self.memory[GUARD..self.memory.len() - GUARD]
    }

    /// Whether everything is as it was.
    pub fn is(&self, bytes: &[u8], behind: Behind) -> bool {
        let (before, rest) = self.memory.split_at(GUARD);
        let (held, after) = rest.split_at(rest.len() - GUARD);
        let is_before = |(place, byte): (usize, &u8)| *byte == Old::Mixed.at(place) as u8;
        let is_after = |(place, byte): (usize, &u8)| *byte == behind.at(place);
        held == bytes
            && before.iter().enumerate().all(is_before)
            && after.iter().enumerate().all(is_after)
    }
}

#[cfg(test)]
mod tests {
    use super::*;

    #[test]
    fn every_place_is_looked_at() {
        const ROOM: usize = 9;
        let written = [7, 8, 9, 10];
        for old in OLD {
            for place in 0..GUARD + ROOM + 5 + GUARD {
                let mut lent: Lent<u8> = Lent::new(ROOM + 5);
                lent.lend(ROOM, old)[..written.len()].copy_from_slice(&written);
                assert_eq!(lent.wrong(&written), None);
                assert!(lent.wrong(&[]).is_some());
                lent.memory[place] ^= 1;
                assert!(lent.wrong(&written).is_some(), "{place}");
            }
        }
    }

    #[test]
    fn each_lending_starts_anew() {
        let mut lent: Lent<f64> = Lent::new(4);
        for old in OLD {
            lent.lend(4, old).fill(1.5);
            assert_eq!(lent.wrong(&[1.5; 4]), None);
            assert!(lent.wrong(&[1.5, 1.5, 1.5, -0.0]).is_some());
            lent.lend(2, old);
            assert_eq!(lent.wrong(&[]), None);
            assert!(lent.wrong(&[1.5; 3]).is_some());
        }
    }

    #[test]
    fn inputs_are_looked_at() {
        let mut input = Input::new();
        for behind in [Behind::Byte(1), Behind::Lines] {
            for place in 0..GUARD + 3 + GUARD {
                input.hold(b"abc", behind);
                assert!(input.is(b"abc", behind) && input.bytes() == b"abc");
                input.memory[place] ^= 1;
                assert!(!input.is(b"abc", behind), "{place}");
            }
        }
    }
}
