//! Numbers to lend, with others before and behind them; afterwards it shows which have changed.

/// Places before a lent slice and behind it: whole vertices and whole rows.
const GUARD: usize = 24;
/// The first of the numbers beside a slice. No two are the same, so that a call that reads one answers something else.
const BESIDE: u64 = 0x4a5a_c3c3_0000_0000;

pub struct Lent {
    memory: Vec<f64>,
    before: Vec<u64>,
}

impl Lent {
    pub fn holding(numbers: &[f64]) -> Lent {
        let beside = |place: usize| f64::from_bits(BESIDE + place as u64);
        let memory: Vec<f64> = (0..GUARD)
            .map(beside)
            .chain(numbers.iter().copied())
            .chain((GUARD..2 * GUARD).map(beside))
            .collect();
        let before = memory.iter().map(|x| x.to_bits()).collect();
        Lent { memory, before }
    }

    /// This many places to write to, each with a different number.
    pub fn room(places: usize) -> Lent {
        let numbers: Vec<f64> = (0..places)
            .map(|place| f64::from_bits(BESIDE + (2 * GUARD + place) as u64))
            .collect();
        Lent::holding(&numbers)
    }

    pub fn slice(&self) -> &[f64] {
        &self.memory[GUARD..self.memory.len() - GUARD]
    }

    pub fn slice_mut(&mut self) -> &mut [f64] {
        let end = self.memory.len() - GUARD;
        &mut self.memory[GUARD..end]
    }

    /// The first `count` numbers of the slice, if it has as many and no other place has changed.
    pub fn written(&self, count: usize) -> Option<&[f64]> {
        let written = self.slice().get(..count)?;
        let places = self.memory.iter().zip(&self.before).enumerate();
        let mut others = places.filter(|(place, _)| !(GUARD..GUARD + count).contains(place));
        others
            .all(|(_, (now, before))| now.to_bits() == *before)
            .then_some(written)
    }

    pub fn is_unchanged(&self) -> bool {
        self.written(0).is_some()
    }
}

#[cfg(test)]
mod tests {
    use super::*;

    #[test]
    fn every_place_is_looked_at() {
        const ROOM: usize = 7;
        for place in 0..GUARD + ROOM + GUARD {
            let mut lent = Lent::room(ROOM);
            assert!(lent.is_unchanged() && lent.written(ROOM + 1).is_none());
            lent.memory[place] = -0.0;
            assert!(!lent.is_unchanged());
            let inside = (GUARD..GUARD + ROOM).contains(&place);
            assert_eq!(lent.written(ROOM).is_some(), inside);
            assert_eq!(lent.written(1).is_some(), place == GUARD);
        }
    }
}
