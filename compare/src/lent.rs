//! A slice to lend, with bytes before and behind it, that shows afterwards what was written.

/// A pattern that no answer has.
const UNTOUCHED: u64 = 0x7ff4_a5a5_5a5a_c3c3;
const BEFORE: usize = 2;
const LENGTH: usize = 10;

pub struct Lent {
    memory: [f64; LENGTH],
    room: usize,
}

impl Lent {
    pub fn new(room: usize) -> Lent {
        Lent {
            memory: [f64::from_bits(UNTOUCHED); LENGTH],
            room,
        }
    }

    pub fn slice(&mut self) -> &mut [f64] {
        &mut self.memory[BEFORE..BEFORE + self.room]
    }

    /// The first `count` numbers of the slice, if nothing was written but these.
    pub fn written(&self, count: usize) -> Option<&[f64]> {
        let untouched = |part: &[f64]| part.iter().all(|x| x.to_bits() == UNTOUCHED);
        let end = BEFORE + count;
        let clean = count <= self.room
            && untouched(&self.memory[..BEFORE])
            && untouched(&self.memory[end..]);
        clean.then(|| &self.memory[BEFORE..end])
    }
}
