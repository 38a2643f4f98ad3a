//! A short list of numbers: the operands of a call, or its answer.

use std::ops::Deref;

/// Four vertices and an epsilon are the most that a call takes.
pub const MOST: usize = 13;

#[derive(Clone, Copy)]
pub struct Numbers {
    count: usize,
    values: [f64; MOST],
}

impl Numbers {
    /// The same except for the number at `place`.
    pub fn with(mut self, place: usize, number: f64) -> Numbers {
        self.put(place, number);
        self
    }

    pub fn put(&mut self, place: usize, number: f64) {
        self.values[place] = number;
    }
}

impl<const N: usize> From<[f64; N]> for Numbers {
    fn from(given: [f64; N]) -> Numbers {
        let mut values = [0.0; MOST];
        values[..N].copy_from_slice(&given);
        Numbers { count: N, values }
    }
}

impl Deref for Numbers {
    type Target = [f64];

    fn deref(&self) -> &[f64] {
        &self.values[..self.count]
    }
}

/// Whether the numbers are the same: zeros of either sign are equal, and so are any two NaNs.
pub fn same(ours: &[f64], expected: &[f64]) -> bool {
    let one = |(a, b): (&f64, &f64)| a == b || a.is_nan() && b.is_nan();
    ours.len() == expected.len() && ours.iter().zip(expected).all(one)
}

/// The bits of each number.
pub fn hex(numbers: &[f64]) -> String {
    let words: Vec<String> = numbers
        .iter()
        .map(|x| format!("{:016x}", x.to_bits()))
        .collect();
    words.join(" ")
}
