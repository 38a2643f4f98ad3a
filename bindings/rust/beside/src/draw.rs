//! Inputs: whole numbers and others, small and large, segments that share ends or run back.

use crate::caller::Numbers;

/// Coordinates up to these.
const SIZES: [u64; 5] = [4, 16, 64, 1_000, 1_000_000];
const EPSILONS: [f64; 4] = [1.0 / 1024.0, 1e-5, 0.5, 1e-8];

/// Numbers that look random and are the same in every run.
pub struct Draw(u64);

impl Draw {
    pub fn new() -> Self {
        Draw(0x9e37_79b9_7f4a_7c15)
    }

    fn below(&mut self, n: u64) -> u64 {
        self.0 ^= self.0 << 13;
        self.0 ^= self.0 >> 7;
        self.0 ^= self.0 << 17;
        (self.0 >> 11) % n
    }

    fn coordinate(&mut self, size: u64, whole: bool) -> f64 {
        let n = self.below(2 * size + 1) as f64 - size as f64;
        if whole { n } else { n + self.below(1 << 20) as f64 / f64::from(1 << 20) }
    }

    /// The k-th input.
    pub fn numbers(&mut self, k: u64) -> Numbers {
        let (size, whole) = (SIZES[k as usize % SIZES.len()], k % 2 == 0);
        let mut v = [[0.0; 3]; 4];
        for vertex in &mut v {
            let [x, y] = [self.coordinate(size, whole), self.coordinate(size, whole)];
            let bulge = (self.below(131_073) as f64 - 65_536.0) / 65_536.0;
            *vertex = [x, y, if self.below(2) == 0 { 0.0 } else { bulge }];
        }
        // a common start, the same segment twice, and the same one backwards
        match k % 13 {
            0 => v[2] = v[0],
            1 => (v[2], v[3]) = (v[0], v[1]),
            2 => (v[2], v[3]) = ([v[1][0], v[1][1], -v[0][2]], v[0]),
            _ => {}
        }
        Numbers { vertices: v, epsilon: EPSILONS[self.below(4) as usize] }
    }
}
