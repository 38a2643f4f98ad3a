//! Where what is told changes from one float to the next.

use super::model::{Findings, VALUES};

/// By the two values of an entry, the lesser one first.
#[derive(Default)]
pub struct Changes([[u64; 7]; 7]);

impl Changes {
    pub fn count(&mut self, one: &Findings, other: &Findings) {
        for (a, b) in one.iter().zip(other).filter(|(a, b)| a != b) {
            self.0[*a.min(b) as usize][*a.max(b) as usize] += 1;
        }
    }

    /// Prints how often each came up, and answers how many never did.
    pub fn report(&self) -> u64 {
        let mut unmet = 0;
        let mut counts = Vec::new();
        for (a, b) in (0..7).flat_map(|b| (0..b).map(move |a| (a, b))) {
            let count = self.0[a][b];
            unmet += u64::from(count == 0);
            counts.push(format!("{} or {} {count}", VALUES[a], VALUES[b]));
        }
        println!("findings: from one float to the next {}", counts.join(", "));
        unmet
    }
}
