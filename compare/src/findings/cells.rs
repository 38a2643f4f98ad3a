//! How often each value came up in each entry of each branch.

use std::collections::BTreeMap;

use super::branch::Branch;
use super::model::{Findings, ENTRIES, VALUES};

pub struct Cells(BTreeMap<Branch, [[u64; 7]; 4]>);

impl Cells {
    pub fn new() -> Cells {
        Cells(
            Branch::all()
                .into_iter()
                .map(|b| (b, [[0; 7]; 4]))
                .collect(),
        )
    }

    /// Counts a pair. Says whether its cells are in the table.
    pub fn count(&mut self, branch: Branch, findings: Findings) -> bool {
        let Some(counts) = self.0.get_mut(&branch) else {
            return false;
        };
        let values = branch.values();
        for ((counts, values), finding) in counts.iter_mut().zip(values).zip(findings) {
            counts[finding as usize] += 1;
            if !values.contains(&finding) {
                return false;
            }
        }
        true
    }

    /// How often the rarest of these cells came up.
    pub fn rarest(&self, branch: Branch, findings: Findings) -> u64 {
        let counts = self.0.get(&branch).into_iter().flatten().zip(findings);
        let counts = counts.map(|(counts, finding)| counts[finding as usize]);
        counts.min().unwrap_or(u64::MAX)
    }

    fn each(&self) -> impl Iterator<Item = (Branch, usize, u64, u64)> + '_ {
        self.0.iter().flat_map(|(branch, counts)| {
            let entries = branch.values().into_iter().enumerate();
            entries.flat_map(move |(entry, values)| {
                let of =
                    move |value: &u64| (*branch, entry, *value, counts[entry][*value as usize]);
                values.iter().map(of)
            })
        })
    }

    /// How often the rarest came up.
    pub fn least(&self) -> u64 {
        let counts = self.each().map(|(_, _, _, count)| count);
        counts.min().unwrap_or(0)
    }

    /// Prints the table, and answers how many cells came up less often.
    pub fn report(&self, least: u64) -> u64 {
        for (branch, counts) in &self.0 {
            let of_entry = |(entry, values): (usize, &[u64])| {
                let each = values.iter().map(|value| {
                    let count = counts[entry][*value as usize];
                    format!("{} {count}", VALUES[*value as usize])
                });
                let each: Vec<String> = each.collect();
                format!("{} {}", ENTRIES[entry], each.join(", "))
            };
            let entries = branch.values().into_iter().enumerate().map(of_entry);
            let entries: Vec<String> = entries.collect();
            println!("findings: {branch}: {}", entries.join("; "));
        }
        let short = self.each().filter(|(.., count)| *count < least);
        let mut shorts = 0;
        for (branch, entry, value, count) in short {
            shorts += 1;
            let (entry, value) = (ENTRIES[entry], VALUES[value as usize]);
            println!("findings: TOO FEW: {branch}, {entry}, {value}: {count}");
        }
        let (cells, least) = (self.each().count(), self.least());
        println!(
            "findings: {} branches, {cells} cells, the rarest {least} times",
            self.0.len()
        );
        shorts
    }
}
