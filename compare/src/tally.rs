//! Counts what was compared, and shows the first differences.

const SHOWN: u64 = 5;

pub struct Tally {
    name: &'static str,
    compared: u64,
    differences: u64,
}

impl Tally {
    pub fn new(name: &'static str) -> Tally {
        Tally {
            name,
            compared: 0,
            differences: 0,
        }
    }

    /// Counts one comparison. If it is a difference, `what` says for which operands, and how.
    pub fn add(&mut self, same: bool, what: impl FnOnce() -> String) {
        self.compared += 1;
        if same {
            return;
        }
        self.differences += 1;
        if self.differences <= SHOWN {
            println!("{} of {}", self.name, what());
        }
    }

    /// Prints the counts, and answers how many differences there were.
    pub fn report(&self) -> u64 {
        println!(
            "{} {} compared, {} differences",
            self.name, self.compared, self.differences
        );
        self.differences
    }
}
