//! Judges both sides' answers to a call, and counts what came up: answers by class, breaches, differences, the largest numbers,
//! and how often a stronger sentence is false.

use super::judge::{Answer, Breach};
use super::kinds::Case;
use crate::met::Met;
use crate::numbers::{hex, Numbers};

const SHOWN: u64 = 5;
const SIDES: [&str; 2] = ["the library", "the Rust text"];

/// What the numbers of an answer are.
#[derive(Clone, Copy, PartialEq)]
pub enum Measure {
    Coordinate,
    Parameter,
}

/// A sentence that looks true, and whether an answer shows that it is false.
pub struct Stronger {
    pub sentence: &'static str,
    pub is_false: fn(&Answer) -> bool,
}

pub struct Score {
    name: String,
    measure: Measure,
    /// The classes' names by their numbers, and from which on they occur.
    classes: &'static [&'static str],
    from: usize,
    pub answered: u64,
    by_class: [u64; 6],
    pub refused: u64,
    largest: f64,
    largest_on: Option<Case>,
    stronger: Option<Stronger>,
    false_times: u64,
    first_false: Option<Case>,
    breaches: [[u64; 3]; 2],
    differences: u64,
    kinds: Met<Case>,
}

impl Score {
    pub fn new(
        name: impl Into<String>,
        measure: Measure,
        classes: &'static [&'static str],
    ) -> Score {
        Score {
            name: name.into(),
            measure,
            classes,
            from: 0,
            answered: 0,
            by_class: [0; 6],
            refused: 0,
            largest: 0.0,
            largest_on: None,
            stronger: None,
            false_times: 0,
            first_false: None,
            breaches: [[0; 3]; 2],
            differences: 0,
            kinds: Met::new(),
        }
    }

    /// Rows have no class 0.
    pub fn of_rows(self) -> Score {
        Score { from: 1, ..self }
    }

    pub fn with_kinds(self, kinds: Met<Case>) -> Score {
        Score { kinds, ..self }
    }

    pub fn with_stronger(self, stronger: Stronger) -> Score {
        Score {
            stronger: Some(stronger),
            ..self
        }
    }

    /// Judges both answers on these numbers, and holds them to each other.
    pub fn judge(
        &mut self,
        on: &Numbers,
        ours: &Answer,
        text: &Answer,
        breach: impl Fn(&Answer) -> Option<Breach>,
    ) {
        self.answered += 1;
        self.by_class[text.class.min(5) as usize] += 1;
        for (side, answer) in [ours, text].into_iter().enumerate() {
            if let Some(breach) = breach(answer) {
                self.breaches[side][breach as usize] += 1;
                if self.breaches[side].iter().sum::<u64>() <= SHOWN {
                    println!("{}: {breach:?}, {}", SIDES[side], self.shown(on, answer));
                }
            }
        }
        if !ours.is(text) {
            let (ours, text) = (self.shown(on, ours), hex(&text.values));
            self.differ(|| format!("{ours}, expected {text}"));
        }
        let case = Case {
            on: *on,
            answer: *ours,
        };
        for x in ours.values {
            if x.abs() > self.largest {
                self.largest = x.abs();
                self.largest_on = Some(case);
            }
        }
        if self.stronger.as_ref().is_some_and(|s| (s.is_false)(ours)) {
            self.false_times += 1;
            self.first_false.get_or_insert(case);
        }
        self.kinds.count(&case);
    }

    pub fn differ(&mut self, what: impl FnOnce() -> String) {
        self.differences += 1;
        if self.differences <= SHOWN {
            println!("release, {}: {}", self.name, what());
        }
    }

    fn shown(&self, on: &[f64], answer: &Answer) -> String {
        let Answer { class, values } = answer;
        format!("{} of {}: {class}, {}", self.name, hex(on), hex(values))
    }

    /// Breaches of each sentence, on both sides.
    pub fn breaches(&self) -> [u64; 3] {
        [0, 1, 2].map(|at| self.breaches[0][at] + self.breaches[1][at])
    }

    pub fn differences(&self) -> u64 {
        self.differences
    }

    pub fn by_class(&self) -> &[u64] {
        &self.by_class[self.from..self.classes.len()]
    }

    /// Prints the counts, and answers how many breaches and differences there were; what never occurred counts as one.
    pub fn report(&self) -> u64 {
        let names = &self.classes[self.from..];
        let by_class = names.iter().zip(self.by_class());
        let by_class: Vec<String> = by_class.map(|(n, count)| format!("{n} {count}")).collect();
        let measure = match self.measure {
            Measure::Coordinate => "coordinate",
            Measure::Parameter => "parameter",
        };
        let [library, text] = &self.breaches;
        println!(
            "release, {}: {} answers ({}), {} refused; the largest {measure} {:e}; breaches {library:?} of the library, \
             {text:?} of the Rust text, {} differences",
            self.name,
            self.answered,
            by_class.join(", "),
            self.refused,
            self.largest,
            self.differences
        );
        let mut never = self
            .kinds
            .report(&format!("release, {}", self.name), "input");
        if let Some(Stronger { sentence, .. }) = self.stronger {
            println!(
                "release, {}: false {} times: {sentence}",
                self.name, self.false_times
            );
            if self.false_times == 0 {
                never.push(format!("no counterexample to: {sentence}"));
            }
        }
        let classes = names.iter().zip(self.by_class());
        never.extend(
            classes
                .filter(|(_, n)| **n == 0)
                .map(|(name, _)| format!("class {name}")),
        );
        for what in &never {
            println!("release, {}: never occurred: {what}", self.name);
        }
        self.breaches().iter().sum::<u64>() + self.differences + never.len() as u64
    }

    /// Prints the first answer for which the stronger sentence is false, and the one with the largest number.
    pub fn show(&self) {
        if let (Some(stronger), Some(Case { on, answer })) = (&self.stronger, &self.first_false) {
            let shown = self.shown(on, answer);
            println!("release, not true: {}: {shown}", stronger.sentence);
        }
        if let Some(Case { on, answer }) = &self.largest_on {
            println!("release, the largest: {}", self.shown(on, answer));
        }
    }
}
