//! Compares one answer after the other with the model's, and counts what came up: by how the input was made and by its answer,
//! rows by class, and differences.

use super::answering::Answering;
use super::kinds::{Case, Kinds};
use super::model::{answer, CLASSES};
use super::verdict::{judge, Verdict};
use crate::program::{Printed, Way};

const SHOWN: u64 = 5;
/// The refusals that an input can get.
const REFUSALS: [u64; 4] = [16, 18, 5, 8];

/// Inputs that were made in one way.
pub struct Group {
    name: String,
    /// What must be among its answers: a refusal, or a listing.
    must: Option<u64>,
    inputs: u64,
    listed: u64,
    refused: [u64; 4],
}

impl Group {
    pub fn new(name: impl Into<String>, must: Option<u64>) -> Group {
        Group {
            name: name.into(),
            must,
            inputs: 0,
            listed: 0,
            refused: [0; 4],
        }
    }

    fn count(&mut self, refused: Option<u64>) {
        self.inputs += 1;
        match refused {
            None => self.listed += 1,
            Some(number) => {
                let at = REFUSALS.iter().position(|n| *n == number);
                self.refused[at.expect("no input reaches another")] += 1;
            }
        }
    }

    fn answers(&self) -> String {
        let by = |(number, count): (u64, u64)| {
            (count > 0).then(|| format!("{count} refused by {number}"))
        };
        let refused = REFUSALS.into_iter().zip(self.refused).filter_map(by);
        let listed = (self.listed > 0).then(|| format!("{} listed", self.listed));
        let answers: Vec<String> = listed.into_iter().chain(refused).collect();
        format!("{} inputs: {}", self.inputs, answers.join(", "))
    }

    fn is_met(&self) -> bool {
        let at = |number: u64| REFUSALS.iter().position(|n| *n == number);
        match self.must {
            None => self.listed > 0,
            Some(number) => at(number).is_some_and(|at| self.refused[at] > 0),
        }
    }
}

pub struct Score {
    answering: Answering,
    groups: Vec<Group>,
    whole: Group,
    kinds: Kinds,
    rows: [u64; 6],
    other_zeros: u64,
    differences: u64,
}

impl Score {
    pub fn new(answering: Answering) -> Score {
        let kinds = Kinds::new(answering.is_piped());
        Score {
            answering,
            groups: Vec::new(),
            whole: Group::new("all", None),
            kinds,
            rows: [0; 6],
            other_zeros: 0,
            differences: 0,
        }
    }

    /// Starts a group, and answers its index.
    pub fn group(&mut self, name: impl Into<String>, must: Option<u64>) -> usize {
        self.groups.push(Group::new(name, must));
        self.groups.len() - 1
    }

    /// Asks for the answer to an input. Fails only if the program cannot be run.
    pub fn compare(&mut self, group: usize, input: &[u8], way: Way) -> Result<(), String> {
        let answer = answer(input);
        let expected = answer.printed();
        let Printed { output, error } = self.answering.to(input, way)?;
        match judge(&output, &expected) {
            _ if !error.is_empty() => self.differ(group, input, &error, ""),
            Verdict::Same => {}
            Verdict::SameNumbers => self.other_zeros += 1,
            Verdict::Different => self.differ(group, input, &output, &expected),
        }
        let refused = answer.refused();
        self.groups[group].count(refused);
        self.whole.count(refused);
        if refused.is_none() {
            for row in answer.rows() {
                self.rows[row.class as usize] += 1;
            }
        }
        let in_pieces = matches!(way, Way::InPieces(_));
        self.kinds.count(&Case {
            input,
            answer: &answer,
            in_pieces,
        });
        Ok(())
    }

    fn differ(&mut self, group: usize, input: &[u8], printed: &[u8], expected: &str) {
        self.differences += 1;
        if self.differences > SHOWN {
            return;
        }
        let name = &self.groups[group].name;
        println!("listed, {name}: {} bytes {}", input.len(), front(input));
        let mut ours = printed.split_inclusive(|byte| *byte == b'\n');
        let mut lines = expected.split_inclusive('\n').map(str::as_bytes);
        // the first line that differs
        loop {
            let (line, stated) = (ours.next(), lines.next());
            if line != stated || line.is_none() {
                println!("  printed  {}", front(line.unwrap_or_default()));
                println!("  expected {}", front(stated.unwrap_or_default()));
                return;
            }
        }
    }

    /// Prints the counts, and answers how many differences there were; what never occurred counts as one.
    pub fn report(&self) -> u64 {
        for group in &self.groups {
            println!("listed, {}: {}", group.name, group.answers());
        }
        let rows = CLASSES.iter().zip(self.rows).skip(1);
        let rows: Vec<String> = rows
            .map(|(class, count)| format!("{class} {count}"))
            .collect();
        println!(
            "listed: {}; rows {}; {} with another zero or NaN, {} differences",
            self.whole.answers(),
            rows.join(", "),
            self.other_zeros,
            self.differences
        );
        let groups = self.groups.iter().filter(|group| !group.is_met());
        let unmet: Vec<String> = groups
            .map(|group| match group.must {
                Some(number) => format!("{}, refused by {number}", group.name),
                None => format!("{}, listed", group.name),
            })
            .chain(self.kinds.report())
            .collect();
        for what in &unmet {
            println!("listed: NEVER MET: {what}");
        }
        self.differences + unmet.len() as u64
    }
}

/// The first bytes, to be read by a person.
fn front(bytes: &[u8]) -> String {
    const MOST: usize = 160;
    let dots = if bytes.len() > MOST { ".." } else { "" };
    let bytes = &bytes[..bytes.len().min(MOST)];
    format!("\"{}\"{dots}", bytes.escape_ascii())
}
