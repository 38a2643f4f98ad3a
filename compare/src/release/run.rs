//! A run: fixed examples, then each call until it has answered its share.

use super::calls::{Ours, Text, CIRCLES, LINES, LINE_AND_CIRCLE, PAIR};
use super::draw::{self, Numbers};
use super::judge::{finite, of_lines, of_pair, Answer};
use super::listed::{ends, is_accepted, listed, Found, FORMS};
use super::rows::{Asked, Room};
use super::score::{Measure, Score, Stronger};
use super::{examples, kernels, kinds, paths};
use crate::crossing::CALLS;
use crate::inputs::values::COORDINATE_LIMIT;
use crate::large::cut::RULE;
use crate::large::faults;
use crate::rng::Rng;

pub struct Run {
    rng: Rng,
    ours: Ours,
    text: Text,
    calls: [Score; 4],
    large: Score,
    /// Without large arcs and with them, in the order of the forms.
    rows: [Vec<Score>; 2],
    room: Room,
    /// Examples that are answered otherwise.
    wrong: u64,
    enough: u64,
}

const RISE: Stronger = Stronger {
    sentence: "an overlap's first parameter is at most its second",
    is_false: |answer| answer.class == 2 && answer.values[0] > answer.values[1],
};

const IN_THE_BOX: Stronger = Stronger {
    sentence: "each point lies in the box of the coordinates",
    is_false: |answer| answer.values.iter().any(|x| x.abs() > COORDINATE_LIMIT),
};

impl Run {
    pub fn new(ours: Ours, text: Text, seed: u64, enough: u64) -> Run {
        let of_pairs = CALLS[PAIR].classes;
        let calls = [LINES, LINE_AND_CIRCLE, CIRCLES, PAIR].map(|call| {
            let measure = match call {
                LINES | LINE_AND_CIRCLE => Measure::Parameter,
                _ => Measure::Coordinate,
            };
            let score = Score::new(CALLS[call].name, measure, CALLS[call].classes);
            let score = score.with_kinds(kinds::of_call(call));
            match call {
                LINES => score.with_stronger(RISE),
                PAIR => score.with_stronger(IN_THE_BOX),
                _ => score,
            }
        });
        let rows = [false, true].map(|large| {
            let each = FORMS.iter().map(|(form, own)| {
                let name = format!(
                    "{form:?}, {}{}",
                    if *own { "one path" } else { "two paths" },
                    if large { ", large arcs" } else { "" }
                );
                let score = Score::new(name, Measure::Coordinate, of_pairs);
                score.of_rows().with_stronger(IN_THE_BOX)
            });
            each.collect()
        });
        let large = Score::new("pair with large arcs", Measure::Coordinate, of_pairs);
        Run {
            rng: Rng::new(seed),
            ours,
            text,
            calls,
            large: large
                .with_kinds(kinds::of_large())
                .with_stronger(IN_THE_BOX),
            rows,
            room: Room::default(),
            wrong: 0,
            enough,
        }
    }

    /// Every call, until there are so many answers.
    pub fn inputs(&mut self, count: u64) {
        let tenth = count / 10;
        for call in [LINES, LINE_AND_CIRCLE, CIRCLES] {
            while self.calls[call].answered < tenth && self.goes_on() {
                self.kernel(call);
            }
        }
        while self.calls[PAIR].answered < 3 * tenth && self.goes_on() {
            let numbers = draw::pair(false, &mut self.rng);
            self.call(PAIR, &numbers);
        }
        while self.large.answered < 2 * tenth && self.goes_on() {
            self.large_pair();
        }
        self.rows_only(2 * tenth);
    }

    /// Every listing, until there are so many rows.
    pub fn rows_only(&mut self, count: u64) {
        while self.rows_answered() < count && self.goes_on() {
            for large in [false, true] {
                self.layout(large);
            }
        }
    }

    pub fn examples(&mut self) {
        for example in examples::all() {
            if let Some(what) = example.wrong(&self.ours, self.text) {
                println!("release: the example \"{}\" {what}", example.name);
                self.wrong += 1;
            }
        }
    }

    fn scores(&self) -> impl Iterator<Item = &Score> {
        let rows = self.rows.iter().flatten();
        self.calls.iter().chain([&self.large]).chain(rows)
    }

    fn rows_answered(&self) -> u64 {
        self.rows.iter().flatten().map(|score| score.answered).sum()
    }

    /// Breaches of each sentence, and differences.
    pub fn found(&self) -> ([u64; 3], u64) {
        let mut breaches = [0; 3];
        for score in self.scores() {
            for (sum, of_one) in breaches.iter_mut().zip(score.breaches()) {
                *sum += of_one;
            }
        }
        (breaches, self.scores().map(Score::differences).sum())
    }

    pub fn goes_on(&self) -> bool {
        let (breaches, differences) = self.found();
        breaches.iter().sum::<u64>() + differences + self.wrong < self.enough
    }

    fn kernel(&mut self, call: usize) {
        let rng = &mut self.rng;
        match call {
            LINES => {
                let numbers = draw::lines(rng);
                self.call(call, &numbers);
            }
            LINE_AND_CIRCLE => {
                let numbers = kernels::line_and_circle(rng);
                self.call(call, &numbers);
            }
            _ => {
                let numbers = kernels::circles(rng);
                self.call(call, &numbers);
            }
        }
    }

    /// A call of the list. What is accepted is said by the scope's table.
    fn call<const N: usize>(&mut self, call: usize, numbers: &[f64; N]) {
        let mut out = [f64::NAN; 4];
        let word = (self.ours.call)(call, numbers, &mut out);
        let score = &mut self.calls[call];
        if let Some(fault) = CALLS[call].fault(numbers) {
            score.refused += 1;
            if word != fault.word() {
                score.differ(|| format!("of {numbers:?} returned {word:#x}, expected {fault:?}"));
            }
            return;
        }
        let ours = Answer::new(word, &out);
        let text = (self.text)(call, numbers);
        let on = (*numbers).into();
        match call {
            LINES => score.judge(&on, &ours, &text, of_lines),
            PAIR => {
                let ends = ends(&on[..].try_into().expect("four vertices and an epsilon"));
                score.judge(&on, &ours, &text, |answer| of_pair(answer, &ends));
            }
            _ => score.judge(&on, &ours, &text, finite),
        }
    }

    fn large_pair(&mut self) {
        let numbers = draw::pair(true, &mut self.rng);
        let (mut words, mut floats) = ([u64::MAX; 12], [f64::NAN; 16]);
        let word = (self.ours.pair_large)(&numbers, &mut words, &mut floats);
        let score = &mut self.large;
        if let Some(fault) = faults::of_pair(&RULE, &numbers).next() {
            score.refused += 1;
            if word != fault.word() {
                score.differ(|| format!("of {numbers:?} returned {word:#x}, expected {fault:?}"));
            }
            return;
        }
        let [first, second] = [0, 1].map(|owner| RULE.parts(faults::segment_of(&numbers, owner)));
        let results = first.len() * second.len();
        if word != results as u64 {
            score.differ(|| format!("of {numbers:?} returned {word:#x}, expected {results}"));
            return;
        }
        let mut at = 0;
        for (v, half) in &first {
            for (u, other) in &second {
                let on = parts(*v, *half, *u, *other, numbers[12]);
                let named = &words[3 * at..3 * at + 2];
                if *named != [*half, *other] {
                    score.differ(|| format!("result {at} of {numbers:?} is named {named:?}"));
                }
                let ours = Answer::new(words[3 * at + 2], &floats[4 * at..4 * at + 4]);
                let text = (self.text)(PAIR, &on);
                let ends = ends(&on);
                score.judge(&on.into(), &ours, &text, |answer| of_pair(answer, &ends));
                at += 1;
            }
        }
    }

    /// Every listing of a layout.
    fn layout(&mut self, large: bool) {
        let layout = paths::layout(large, &mut self.rng);
        for own in [false, true] {
            if !is_accepted(large, &layout, own) {
                continue;
            }
            let found = Found::new(self.text, large, listed(&layout, own), layout.epsilon);
            for (at, (form, of_one)) in FORMS.into_iter().enumerate() {
                if of_one != own {
                    continue;
                }
                let asked = Asked {
                    large,
                    form,
                    own,
                    layout: &layout,
                };
                let score = &mut self.rows[usize::from(large)][at];
                self.room
                    .ask(&self.ours, asked, &found, score, &mut self.rng);
            }
        }
    }

    /// Prints the counts, and answers how many breaches and differences there were; what never occurred counts as one.
    pub fn report(&self) -> u64 {
        let wrong: u64 = self.scores().map(Score::report).sum();
        for score in self.calls.iter().chain([&self.large]) {
            score.show();
        }
        let answers: u64 = self.scores().map(|score| score.answered).sum();
        let (breaches, differences) = self.found();
        println!(
            "release: {answers} answers, breaches of the three sentences {breaches:?}, {differences} differences"
        );
        wrong + self.wrong
    }
}

/// The pair call's numbers for two parts, with each half in place of the bulge that plays no part.
fn parts(v: [f64; 5], half: u64, u: [f64; 5], other: u64, epsilon: f64) -> Numbers {
    let ([a, b, c, d, e], [f, g, h, i, j]) = (v, u);
    let (half, other) = (half as f64, other as f64);
    [a, b, c, d, e, half, f, g, h, i, j, other, epsilon]
}
