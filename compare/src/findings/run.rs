//! A run: our call beside the Rust text and its copy with a log, on one pair after the other.

use std::cell::RefCell;
use std::ops::Range;

use cavalier_contours::log::Event;

use super::branch::Branch;
use super::cells::Cells;
use super::changes::Changes;
use super::lent::{Room, Slices};
use super::model::{findings, Findings, INSIDE, NEAR_CENTRE, NEAR_END, NEAR_START};
use super::story::{self, Story};
use super::ties::{ties, Tie};
use super::{draw, examples, Ours};
use crate::crossing::{limits, Call, Sites, CALLS, NO_ROOM, PAIRS};
use crate::inputs::values::epsilon;
use crate::inputs::{Kind, Pair};
use crate::met::Met;
use crate::numbers::{hex, same, Numbers};
use crate::rng::Rng;

const SHOWN: u64 = 5;
/// So many pairs like a rare one.
const TRIES: u64 = 24;

pub struct Run {
    pub rng: Rng,
    ours: Ours,
    pub cells: Cells,
    ties: Met<Tie>,
    changes: Changes,
    sites: Sites,
    turn: usize,
    answered: u64,
    refused: u64,
    no_room: u64,
    differences: u64,
    enough: u64,
    events: Vec<Event>,
}

/// What the Rust says of accepted numbers.
struct Told {
    class: u64,
    values: Numbers,
    story: Story,
    branch: Branch,
    findings: Findings,
}

impl Run {
    /// It ends after so many differences.
    pub fn new(ours: Ours, seed: u64, enough: u64) -> Run {
        Run {
            rng: Rng::new(seed),
            ours,
            cells: Cells::new(),
            ties: super::ties::kinds(),
            changes: Changes::default(),
            sites: Sites::default(),
            turn: 0,
            answered: 0,
            refused: 0,
            no_room: 0,
            differences: 0,
            enough,
            events: Vec::new(),
        }
    }

    pub fn goes_on(&self) -> bool {
        self.differences < self.enough
    }

    pub fn examples(&mut self) {
        for example in examples::all() {
            if let Some(what) = example.wrong(self.ours) {
                self.differ(&example.numbers(), &what);
            }
        }
    }

    /// Pairs as the pair call is compared on, accepted ones and others.
    pub fn drawn(&mut self, count: u64) {
        for turn in 0..count {
            if !self.goes_on() {
                return;
            }
            let kind = match turn % 8 {
                6 => Kind::Beside,
                7 => Kind::Patterns,
                _ => Kind::Accepted,
            };
            let mut pair = Pair::draw(kind, &mut self.rng);
            // else the epsilon, which is checked first, would hide nearly every other fault
            if turn % 16 < 8 {
                pair.epsilon = epsilon(&mut self.rng);
            }
            let input = numbers(&pair, &mut self.rng);
            self.once(&input);
        }
    }

    /// Every special number in every place, and faults in every two.
    pub fn damaged(&mut self, rounds: u64) {
        let call: &Call = &CALLS[PAIRS];
        let specials = limits::specials();
        for _ in 0..rounds {
            let accepted = limits::accepted(call, &mut self.rng);
            let mut inputs = Vec::new();
            limits::one_at_a_time(&accepted, &specials, |n| inputs.push(*n));
            limits::two_at_once(&accepted, &specials, &mut self.rng, |n| inputs.push(*n));
            limits::two_faults(call, &accepted, &mut self.rng, |n| inputs.push(*n));
            for _ in 0..64 {
                let pair = limits::short_chords(&mut self.rng);
                inputs.push(numbers(&pair, &mut self.rng));
            }
            for input in inputs {
                if !self.goes_on() {
                    return;
                }
                self.once(&input);
            }
        }
    }

    /// At least so many pairs made for rare cells, then more until each cell came up so often, or until there were so many. One
    /// in sixteen is followed to a place where a finding changes from one float to the next.
    pub fn made(&mut self, draws: Range<u64>, least: u64) {
        for turn in 0..draws.end {
            let may_end = turn >= draws.start && turn % 1024 == 0;
            if may_end && self.cells.least() >= least || !self.goes_on() {
                return;
            }
            let pair = draw::draw(&mut self.rng);
            if !pair.is_accepted() {
                continue;
            }
            let input = numbers(&pair, &mut self.rng);
            let rarest = self.once(&input);
            if turn % 16 == 0 {
                self.beside(&input);
            }
            self.around(input, rarest, least);
        }
    }

    /// As long as a pair has a cell that came up too rarely, pairs like it.
    fn around(&mut self, mut input: Numbers, mut rarest: Option<u64>, least: u64) {
        for _ in 0..TRIES {
            if rarest.is_none_or(|count| count >= least) || !self.goes_on() {
                return;
            }
            let other = draw::shaken(&input, &mut self.rng);
            let of_other = self.once(&other);
            if of_other.is_some_and(|count| count < least) {
                (input, rarest) = (other, of_other);
            }
        }
    }

    /// Inputs on either side of a place where what is told changes, as one number moves.
    fn beside(&mut self, input: &Numbers) {
        let Some(told) = self.told(input) else { return };
        let way = draw::way(input, &mut self.rng);
        let events = RefCell::new(Vec::new());
        let holds = |n: &[f64]| {
            if CALLS[PAIRS].fault(n).is_some() {
                return false;
            }
            let (_, story) = story::run(n, &mut events.borrow_mut());
            story.is_ok_and(|story| findings(&story) == told.findings)
        };
        let over = way.over(holds, &mut self.rng);
        for n in &over {
            self.once(n);
        }
        // the first two are neighbours
        if let [below, above, ..] = over[..] {
            if let [Some(below), Some(above)] = [below, above].map(|n| self.told(&n)) {
                self.changes.count(&below.findings, &above.findings);
            }
        }
    }

    /// The Rust's answer and what was found, if the numbers are accepted and the log can be read.
    fn told(&mut self, n: &Numbers) -> Option<Told> {
        if CALLS[PAIRS].fault(n).is_some() {
            return None;
        }
        match self.judged(n) {
            Ok(told) => Some(told),
            Err(what) => {
                self.differ(n, &what);
                None
            }
        }
    }

    /// The copy must answer what the text answers, bit for bit.
    fn judged(&mut self, n: &Numbers) -> Result<Told, String> {
        let (class, values) = (CALLS[PAIRS].text)(n);
        let ((copied, copy), story) = story::run(n, &mut self.events);
        let bits = |values: &[f64]| values.iter().map(|x| x.to_bits()).collect::<Vec<u64>>();
        if class != copied || bits(&values) != bits(&copy) {
            let (values, copy) = (hex(&values), hex(&copy));
            return Err(format!(
                "the copy answers {copied}, {copy}, the text {class}, {values}"
            ));
        }
        let story = story?;
        let branch = Branch::of(n, &story);
        let findings = findings(&story);
        Ok(Told {
            class,
            values,
            story,
            branch,
            findings,
        })
    }

    /// Makes our call, and compares all that it gives. If there is an answer, tells how often the rarest of its cells came up.
    pub fn once(&mut self, n: &Numbers) -> Option<u64> {
        self.turn += 1;
        let room = Room::of_turn(self.turn);
        let mut slices = Slices::new(room);
        let (points, found) = slices.both();
        let given = (self.ours.findings)(n, points, found);
        if !room.is_enough() {
            self.no_room += 1;
            if given != NO_ROOM || !slices.are_untouched() {
                self.differ(n, &format!("{given:#x} in a room of {room:?}"));
            }
            return None;
        }
        if let Some(fault) = CALLS[PAIRS].fault(n) {
            self.refused += 1;
            self.sites.count(&CALLS[PAIRS], n, fault);
            if given != fault.word() || !slices.are_untouched() {
                self.differ(n, &format!("{given:#x}, expected {:#x}", fault.word()));
            }
            self.as_plain(n, given, None);
            return None;
        }
        let told = self.told(n)?;
        self.answered += 1;
        if !self.cells.count(told.branch, told.findings) {
            let Told {
                branch, findings, ..
            } = told;
            self.differ(n, &format!("held to be impossible: {branch}, {findings:?}"));
        }
        ties(n, &told.story, |tie| self.ties.count(&tie));
        let written = slices.written();
        let right = |(points, found): (&[f64], &[u64])| {
            given == told.class && filled(points, &told.values) && found == told.findings
        };
        if !written.is_some_and(right) {
            let got = written.map(|(points, found)| (hex(points), found.to_vec()));
            let Told {
                class,
                values,
                branch,
                findings,
                ..
            } = &told;
            let expected = format!("{class}, {}, {findings:?} ({branch})", hex(values));
            self.differ(n, &format!("{given:#x}, {got:?}, expected {expected}"));
        }
        if let Some((points, found)) = written {
            let points: Vec<f64> = points.to_vec();
            if let Some(what) = broken(n, &told.story, given, &points, found) {
                self.differ(n, &what);
            }
            self.as_plain(n, given, Some(&points));
        }
        Some(self.cells.rarest(told.branch, told.findings))
    }

    /// The call without findings must give the same, bit for bit.
    fn as_plain(&mut self, n: &Numbers, given: u64, points: Option<&[f64]>) {
        let mut plain = [f64::NAN; 4];
        let word = (self.ours.pair)(n, &mut plain);
        let bits = |x: &f64| x.to_bits();
        let same = points.is_none_or(|p| p.iter().map(bits).eq(plain.iter().map(bits)));
        if word != given || !same {
            self.differ(n, &format!("{given:#x}, without findings {word:#x}"));
        }
    }

    fn differ(&mut self, n: &Numbers, what: &str) {
        self.differences += 1;
        if self.differences <= SHOWN {
            println!("findings of {}: {what}", hex(n));
        }
    }

    /// Prints the counts, and answers how many differences there were; a cell that came up too rarely counts as one, and so does
    /// a tie or a site of a refusal that never did.
    pub fn report(&self, least: u64) -> u64 {
        let short = self.cells.report(least);
        println!(
            "findings: {} answered, {} refused, {} without room, {} differences",
            self.answered, self.refused, self.no_room, self.differences
        );
        let changes = self.changes.report();
        let unmet = self.ties.report("findings", "tie");
        for what in &unmet {
            println!("findings: NEVER MET: {what}");
        }
        let sites = self.sites.report(&CALLS[PAIRS]);
        self.differences + short + changes + unmet.len() as u64 + sites
    }
}

pub fn numbers(pair: &Pair, rng: &mut Rng) -> Numbers {
    (CALLS[PAIRS].operands)(pair, rng)
}

/// Whether these are the values, and +0 in the other places.
fn filled(ours: &[f64], values: &[f64]) -> bool {
    let (front, rest) = ours.split_at(values.len());
    same(front, values) && rest.iter().all(|x| x.to_bits() == 0)
}

/// What a user may rely on: a computed point of which all arcs say yes is in the answer, in its own place if there are two; and a
/// point of the answer that is no end of a segment is such a point.
fn broken(n: &[f64], story: &Story, class: u64, points: &[f64], found: &[u64]) -> Option<String> {
    let places = match class {
        _ if story.arcs == [false; 2] => return None,
        0 => 0,
        1 | 2 => 1,
        3 => 2,
        _ => return None,
    };
    let mut computed = story.computed();
    if story.exchanged {
        computed.swap(0, 1);
    }
    let answer: Vec<[f64; 2]> = points
        .chunks(2)
        .take(places)
        .map(|p| [p[0], p[1]])
        .collect();
    let counts = |point: usize| {
        let of_arcs = (0..2).filter(|arc| story.arcs[*arc]);
        let yes = of_arcs.map(|arc| is_yes(found[2 * point + arc]));
        yes.fold(true, |all, yes| all && yes)
    };
    for point in 0..2 {
        let place = if places == 2 { point } else { 0 };
        if counts(point) && computed[point] != answer.get(place).copied() {
            return Some(format!("point {point} counted and is not in the answer"));
        }
    }
    for (place, p) in answer.iter().enumerate() {
        let is_end = [0, 3, 6, 9].iter().any(|at| [n[*at], n[*at + 1]] == *p);
        let mut points = 0..2;
        let of_place = |point: usize| places == 1 || point == place;
        let is_counted = points.any(|i| of_place(i) && counts(i) && computed[i] == Some(*p));
        if !is_end && !is_counted {
            return Some(format!("{p:?} is no end and no point that counted"));
        }
    }
    None
}

fn is_yes(value: u64) -> bool {
    [NEAR_CENTRE, INSIDE, NEAR_START, NEAR_END].contains(&value)
}
