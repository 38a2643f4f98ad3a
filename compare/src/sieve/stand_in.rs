//! A stand-in for the library, right or with a defect in its sieve, its blocks or its marks. It takes the rows from the model, and
//! loses those that a library with this defect would lose.

use std::cell::{Cell, RefCell};
use std::collections::HashSet;

use super::forms::{Form, Plain};
use super::lines::{beside_circle, Rule, Side, RULE};
use super::marks::{grain, HELD};
use super::places::{could_be_sieved, is_sieved, places_of};
use super::Ours;
use crate::capi::Rows;
use crate::crossing::NO_ROOM;
use crate::large::ask::Kind;
use crate::large::model::{on, row_room as row_room_large, Large, WORDS};
use crate::large::Ours as OursLarge;
use crate::listings::model::{no_row_left, row_room, Listed, Row};
use crate::listings::stand_in::{key, Key};
use crate::month::model::{Report, WORDS as REPORT};

/// Defects of the sieve's test, and of the one that follows it.
pub const OF_TEST: [&str; 17] = [
    "31/32 for 33/32",
    "1 for 33/32",
    "33/32 less a part in 2^34",
    "0 for -1/32",
    "-1/32 less a part in 2^34",
    "a limit forgotten if d is below 0",
    "any length is usual",
    "lengths from 2^-6 on are usual",
    "lengths from a part in 2^20 below 2^-5 on are usual",
    "any epsilon is usual",
    "epsilons up to 2^-9 are usual",
    "epsilons up to a part in 2^20 above 2^-10 are usual",
    "parallel lines are apart from half an epsilon on",
    "parallel lines are apart from a last bit below epsilon on",
    "a first arc is judged as a line",
    "a second arc is judged as a line",
    "a line is far from an arc by its radius alone",
];

/// Defects of blocks.
pub const OF_BLOCKS: [&str; 7] = [
    "a block's last index forgotten",
    "a block's first index forgotten",
    "a later block's first index forgotten",
    "a run's last index forgotten",
    "a last block of one index forgotten",
    "a second block forgotten",
    "the index 4095 forgotten",
];

/// Defects of marks.
pub const OF_MARKS: [&str; 13] = [
    "a mark forgotten",
    "a mark set one place off",
    "a mark set one place off, the other way",
    "a word's last mark forgotten",
    "only the first pair of a mark is looked at",
    "only the last pair of a mark is looked at",
    "the first row behind those that are held back is lost",
    "the last row is lost",
    "the last pair of all is forgotten",
    "marked pairs are listed again from the front",
    "8 if all rows fit exactly",
    "rows that do not fit are left out",
    "rows are written before 8",
];

thread_local! {
    static DEFECT: Cell<&'static str> = const { Cell::new("") };
    /// The only form that has the defect, if it is only one.
    static ONLY: Cell<Option<Form>> = const { Cell::new(None) };
    /// The last listings, since many calls are on the same paths.
    static LAST: RefCell<Option<(Key, Plain)>> = const { RefCell::new(None) };
    static LAST_LARGE: RefCell<Option<(Key, Large)>> = const { RefCell::new(None) };
}

/// Gives the stand-in a defect, or none if the name is empty: in each form, or in only one.
pub fn set(defect: &'static str, only: Option<Form>) {
    DEFECT.set(defect);
    ONLY.set(only);
}

pub const STAND_IN: Ours = Ours {
    full: |listed, epsilon, lent| plain(Form::Full, listed, epsilon, lent, None, None),
    boxed: |listed, epsilon, boxes, lent| {
        plain(Form::Boxed, listed, epsilon, lent, Some(boxes), None)
    },
    counted: |listed, epsilon, lent, report| {
        plain(Form::Counted, listed, epsilon, lent, None, Some(report))
    },
    large: OursLarge {
        full: |listed, epsilon, lent| large(Kind::Full, listed, epsilon, lent, None, None),
        page: |_, _, _, _| unreachable!("no pages here"),
        boxed: |listed, epsilon, boxes, lent| {
            large(Kind::Boxed, listed, epsilon, lent, Some(boxes), None)
        },
        counted: |listed, epsilon, lent, report| {
            large(Kind::Counted, listed, epsilon, lent, None, Some(report))
        },
        pair: |_, _, _| unreachable!("no pairs here"),
    },
};

/// The rows that are listed, by their place among all, or that 8 is answered, with or without rows written before.
struct Answer {
    rows: Vec<usize>,
    refused: bool,
    written: bool,
}

/// What is left of the rows of a form with room for so many.
fn left(form: Form, listed: Listed, epsilon: f64, rows: &[&Row], room: usize) -> Answer {
    let is = |defect: &str| DEFECT.get() == defect && ONLY.get().is_none_or(|only| only == form);
    let paths = listed.paths();
    let (first, second) = (paths[0], paths[paths.len() - 1]);
    let sizes = [first.segments(), second.segments()];
    let boxed = matches!(form, Form::Boxed | Form::Large(Kind::Boxed));
    let mut kept: Vec<usize> = (0..rows.len()).collect();
    let sides = [first, second].map(Side::all);
    let rule = rule(&is);
    // what is judged wrongly makes more listings sieved
    let judged = |side: &&Side| rule.judges(side, 1, epsilon);
    let many = 8 * sides[1].iter().filter(judged).count() >= 7 * sizes[1];
    if (is_sieved(sizes[0], &sides[1], epsilon) || many && could_be_sieved(sizes)) && !boxed {
        let owned: Vec<Row> = rows.iter().map(|row| (*row).clone()).collect();
        let places = places_of(listed, &owned);
        kept.retain(|at| {
            let [i, j] = rows[*at].indices.map(|index| index as usize);
            let (v, u) = (&sides[0][i], &sides[1][j]);
            let lost = rule.takes(v, u, epsilon) || forgotten(&is, places[*at], j);
            !lost && !(is("a line is far from an arc by its radius alone") && is_beside(v, u))
        });
    }
    // the rows are counted by the first walk, and found again by the second
    let marked = rows.len() > HELD && room > HELD && room < sizes[0] * sizes[1];
    let mut refused = room < kept.len();
    let mut written = false;
    if marked {
        if is("8 if all rows fit exactly") {
            refused |= room == rows.len();
        }
        if is("rows that do not fit are left out") && refused {
            refused = false;
            kept.truncate(room);
        }
        written = is("rows are written before 8");
        kept = by_marks(&is, rows, kept, sizes);
    }
    Answer {
        rows: kept,
        refused,
        written,
    }
}

/// Whether the first is a line, and farther from the second's circle than its radius.
fn is_beside(v: &Side, u: &Side) -> bool {
    match (v.circle, u.circle) {
        (None, Some(circle)) => {
            let [_, [distance, radius]] = beside_circle(v, &circle, 0.0);
            distance > radius
        }
        _ => false,
    }
}

fn rule(is: &dyn Fn(&str) -> bool) -> Rule {
    let part = |exponent: i32| 1.0 - 2f64.powi(-exponent);
    let mut rule = RULE;
    match () {
        _ if is("31/32 for 33/32") => rule.after = 31.0 / 32.0,
        _ if is("1 for 33/32") => rule.after = 1.0,
        _ if is("33/32 less a part in 2^34") => rule.after *= part(34),
        _ if is("0 for -1/32") => rule.before = 0.0,
        _ if is("-1/32 less a part in 2^34") => rule.before *= part(34),
        _ if is("a limit forgotten if d is below 0") => rule.both = false,
        _ if is("any length is usual") => rule.least = 0.0,
        _ if is("lengths from 2^-6 on are usual") => rule.least /= 4.0,
        _ if is("lengths from a part in 2^20 below 2^-5 on are usual") => {
            rule.least *= part(20) * part(20);
        }
        _ if is("any epsilon is usual") => rule.epsilons[1] = 1.0,
        _ if is("epsilons up to 2^-9 are usual") => rule.epsilons[1] *= 2.0,
        _ if is("epsilons up to a part in 2^20 above 2^-10 are usual") => {
            rule.epsilons[1] /= part(20);
        }
        _ if is("parallel lines are apart from half an epsilon on") => rule.apart = 0.5,
        _ if is("parallel lines are apart from a last bit below epsilon on") => {
            rule.apart = part(53);
        }
        _ if is("a first arc is judged as a line") => rule.arcs[0] = true,
        _ if is("a second arc is judged as a line") => rule.arcs[1] = true,
        _ => {}
    }
    rule
}

/// Whether a row's place in its blocks is one that is forgotten.
fn forgotten(is: &dyn Fn(&str) -> bool, at: (usize, usize, bool), j: usize) -> bool {
    let (block, place, last) = at;
    match () {
        _ if is("a block's last index forgotten") => place == 63,
        _ if is("a block's first index forgotten") => place == 0,
        _ if is("a later block's first index forgotten") => block > 0 && place == 0,
        _ if is("a run's last index forgotten") => last,
        _ if is("a last block of one index forgotten") => block > 0 && place == 0 && last,
        _ if is("a second block forgotten") => block == 1,
        _ if is("the index 4095 forgotten") => j == 4095,
        _ => false,
    }
}

/// The rows that the second walk finds.
fn by_marks(
    is: &dyn Fn(&str) -> bool,
    rows: &[&Row],
    kept: Vec<usize>,
    sizes: [usize; 2],
) -> Vec<usize> {
    let (stride, shift) = grain(sizes);
    let mark = |at: usize| {
        let [i, j] = rows[at].indices.map(|index| index as usize);
        i * stride + (j >> shift)
    };
    let (held, behind) = kept.split_at(HELD.min(kept.len()));
    let j = |at: usize| rows[at].indices[1];
    let share = 1 << shift;
    let last_pair = [sizes[0] as u64 - 1, sizes[1] as u64 - 1];
    let one_off = |by: usize, back: usize| {
        let set: HashSet<usize> = behind.iter().map(|at| mark(*at) + by).collect();
        let found = |at: &usize| set.contains(&(mark(*at) + back));
        behind.iter().copied().filter(found).collect()
    };
    let some = |keeps: &dyn Fn(usize) -> bool| {
        let all = behind.iter().copied();
        all.filter(|at| keeps(*at)).collect::<Vec<usize>>()
    };
    let behind: Vec<usize> = match () {
        _ if is("a mark forgotten") => {
            let forgotten = behind.get(behind.len() / 2).map(|at| mark(*at));
            some(&|at| Some(mark(at)) != forgotten)
        }
        _ if is("a mark set one place off") => one_off(1, 0),
        _ if is("a mark set one place off, the other way") => one_off(0, 1),
        _ if is("a word's last mark forgotten") => some(&|at| mark(at) % 64 != 63),
        _ if is("only the first pair of a mark is looked at") => some(&|at| j(at) % share == 0),
        _ if is("only the last pair of a mark is looked at") => {
            some(&|at| j(at) % share == share - 1)
        }
        _ if is("the first row behind those that are held back is lost") => {
            behind.get(1..).unwrap_or_default().to_vec()
        }
        _ if is("the last row is lost") => behind[..behind.len().saturating_sub(1)].to_vec(),
        _ if is("the last pair of all is forgotten") => some(&|at| rows[at].indices != last_pair),
        _ if is("marked pairs are listed again from the front") => {
            let again = held.iter().chain(behind).copied();
            again.take(behind.len()).collect()
        }
        _ => behind.to_vec(),
    };
    [held, &behind].concat()
}

fn plain(
    form: Form,
    listed: Listed,
    epsilon: f64,
    lent: Rows,
    boxes: Option<&mut [f64]>,
    report: Option<&mut [u64]>,
) -> u64 {
    let paths = key(listed, epsilon);
    let faults = listed.faults(epsilon).next();
    if lent.counts.len() < 2 {
        return NO_ROOM;
    }
    if let Some(fault) = faults {
        return fault.word();
    }
    LAST.with_borrow_mut(|last| {
        if last.as_ref().is_none_or(|(of, _)| *of != paths) {
            *last = Some((paths, Plain::of(listed, epsilon)));
        }
        let (_, given) = last.as_ref().expect("it was put there");
        let all = match form {
            Form::Boxed => &given.boxed,
            _ => &given.rows.rows,
        };
        let all: Vec<&Row> = all.iter().collect();
        let pairs = match form {
            Form::Boxed => given.looked_at,
            _ => given.rows.pairs,
        };
        let room = row_room(lent.indices.len(), lent.points.len());
        let found = left(form, listed, epsilon, &all, room);
        let words = |at: usize| {
            let Row { indices, class, .. } = all[at];
            vec![indices[0], indices[1], *class]
        };
        let refused = write(&found, &all, pairs, words, lent);
        count(report, &all, pairs, &found);
        if refused {
            return no_row_left().word();
        }
        if let Some(boxes) = boxes {
            boxes[..given.index.len()].copy_from_slice(&given.index);
        }
        0
    })
}

fn large(
    kind: Kind,
    listed: Listed,
    epsilon: f64,
    lent: Rows,
    boxes: Option<&mut [f64]>,
    report: Option<&mut [u64]>,
) -> u64 {
    let paths = key(listed, epsilon);
    LAST_LARGE.with_borrow_mut(|last| {
        if last.as_ref().is_none_or(|(of, _)| *of != paths) {
            *last = Some((paths, Large::new(listed, epsilon)));
        }
        let (_, given) = last.as_ref().expect("it was put there");
        let places: Vec<usize> = match kind {
            Kind::Boxed => given.boxed_rows.clone(),
            _ => (0..given.rows()).collect(),
        };
        let all: Vec<&Row> = places.iter().map(|at| &given.found.rows[*at]).collect();
        let pairs = match kind {
            Kind::Boxed => given.boxed_pairs,
            _ => given.found.pairs,
        };
        let room = row_room_large(lent.indices.len(), lent.points.len());
        let own = matches!(listed, Listed::Own(_));
        let found = left(Form::Large(kind), on(&given.cuts, own), epsilon, &all, room);
        let words = |at: usize| -> Vec<u64> {
            let words: [u64; WORDS] = given.words(places[at]);
            words.to_vec()
        };
        let refused = write(&found, &all, pairs, words, lent);
        count(report, &all, pairs, &found);
        if refused {
            return no_row_left().word();
        }
        if let Some(boxes) = boxes {
            boxes[..given.index.len()].copy_from_slice(&given.index);
        }
        0
    })
}

/// Writes the rows and the counts. Answers whether it refuses.
fn write(
    found: &Answer,
    all: &[&Row],
    pairs: u64,
    words: impl Fn(usize) -> Vec<u64>,
    lent: Rows,
) -> bool {
    let rows: &[usize] = match (found.refused, found.written) {
        (true, true) => &found.rows[..1],
        (true, false) => &[],
        _ => &found.rows,
    };
    for (k, at) in rows.iter().enumerate() {
        let words = words(*at);
        let places = words.len();
        lent.indices[places * k..places * (k + 1)].copy_from_slice(&words);
        lent.points[4 * k..4 * k + 4].copy_from_slice(&all[*at].points);
    }
    if !found.refused {
        lent.counts[..2].copy_from_slice(&[rows.len() as u64, pairs]);
    }
    found.refused
}

/// Adds to the report, if there is one.
fn count(report: Option<&mut [u64]>, all: &[&Row], pairs: u64, found: &Answer) {
    let Some(words) = report else {
        return;
    };
    let mut before = Report([0; REPORT]);
    before.0.copy_from_slice(&words[..REPORT]);
    let after = if found.refused {
        before.refused(no_row_left().number)
    } else {
        let rows = found.rows.iter().map(|at| all[*at].clone()).collect();
        before.accepted(&crate::listings::model::Rows { rows, pairs })
    };
    words[..REPORT].copy_from_slice(&after.0);
}
