//! Stand-ins for both sides, right or with a defect. They answer what the text does, but for the defect; listings are written by
//! themselves.

use std::cell::Cell;

use super::calls::{self, Lent, Ours, Text, CIRCLES, LINES, LINE_AND_CIRCLE, PAIR};
use super::draw::Numbers;
use super::judge::{Answer, ARCS, OVERLAPPING};
use super::listed::{ends, Form, Found, Written, FORMS};
use crate::crossing::faults::two_to;
use crate::crossing::CALLS;
use crate::large::cut::RULE;
use crate::large::faults::{of_pair, segment_of};
use crate::listings::model::Listed;

thread_local! {
    /// The library's defect, the text's, and of which listing alone it is, by its number.
    static OURS: Cell<&'static str> = const { Cell::new("") };
    static TEXT: Cell<&'static str> = const { Cell::new("") };
    static LISTING: Cell<Option<(bool, usize)>> = const { Cell::new(None) };
}

/// Gives each side a defect, or none if the name is empty.
pub fn set(ours: &'static str, text: &'static str) {
    OURS.set(ours);
    TEXT.set(text);
    LISTING.set(None);
}

/// Gives one of the library's listings a defect.
pub fn set_listing(defect: &'static str, large: bool, at: usize) {
    set(defect, "");
    LISTING.set(Some((large, at)));
}

/// Each defect, and the number of the sentence that it breaks, less 1.
pub const DEFECTS: [(&str, usize); 14] = [
    ("the maximum with 0 left out", 2),
    ("the minimum with 1 left out", 2),
    ("the first point made of two ends", 1),
    ("the second point made of two ends", 1),
    ("a zero's sign lost", 1),
    ("an end a float off", 1),
    ("the divisor unguarded", 0),
    ("dx unguarded", 0),
    ("the distance of centres unguarded", 0),
    ("far points are infinite", 0),
    ("far parameters are infinite", 0),
    ("a NaN in the last place of one point", 0),
    ("a NaN where nothing meets", 0),
    ("a NaN in an unused parameter's place", 0),
];

pub const TEXT_STAND_IN: Text = |call, numbers| defective(TEXT.get(), call, numbers);

pub const STAND_IN: Ours = Ours {
    call,
    pair_large,
    listing,
};

fn text(call: usize, numbers: &[f64]) -> Answer {
    (calls::TEXT)(call, numbers)
}

/// What the text answers, with a defect.
fn defective(defect: &str, call: usize, numbers: &[f64]) -> Answer {
    let mut answer = text(call, numbers);
    match call {
        LINES => lines(defect, numbers, &mut answer),
        LINE_AND_CIRCLE if defect == "dx unguarded" && numbers[0] == numbers[2] => {
            answer = Answer::new(1, &[(numbers[3] - numbers[1]) / 0.0 * 0.0]);
        }
        CIRCLES if defect == "the distance of centres unguarded" => {
            let (x, y) = (numbers[4] - numbers[1], numbers[5] - numbers[2]);
            let distance = (x * x + y * y).sqrt();
            if distance == 0.0 {
                answer = Answer::new(1, &[numbers[1] + x / distance, numbers[2] + y / distance]);
            }
        }
        PAIR => pair(defect, numbers, &mut answer),
        _ => {}
    }
    let far = match call {
        LINES | LINE_AND_CIRCLE => defect == "far parameters are infinite",
        _ => defect == "far points are infinite",
    };
    if far {
        let infinite = |x: f64| if x.abs() > two_to(43) { x / 0.0 } else { x };
        answer.values = answer.values.map(infinite);
    }
    answer
}

fn lines(defect: &str, n: &[f64], answer: &mut Answer) {
    let (v, u) = ([n[2] - n[0], n[3] - n[1]], [n[6] - n[4], n[7] - n[5]]);
    let w = [n[0] - n[4], n[1] - n[5]];
    let perp_dot = |a: [f64; 2], b: [f64; 2]| a[0] * b[1] - a[1] * b[0];
    if defect == "the divisor unguarded" && perp_dot(v, u) == 0.0 {
        let by = perp_dot(v, u);
        *answer = Answer::new(1, &[perp_dot(u, w) / by, perp_dot(v, w) / by]);
    }
    if defect == "a NaN in an unused parameter's place" {
        answer.values[3] = f64::NAN;
    }
    if answer.class != OVERLAPPING {
        return;
    }
    let axis = usize::from(u[0].abs() < n[8]);
    let (a, b) = (w[axis] / u[axis], (n[2 + axis] - n[4 + axis]) / u[axis]);
    match defect {
        "the maximum with 0 left out" => answer.values[0] = a.min(b),
        "the minimum with 1 left out" => answer.values[1] = a.max(b),
        _ => {}
    }
}

fn pair(defect: &str, n: &[f64], answer: &mut Answer) {
    let nan = match defect {
        "a NaN in the last place of one point" => (1..=2).contains(&answer.class),
        "a NaN where nothing meets" => answer.class == 0,
        _ => false,
    };
    if nan {
        answer.values[3] = f64::NAN;
    }
    if answer.class != ARCS {
        return;
    }
    let other_y = |y: f64| {
        let ends = ends(n.try_into().expect("a pair's numbers"));
        let mut others = ends.iter().map(|end| end[1]);
        others.find(|other| *other != y).unwrap_or(y)
    };
    let values = &mut answer.values;
    match defect {
        "the first point made of two ends" => values[1] = other_y(values[1]),
        "the second point made of two ends" => values[3] = other_y(values[3]),
        "a zero's sign lost" => *values = values.map(|x| x + 0.0),
        "an end a float off" => values[0] = values[0].next_up(),
        _ => {}
    }
}

fn call(call: usize, numbers: &[f64], out: &mut [f64]) -> u64 {
    if let Some(fault) = CALLS[call].fault(numbers) {
        return fault.word();
    }
    let answer = defective(OURS.get(), call, numbers);
    out[..4].copy_from_slice(&answer.values);
    answer.class
}

fn pair_large(numbers: &Numbers, results: &mut [u64], out: &mut [f64]) -> u64 {
    if let Some(fault) = of_pair(&RULE, numbers).next() {
        return fault.word();
    }
    let mut at = 0;
    for (v, half) in RULE.parts(segment_of(numbers, 0)) {
        for (u, other) in RULE.parts(segment_of(numbers, 1)) {
            let ([a, b, c, d, e], [f, g, h, i, j]) = (v, u);
            let on = [a, b, c, d, e, 0.0, f, g, h, i, j, 0.0, numbers[12]];
            let answer = defective(OURS.get(), PAIR, &on);
            results[3 * at..3 * at + 3].copy_from_slice(&[half, other, answer.class]);
            out[4 * at..4 * at + 4].copy_from_slice(&answer.values);
            at += 1;
        }
    }
    at as u64
}

fn listing(large: bool, form: Form, listed: Listed, epsilon: f64, lent: Lent) -> u64 {
    let own = matches!(listed, Listed::Own(_));
    let at = FORMS.iter().position(|one| *one == (form, own));
    let only = LISTING.get();
    let text: Text = if only.is_none() || only == at.map(|at| (large, at)) {
        |call, numbers| defective(OURS.get(), call, numbers)
    } else {
        text
    };
    let found = Found::new(text, large, listed, epsilon);
    let all: Vec<&Written> = found.of(form).collect();
    let words = if large { 5 } else { 3 };
    let room = lent.rows.points.len() / 4;
    let (rows, next): (Vec<&Written>, u64) = if form == Form::Page {
        let from = lent.span.position;
        let end = from.saturating_add(lent.span.budget).min(found.all);
        let span = all.iter().filter(|row| (from..end).contains(&row.position));
        let stop = span.clone().nth(room);
        let next = stop.map_or(end, |row| row.position);
        (span.take(room).copied().collect(), next)
    } else {
        (all, 0)
    };
    for (at, row) in rows.iter().enumerate() {
        lent.rows.indices[words * at..words * (at + 1)].copy_from_slice(&row.words[..words]);
        lent.rows.points[4 * at..4 * at + 4].copy_from_slice(&row.answer.values);
    }
    lent.rows.counts[0] = rows.len() as u64;
    if form == Form::Page {
        lent.rows.counts[2] = next;
    }
    0
}
