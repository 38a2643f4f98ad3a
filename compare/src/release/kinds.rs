//! Kinds of input that must have come up in each call, read from the numbers and from the answer.

use super::calls::{CIRCLES, LINES, LINE_AND_CIRCLE, PAIR};
use super::judge::{is_copy, Answer, Ends, ARCS, OVERLAPPING};
use crate::crossing::faults::two_to;
use crate::inputs::values::{COORDINATE_LIMIT, LINE_LIMIT, SMALLEST};
use crate::met::Met;
use crate::numbers::Numbers;

/// The numbers of a call, and the library's answer. Of a pair with large arcs and of a row, the numbers are the parts', with each
/// half in place of the bulge that plays no part.
#[derive(Clone, Copy)]
pub struct Case {
    pub on: Numbers,
    pub answer: Answer,
}

impl Case {
    fn epsilon(&self) -> f64 {
        self.on[self.on.len() - 1]
    }

    fn is(&self, class: u64) -> bool {
        self.answer.class == class
    }

    fn meets(&self) -> bool {
        self.answer.class > 0
    }

    fn ends(&self) -> Ends {
        [0, 3, 6, 9].map(|at| [self.on[at], self.on[at + 1]])
    }

    /// Whether the answer is OverlappingArcs from one of the ends to another.
    fn overlaps(&self, from: usize, to: usize) -> bool {
        if !self.is(ARCS) {
            return false;
        }
        let [a, b, c, d] = self.answer.values;
        let ends = self.ends();
        let is = |point: [f64; 2], end: usize| is_copy(&point, &ends[end]);
        is([a, b], from) && is([c, d], to)
    }
}

/// How far a number is from another above 0, in floats.
fn floats_from(x: f64, other: f64) -> i64 {
    x.to_bits() as i64 - other.to_bits() as i64
}

/// At a number, at the float below it, at the float above.
fn at_and_beside(
    met: &mut Met<Case>,
    name: &str,
    limit: f64,
    number: impl Fn(&Case) -> f64 + Copy + 'static,
) {
    for (by, where_at) in [
        (-1, "the float below"),
        (0, "exactly"),
        (1, "the float above"),
    ] {
        met.add(
            format!("{name}, {where_at} {limit:e}"),
            move |case: &Case| floats_from(number(case).abs(), limit) == by,
        );
    }
}

pub fn of_call(call: usize) -> Met<Case> {
    let mut met = Met::new();
    met.add("epsilon is 2^-40", |case: &Case| {
        case.epsilon() == SMALLEST && case.meets()
    });
    met.add("epsilon is the float above 2^-40", |case: &Case| {
        case.epsilon() == SMALLEST.next_up() && case.meets()
    });
    met.add("epsilon is 1/2", |case: &Case| {
        case.epsilon() == 0.5 && case.meets()
    });
    match call {
        LINES => of_lines(&mut met),
        LINE_AND_CIRCLE => of_line_and_circle(&mut met),
        CIRCLES => of_circles(&mut met),
        PAIR => of_pair(&mut met),
        _ => unreachable!("no call of the list"),
    }
    met
}

fn way(case: &Case, from: usize) -> [f64; 2] {
    let n = &case.on;
    [n[from + 2] - n[from], n[from + 3] - n[from + 1]]
}

fn of_lines(met: &mut Met<Case>) {
    let divisor = |case: &Case| {
        let ([a, b], [c, d]) = (way(case, 0), way(case, 4));
        (a * d - b * c).abs()
    };
    met.add(
        "the divisor is at most two floats above epsilon",
        move |case| (0..3).contains(&floats_from(divisor(case), case.epsilon())),
    );
    met.add(
        "the divisor is at most two floats below epsilon",
        move |case| (-2..0).contains(&floats_from(divisor(case), case.epsilon())),
    );
    met.add("the divisor is 0, and they meet", move |case| {
        divisor(case) == 0.0 && case.meets()
    });
    met.add("a point on a line", |case| {
        way(case, 0) == [0.0; 2] && way(case, 4) != [0.0; 2] && case.is(1)
    });
    let overlap = |case: &Case| case.is(OVERLAPPING);
    met.add("an overlap by x", move |case| {
        overlap(case) && way(case, 4)[0].abs() >= case.epsilon()
    });
    met.add("an overlap by y", move |case| {
        overlap(case) && way(case, 4)[0].abs() < case.epsilon()
    });
    // before the maximum and the minimum
    let quotients = |case: &Case| {
        let n = &case.on;
        let [x, y] = way(case, 4);
        let by_y = x.abs() < case.epsilon();
        let (at, u) = if by_y { (1, y) } else { (0, x) };
        let (a, b) = ((n[at] - n[at + 4]) / u, (n[at + 2] - n[at + 4]) / u);
        [a.min(b), a.max(b)]
    };
    met.add("the maximum with 0 plays a part", move |case| {
        overlap(case) && quotients(case)[0] < 0.0
    });
    met.add("the minimum with 1 plays a part", move |case| {
        overlap(case) && quotients(case)[1] > 1.0
    });
    met.add("the first parameter is above 1", move |case| {
        overlap(case) && case.answer.values[0] > 1.0
    });
    met.add("a parameter beyond 2^60", |case| {
        case.answer.values[0].abs() > two_to(60)
    });
}

fn of_line_and_circle(met: &mut Met<Case>) {
    let dx = |case: &Case| case.on[2] - case.on[0];
    at_and_beside(met, "dx", LINE_LIMIT, dx);
    limits_of_circle(met, 4);
    met.add("a point on the circle", |case| {
        way(case, 0) == [0.0; 2] && case.meets()
    });
    met.add("the circle passes through the start", |case| {
        case.meets() && case.answer.values[0] == 0.0
    });
    met.add("a parameter beyond 2^60", |case| {
        case.answer.values[0].abs() > two_to(60)
    });
}

fn of_circles(met: &mut Met<Case>) {
    for from in [0, 3] {
        limits_of_circle(met, from);
    }
    let apart = |case: &Case| {
        let (x, y) = (case.on[4] - case.on[1], case.on[5] - case.on[2]);
        (x * x + y * y).sqrt()
    };
    met.add(
        "centres at most two floats more than epsilon apart",
        move |case| (0..3).contains(&floats_from(apart(case), case.epsilon())) && case.meets(),
    );
    met.add(
        "centres at most two floats less than epsilon apart",
        move |case| (-2..0).contains(&floats_from(apart(case), case.epsilon())) && case.meets(),
    );
    met.add("one circle, with two radii", |case| {
        case.is(3) && case.on[0] != case.on[3]
    });
}

/// Radius and centre from a place on, of a circle that is met.
fn limits_of_circle(met: &mut Met<Case>, from: usize) {
    for (name, limit) in [("2^-42", two_to(-42)), ("2^47", two_to(47))] {
        met.add(
            format!("number {from}, a radius, is {name}"),
            move |case: &Case| case.on[from] == limit && case.meets(),
        );
    }
    for center in [from + 1, from + 2] {
        met.add(
            format!("number {center}, of a centre, is 2^48"),
            move |case: &Case| case.on[center].abs() == two_to(48) && case.meets(),
        );
    }
}

/// Also with large arcs and for their parts.
fn of_any_pair(met: &mut Met<Case>) {
    for at in [2, 8] {
        at_and_beside(
            met,
            &format!("number {at}, a bulge"),
            LINE_LIMIT,
            move |case| case.on[at],
        );
        met.add(
            format!("number {at} is a half circle's"),
            move |case: &Case| case.on[at].abs() == 1.0 && case.meets(),
        );
        met.add(
            format!("number {at} is of an arc whose chord is 2^-40"),
            move |case: &Case| {
                let [from, to] = [at - 2, at + 1].map(|i: usize| [case.on[i], case.on[i + 1]]);
                let (x, y) = (to[0] - from[0], to[1] - from[1]);
                case.on[at].abs() >= LINE_LIMIT
                    && (x * x + y * y).sqrt() == SMALLEST
                    && case.meets()
            },
        );
    }
    met.add("a coordinate at the limit", |case| {
        case.meets()
            && case
                .ends()
                .iter()
                .flatten()
                .any(|x| x.abs() == COORDINATE_LIMIT)
    });
    // from which end to which: of both segments in the text's order
    for (from, to) in [(2, 3), (2, 1), (1, 3), (0, 3), (2, 0), (0, 1), (1, 0)] {
        met.add(
            format!("one circle, from end {from} to end {to}"),
            move |case: &Case| case.overlaps(from, to),
        );
    }
    met.add("one circle, with -0 as a coordinate", |case| {
        case.is(ARCS) && case.answer.values.iter().any(|x| x.to_bits() == 1 << 63)
    });
    met.add("a point beyond 2^40", |case| {
        case.answer.values.iter().any(|x| x.abs() > two_to(40))
    });
}

fn of_pair(met: &mut Met<Case>) {
    of_any_pair(met);
    met.add("a bulge that plays no part is NaN", |case| {
        case.on[5].is_nan() && case.meets()
    });
}

/// Of the pair call with large arcs.
pub fn of_large() -> Met<Case> {
    let mut met = Met::new();
    of_any_pair(&mut met);
    for (at, owner) in [(5, 0), (11, 2)] {
        for half in [1, 2] {
            // half 1 ends at the cut point, half 2 starts there
            let cut = if half == 1 { owner + 1 } else { owner };
            met.add(
                format!("one circle, the cut point of half {half}, end {cut}"),
                move |case: &Case| {
                    let is_half = case.on[at] == f64::from(half);
                    is_half
                        && (0..4)
                            .any(|other| case.overlaps(cut, other) || case.overlaps(other, cut))
                },
            );
        }
        let bulge = at - 3;
        met.add(
            format!("number {bulge} is of a half of bulge 16"),
            move |case: &Case| {
                let half = (257f64.sqrt() - 1.0) / 16.0;
                case.on[at] > 0.0 && case.on[bulge].abs() == half && case.meets()
            },
        );
    }
    met
}
