//! Listings over the text's pair function: each large arc is cut, each two segments are a pair, and neighbours that meet at their
//! joint make no row.

use super::calls::{Text, PAIR};
use super::draw::Numbers;
use super::judge::{Answer, Ends};
use crate::boxed::index::{floats_needed, meet, Boxes};
use crate::large::cut::{Cut, RULE};
use crate::large::faults;
use crate::listings::layout::Layout;
use crate::listings::model::{Listed, Path, Row};

#[derive(Clone, Copy, Debug, PartialEq)]
pub enum Form {
    Full,
    Page,
    Boxed,
    Counted,
}

/// Every listing, and whether it is of one path by itself.
pub const FORMS: [(Form, bool); 7] = [
    (Form::Full, false),
    (Form::Full, true),
    (Form::Page, false),
    (Form::Page, true),
    (Form::Boxed, false),
    (Form::Boxed, true),
    (Form::Counted, false),
];

/// A row as it is written: its indices and its class, with the halves or without, and the answer.
pub struct Written {
    pub words: [u64; 5],
    pub answer: Answer,
    /// The pair call's numbers for its two parts.
    pub on: Numbers,
    /// Whether the parts' boxes meet, and the position of the pair.
    pub near: bool,
    pub position: u64,
}

/// All rows of a listing, how many pairs there are, and how many floats the index of boxes has.
pub struct Found {
    pub rows: Vec<Written>,
    pub all: u64,
    pub index: usize,
}

/// Whether the call accepts these paths.
pub fn is_accepted(large: bool, layout: &Layout, own: bool) -> bool {
    let listed = listed(layout, own);
    if large {
        faults::of_listed(&RULE, listed, layout.epsilon)
            .next()
            .is_none()
    } else {
        listed.faults(layout.epsilon).next().is_none()
    }
}

pub fn listed(layout: &Layout, own: bool) -> Listed<'_> {
    let (first, second) = (layout.first.path(), layout.second.path());
    if own {
        Listed::Own(first)
    } else {
        Listed::Mutual(first, second)
    }
}

impl Found {
    /// Of accepted paths. Without large arcs nothing is cut.
    pub fn new(text: Text, large: bool, listed: Listed, epsilon: f64) -> Found {
        let (own, paths) = match listed {
            Listed::Own(path) => (true, [path; 2]),
            Listed::Mutual(first, second) => (false, [first, second]),
        };
        let cuts = paths.map(|path| Cut::by(&RULE, path));
        let [first, second] = [0, 1].map(|at: usize| cuts[at].path());
        let boxes = [first, second].map(|path| Boxes::of(path, epsilon));
        let mut found = Found {
            rows: Vec::new(),
            all: 0,
            index: floats_needed(first.segments()),
        };
        if !own {
            found.index += floats_needed(second.segments());
        }
        for i in 0..first.segments() {
            let from = if own { i + 1 } else { 0 };
            for j in from..second.segments() {
                let on = on((first, i), (second, j), epsilon);
                let answer = text(PAIR, &on);
                let position = found.all;
                found.all += 1;
                if answer.class == 0 {
                    continue;
                }
                let row = row([i, j], &answer);
                if own && row.is_at_joint(first.shared(i, j), epsilon) {
                    continue;
                }
                let [(a, half), (b, other)] = [cuts[0].names[i], cuts[1].names[j]];
                let words = if large {
                    [a, half, b, other, answer.class]
                } else {
                    [a, b, answer.class, 0, 0]
                };
                found.rows.push(Written {
                    words,
                    answer,
                    on,
                    near: meet(&boxes[0].segments[i], &boxes[1].segments[j]),
                    position,
                });
            }
        }
        found
    }

    /// The rows that a form has.
    pub fn of(&self, form: Form) -> impl Iterator<Item = &Written> {
        let rows = self.rows.iter();
        rows.filter(move |row| form != Form::Boxed || row.near)
    }
}

fn row(pair: [usize; 2], answer: &Answer) -> Row {
    const NUMBERS: [usize; 6] = [0, 2, 2, 4, 4, 4];
    Row {
        indices: pair.map(|i| i as u64),
        class: answer.class,
        points: answer.values,
        given: NUMBERS[answer.class as usize],
    }
}

/// The pair call's numbers for a segment of each path.
fn on((v, i): (Path, usize), (u, j): (Path, usize), epsilon: f64) -> Numbers {
    let ((v1, v2), (u1, u2)) = (v.segment(i), u.segment(j));
    [
        v1.x, v1.y, v1.bulge, v2.x, v2.y, v2.bulge, u1.x, u1.y, u1.bulge, u2.x, u2.y, u2.bulge,
        epsilon,
    ]
}

/// The four ends of a pair.
pub fn ends(n: &Numbers) -> Ends {
    [[n[0], n[1]], [n[3], n[4]], [n[6], n[7]], [n[9], n[10]]]
}
