//! Kinds of call that the listings with many rows must have met, in each form: how many rows there are and how many fit, how many
//! pairs share a mark, and rows in the first pair and in the last.

use super::forms::{Form, Known};
use crate::listings::layout::Call;
use crate::met::Met;

/// So many rows are held back before pairs are marked, and so many marks there are.
pub const HELD: usize = 2048;
pub const MARKS: usize = 1 << 20;

/// Many rows.
const MANY: usize = 20_000;

/// A call as it was made. A plain copy, so that a kind's test borrows nothing.
pub struct Case {
    form: Form,
    call: Call,
    rows: usize,
    room: usize,
    sizes: [usize; 2],
    /// Whether the first pair of all makes a row, and the last.
    ends: [bool; 2],
    /// Whether an arc is cut.
    cut: bool,
    /// Whether the sieve judges lines of the first path.
    judged: bool,
}

impl Case {
    pub fn new(known: &Known, form: Form, call: Call, room: usize) -> Case {
        let [n, m] = known.sizes(form).map(|size| size as u64);
        let [first, last] = match call {
            Call::Own => [[0, 1], [n.saturating_sub(2), n.saturating_sub(1)]],
            _ => [[0, 0], [n.saturating_sub(1), m.saturating_sub(1)]],
        };
        let ends = known.ends(form);
        Case {
            form,
            call,
            rows: known.rows(form),
            room,
            sizes: known.sizes(form),
            ends: ends.map_or([false; 2], |[a, b]| [a == first, b == last]),
            cut: known.is_cut(form),
            judged: known.is_judged(),
        }
    }

    fn pairs(&self) -> usize {
        self.sizes[0] * self.sizes[1]
    }

    /// Whether pairs are marked: there are rows behind those that are held back, and it is not known that all fit.
    fn is_marked(&self) -> bool {
        self.rows > HELD && self.room > HELD && self.room < self.pairs()
    }

    fn is_answered(&self) -> bool {
        self.rows <= self.room
    }
}

/// How many marks a segment of the first path has, and of how many segments of the second one mark is, as a power of two.
pub fn grain([n, m]: [usize; 2]) -> (usize, u32) {
    let stride = MARKS / n.max(1);
    let shift = (0..13).find(|shift| m >> shift < stride);
    (stride, shift.unwrap_or(13))
}

/// As many rows fit as there are, one fewer, one more; one fewer than there are pairs of any two segments, and as many.
const ROOMS: [(&str, Test); 5] = [
    ("exactly", |c| c.room == c.rows),
    ("one fewer", |c| c.room + 1 == c.rows),
    ("one more", |c| c.room == c.rows + 1),
    ("one fewer than pairs", |c| c.room + 1 == c.pairs()),
    ("as many as pairs", |c| c.room == c.pairs()),
];

type Test = fn(&Case) -> bool;

/// The kinds that must be met: only a full run has the largest listings.
pub fn kinds(full: bool) -> Met<Case> {
    let mut kinds = Met::new();
    for form in super::forms::FORMS {
        for call in [Call::Mutual, Call::Own] {
            if form.has(call) {
                of_form(&mut kinds, form, call, full);
            }
        }
    }
    kinds
}

fn of_form(kinds: &mut Met<Case>, form: Form, call: Call, full: bool) {
    let mut add = |name: &str, test: Box<dyn Fn(&Case) -> bool>| {
        let name = format!("{form:?}, {call:?}: {name}");
        kinds.add(name, move |c: &Case| {
            c.form == form && c.call == call && test(c)
        });
    };
    for rows in [HELD - 1, HELD, HELD + 1] {
        for (name, fits) in ROOMS {
            let name = format!("{rows} rows, room for {name}");
            add(&name, Box::new(move |c| c.rows == rows && fits(c)));
        }
    }
    for (name, fits) in ROOMS {
        let name = format!("more than {MANY} rows, room for {name}");
        add(&name, Box::new(move |c| c.rows > MANY && fits(c)));
    }
    for (name, by) in [("one pair", 0), ("two pairs", 1)] {
        for (fit, answered) in [("all fit", true), ("one does not fit", false)] {
            let name = format!("{name} a mark, about 2^20 pairs, {fit}");
            add(
                &name,
                Box::new(move |c| {
                    let about = c.pairs().abs_diff(MARKS) < MARKS / 64;
                    let is = c.is_marked() && c.is_answered() == answered;
                    is && about && grain(c.sizes).1 == by && c.room.abs_diff(c.rows) <= 1
                }),
            );
            // where the sieve judges, it is asked again if pairs share marks
            let name = format!("{name}, not judged by the sieve");
            let shared = by == 1;
            if shared {
                add(
                    &name,
                    Box::new(move |c| {
                        let is = c.is_marked() && c.is_answered() == answered && !c.judged;
                        is && grain(c.sizes).1 == 1 && c.room.abs_diff(c.rows) <= 1
                    }),
                );
            }
        }
    }
    for (at, name) in ["first", "last"].into_iter().enumerate() {
        let name = format!("marked, answered, a row in the {name} pair");
        add(
            &name,
            Box::new(move |c| c.is_marked() && c.is_answered() && c.ends[at]),
        );
    }
    if full {
        add(
            "4,096 by 4,096, marked, answered",
            Box::new(|c| c.sizes == [4096; 2] && c.is_marked() && c.is_answered()),
        );
        add(
            "4,096 by 4,096, one row does not fit",
            Box::new(|c| c.sizes == [4096; 2] && c.is_marked() && c.room + 1 == c.rows),
        );
    }
    if form.is_large() {
        add(
            "marked, answered, with an arc that is cut",
            Box::new(|c| c.is_marked() && c.is_answered() && c.cut),
        );
    }
}
