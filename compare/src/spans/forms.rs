//! The forms of a listing that use the shortcut: full, counted, one page, and boxed. Each has exactly the room that it needs.

use crate::boxed::index::{floats_needed, meet, Boxes};
use crate::capi::{Rows, Span};
use crate::listings::layout::{self, Call, Layout};
use crate::listings::lent::{Expected, Lent, LentPath, Old, Room};
use crate::listings::model::{Listed, Listing, Row};
use crate::month::model::Report;
use crate::pages::ask::{BEYOND_ALL, COUNTS};
use crate::{boxed, month, pages};

#[derive(Clone, Copy, Debug, PartialEq)]
pub enum Form {
    Full,
    Counted,
    Page,
    Boxed,
}

pub const FORMS: [Form; 4] = [Form::Full, Form::Counted, Form::Page, Form::Boxed];

/// A listing in one of the forms. Of its counts there are two, the rows and the pairs.
pub type Ours = fn(Form, Listed, f64, Rows) -> u64;

/// Our calls.
pub fn ours(form: Form, listed: Listed, epsilon: f64, lent: Rows) -> u64 {
    match form {
        Form::Full => layout::ours(listed, epsilon, lent),
        Form::Counted => month::ours(listed, epsilon, lent, &mut Report::FRESH.0.clone()),
        Form::Page => {
            let mut counts = [0; COUNTS];
            let whole = Span {
                position: 0,
                budget: BEYOND_ALL,
            };
            let Rows {
                indices, points, ..
            } = lent;
            let rows = Rows {
                indices,
                points,
                counts: &mut counts,
            };
            let answer = pages::ours(listed, epsilon, whole, rows);
            lent.counts.copy_from_slice(&counts[..2]);
            answer
        }
        Form::Boxed => {
            let sizes = listed.paths().into_iter().map(|path| path.segments());
            let mut boxes = vec![0.0; sizes.map(floats_needed).sum()];
            boxed::ours(listed, epsilon, &mut boxes, lent)
        }
    }
}

/// The rows of a form, and how many pairs it looks at.
pub fn rows_of(form: Form, listed: Listed, epsilon: f64) -> (Vec<Row>, u64) {
    let Listing { faults, rows } = Listing::new(listed, epsilon);
    assert!(faults.is_empty(), "no fault is drawn: {faults:?}");
    if form != Form::Boxed {
        return (rows.rows, rows.pairs);
    }
    let paths = listed.paths();
    let own = paths.len() == 1;
    let [first, second] = [paths[0], paths[paths.len() - 1]].map(|path| Boxes::of(path, epsilon));
    let near = |i: usize, j: usize| meet(&first.segments[i], &second.segments[j]);
    let looked_at = (0..first.segments.len())
        .map(|i| {
            let from = if own { i + 1 } else { 0 };
            let all = from..second.segments.len();
            all.filter(|j| near(i, *j)).count() as u64
        })
        .sum();
    let mut rows = rows.rows;
    rows.retain(|row| near(row.indices[0] as usize, row.indices[1] as usize));
    (rows, looked_at)
}

/// Makes a call with exact room, and says what is not as expected, if anything.
pub fn wrong(
    ours: Ours,
    form: Form,
    layout: &Layout,
    call: Call,
    (rows, pairs): (&[Row], u64),
    old: Old,
) -> Option<String> {
    let (first, second) = (LentPath::new(&layout.first), LentPath::new(&layout.second));
    let listed = call.of(first.path(), second.path());
    // a page is refused if not even one row fits
    let least = usize::from(form == Form::Page);
    let mut lent = Lent::new(Room::of(rows.len().max(least)), old);
    let answer = ours(form, listed, layout.epsilon, lent.slices());
    let counts = vec![rows.len() as u64, pairs];
    let wrong = lent.wrong(answer, &Expected::Answered { rows, counts });
    wrong.or_else(|| {
        let unchanged = first.is(&layout.first) && second.is(&layout.second);
        (!unchanged).then(|| "a path was written to".to_string())
    })
}
