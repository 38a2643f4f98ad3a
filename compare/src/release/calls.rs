//! Both sides: the library's calls, and the Rust text.

use super::draw::Numbers;
use super::judge::Answer;
use super::listed::Form;
use crate::capi::large::*;
use crate::capi::*;
use crate::crossing::CALLS;
use crate::listings::model::{Listed, Path};
use crate::month::model::WORDS as REPORT;

/// Kernels by their number in the list of calls, and the pair call.
pub const LINES: usize = 0;
pub const LINE_AND_CIRCLE: usize = 1;
pub const CIRCLES: usize = 2;
pub const PAIR: usize = 3;

/// What the text answers to a call of the list.
pub type Text = fn(usize, &[f64]) -> Answer;

/// The library's calls.
#[derive(Clone, Copy)]
pub struct Ours {
    /// A call of the list, on its numbers, with four places.
    pub call: fn(usize, &[f64], &mut [f64]) -> u64,
    pub pair_large: fn(&Numbers, &mut [u64], &mut [f64]) -> u64,
    /// Of large arcs or not.
    pub listing: fn(bool, Form, Listed, f64, Lent) -> u64,
}

/// What is lent to a listing; a form takes what it needs.
pub struct Lent<'a> {
    pub rows: Rows<'a>,
    pub span: Span,
    pub boxes: &'a mut [f64],
    pub report: &'a mut [u64; REPORT],
}

pub const TEXT: Text = |call, numbers| {
    let (class, values) = (CALLS[call].text)(numbers);
    Answer::new(class, &values)
};

pub const OURS: Ours = Ours {
    call: |call, numbers, out| (CALLS[call].ours)(numbers, out),
    pair_large: |numbers, results, out| vj_pair_large(*numbers, results, out),
    listing: |large, form, listed, epsilon, lent| {
        if large {
            with_large(form, listed, epsilon, lent)
        } else {
            without(form, listed, epsilon, lent)
        }
    },
};

fn of(path: Path<'_>) -> (&[f64], bool) {
    (path.numbers, path.closed)
}

fn without(form: Form, listed: Listed, epsilon: f64, lent: Lent) -> u64 {
    let Lent {
        rows,
        span,
        boxes,
        report,
    } = lent;
    match (form, listed) {
        (Form::Full, Listed::Mutual(a, b)) => vj_mutual(of(a), of(b), epsilon, rows),
        (Form::Full, Listed::Own(a)) => vj_self(of(a), epsilon, rows),
        (Form::Page, Listed::Mutual(a, b)) => vj_mutual_page(of(a), of(b), epsilon, span, rows),
        (Form::Page, Listed::Own(a)) => vj_self_page(of(a), epsilon, span, rows),
        (Form::Boxed, Listed::Mutual(a, b)) => vj_mutual_boxed(of(a), of(b), epsilon, boxes, rows),
        (Form::Boxed, Listed::Own(a)) => vj_self_boxed(of(a), epsilon, boxes, rows),
        (Form::Counted, Listed::Mutual(a, b)) => {
            vj_mutual_counted(of(a), of(b), epsilon, rows, report)
        }
        (Form::Counted, Listed::Own(_)) => unreachable!("a counted listing has two paths"),
    }
}

fn with_large(form: Form, listed: Listed, epsilon: f64, lent: Lent) -> u64 {
    let Lent {
        rows,
        span,
        boxes,
        report,
    } = lent;
    match (form, listed) {
        (Form::Full, Listed::Mutual(a, b)) => vj_mutual_large(of(a), of(b), epsilon, rows),
        (Form::Full, Listed::Own(a)) => vj_self_large(of(a), epsilon, rows),
        (Form::Page, Listed::Mutual(a, b)) => {
            vj_mutual_page_large(of(a), of(b), epsilon, span, rows)
        }
        (Form::Page, Listed::Own(a)) => vj_self_page_large(of(a), epsilon, span, rows),
        (Form::Boxed, Listed::Mutual(a, b)) => {
            vj_mutual_boxed_large(of(a), of(b), epsilon, boxes, rows)
        }
        (Form::Boxed, Listed::Own(a)) => vj_self_boxed_large(of(a), epsilon, boxes, rows),
        (Form::Counted, Listed::Mutual(a, b)) => {
            vj_mutual_counted_large(of(a), of(b), epsilon, rows, report)
        }
        (Form::Counted, Listed::Own(_)) => unreachable!("a counted listing has two paths"),
    }
}
