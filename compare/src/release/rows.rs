//! The rows that the library's listings write, held to the text's.

use super::calls::{Lent, Ours};
use super::judge::{of_pair, Answer};
use super::listed::{ends, listed, Form, Found, Written};
use super::score::Score;
use crate::capi::{Rows, Span};
use crate::listings::layout::Layout;
use crate::month::model::WORDS as REPORT;
use crate::rng::Rng;

const NAN: f64 = f64::NAN;
/// A word that no row has.
const NO_WORD: u64 = u64::MAX;

/// A listing of a layout: large arcs or not, the form, one path or two.
#[derive(Clone, Copy)]
pub struct Asked<'a> {
    pub large: bool,
    pub form: Form,
    pub own: bool,
    pub layout: &'a Layout,
}

/// Memory for the rows, filled with NaNs before each call.
#[derive(Default)]
pub struct Room {
    indices: Vec<u64>,
    points: Vec<f64>,
    boxes: Vec<f64>,
}

impl Room {
    /// Lists, a page after the other if it is paged, and judges each row.
    pub fn ask(
        &mut self,
        ours: &Ours,
        asked: Asked,
        found: &Found,
        score: &mut Score,
        rng: &mut Rng,
    ) {
        let all: Vec<&Written> = found.of(asked.form).collect();
        if asked.form != Form::Page {
            let span = Span {
                position: 0,
                budget: 0,
            };
            self.once(ours, asked, span, all.len(), found, &all, score);
            return;
        }
        let mut position = 0;
        while position < found.all {
            let budget = 1 + rng.below(found.all);
            let room = 1 + rng.below(all.len() as u64 + 1) as usize;
            let span = Span { position, budget };
            let rows = all.iter().filter(|row| row.position >= position);
            let rows = rows.take_while(|row| row.position < position + budget);
            let rows: Vec<&Written> = rows.take(room).copied().collect();
            match self.once(ours, asked, span, room, found, &rows, score) {
                Some(next) if next > position => position = next,
                _ => return,
            }
        }
    }

    /// One call, which should write these rows. Answers a page's next position.
    #[allow(clippy::too_many_arguments)]
    fn once(
        &mut self,
        ours: &Ours,
        asked: Asked,
        span: Span,
        room: usize,
        found: &Found,
        rows: &[&Written],
        score: &mut Score,
    ) -> Option<u64> {
        let words = if asked.large { 5 } else { 3 };
        fill(&mut self.indices, words * room, NO_WORD);
        fill(&mut self.points, 4 * room, NAN);
        fill(&mut self.boxes, found.index, NAN);
        let mut counts = [0; 4];
        let mut report = [0; REPORT];
        let lent = Lent {
            rows: Rows {
                indices: &mut self.indices,
                points: &mut self.points,
                counts: &mut counts[..if asked.form == Form::Page { 4 } else { 2 }],
            },
            span,
            boxes: &mut self.boxes,
            report: &mut report,
        };
        let Asked { layout, own, .. } = asked;
        let epsilon = layout.epsilon;
        let word = (ours.listing)(asked.large, asked.form, listed(layout, own), epsilon, lent);
        let given = counts[0];
        if word != 0 || given != rows.len() as u64 {
            let expected = rows.len();
            score.differ(|| {
                format!("returned {word:#x} with {given} rows, expected {expected}, {layout:?}")
            });
        }
        if word != 0 {
            return None;
        }
        for (at, row) in rows.iter().enumerate().take(given as usize) {
            let named = &self.indices[words * at..words * (at + 1)];
            if *named != row.words[..words] {
                let right = &row.words[..words];
                score.differ(|| format!("row {at} is {named:?}, expected {right:?}, {layout:?}"));
            }
            let values = &self.points[4 * at..4 * at + 4];
            let answer = Answer::new(named[words - 1], values);
            let ends = ends(&row.on);
            score.judge(&row.on.into(), &answer, &row.answer, |a| of_pair(a, &ends));
        }
        Some(counts[2])
    }
}

fn fill<T: Copy>(memory: &mut Vec<T>, places: usize, with: T) {
    memory.clear();
    memory.resize(places, with);
}
