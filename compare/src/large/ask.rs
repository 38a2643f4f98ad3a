//! What a call is asked besides its paths: which form of the listing, where a page starts, and the slices that are lent.

use super::model::{Large, WORDS};
use crate::capi::Span;
use crate::listings::lent::{Old, Room};
use crate::month::model::{Report, LAYOUTS, MOST_LAYOUTS, WORDS as REPORT};
use crate::rng::Rng;

#[derive(Clone, Copy, Debug, PartialEq, Eq, PartialOrd, Ord)]
pub enum Kind {
    Full,
    Page,
    Boxed,
    Counted,
}

pub const KINDS: [Kind; 4] = [Kind::Full, Kind::Page, Kind::Boxed, Kind::Counted];

#[derive(Clone, Copy, Debug)]
pub struct Asked {
    pub kind: Kind,
    /// Of a page.
    pub span: Span,
    /// Floats for the index of boxes.
    pub boxes: usize,
    /// A report, and how many words are lent of it.
    pub report: Report,
    pub words: usize,
    pub room: Room,
    pub old: Old,
}

impl Kind {
    pub fn counts(self) -> usize {
        match self {
            Kind::Page => 4,
            _ => 2,
        }
    }
}

impl Asked {
    /// Whether the counts fit, and the report if there is one.
    pub fn has_room(&self) -> bool {
        let report = self.kind != Kind::Counted || self.words >= REPORT;
        report && self.room.counts >= self.kind.counts()
    }

    /// Exactly what a call of this kind needs; a page has all pairs, a report is fresh.
    pub fn exact(kind: Kind, large: &Large) -> Asked {
        let rows = large.rows_of(kind);
        let rows = if kind == Kind::Page {
            rows.max(1)
        } else {
            rows
        };
        Asked {
            kind,
            span: Span {
                position: 0,
                budget: large.all.max(1),
            },
            boxes: large.index.len(),
            report: Report::FRESH,
            words: REPORT,
            room: room_of(rows, kind),
            old: Old::Nans,
        }
    }

    /// With room for so many rows.
    pub fn with_rows(self, rows: usize) -> Asked {
        Asked {
            room: room_of(rows, self.kind),
            ..self
        }
    }

    /// Rooms near what is needed, mostly enough; a page starts anywhere; a report has any words.
    pub fn draw(kind: Kind, large: &Large, rng: &mut Rng) -> Asked {
        let exact = Asked::exact(kind, large);
        let rows = exact.room.points / 4;
        let rows = match rng.below(8) {
            0 => rows.saturating_sub(1),
            1 => rng.below(rows as u64 + 1) as usize,
            2 | 3 => rows + rng.below(4) as usize,
            _ => rows,
        };
        let boxes = match rng.below(16) {
            0 => exact.boxes.saturating_sub(1),
            1 => rng.below(exact.boxes as u64 + 1) as usize,
            2 => large.first_floats.min(exact.boxes),
            3 => exact.boxes + 1 + rng.below(70) as usize,
            _ => exact.boxes,
        };
        let words = match rng.below(16) {
            0 => REPORT - 1,
            1 => rng.below(REPORT as u64) as usize,
            2 => REPORT + 1 + rng.below(40) as usize,
            _ => REPORT,
        };
        Asked {
            span: span(large.all, rng),
            boxes,
            report: Report::draw(rng),
            words,
            room: uneven(rows, kind, rng),
            old: Old::draw(rng),
            ..exact
        }
    }

    /// Rows about what is needed, with each slice a place short or some places beyond whole rows; the index and the counts too.
    pub fn about(kind: Kind, large: &Large, rng: &mut Rng) -> Vec<Asked> {
        let exact = Asked::exact(kind, large);
        let rows = exact.room.points / 4;
        let mut all = Vec::new();
        for rows in [0, rows.saturating_sub(1), rows, rows + 1] {
            let asked = exact.with_rows(rows);
            all.push(asked);
            for by in 1..WORDS {
                let mut uneven = asked;
                uneven.room.indices += by;
                uneven.room.points += by.min(3);
                all.push(uneven);
            }
        }
        for (indices, points) in [(1, 0), (0, 1), (WORDS, 0), (0, 4)] {
            let mut short = exact;
            short.room.indices = short.room.indices.saturating_sub(indices);
            short.room.points = short.room.points.saturating_sub(points);
            all.push(short);
            let mut more = exact;
            more.room.indices += indices;
            more.room.points += points;
            all.push(more);
        }
        for counts in 0..6 {
            let mut asked = exact;
            asked.room.counts = counts;
            all.push(asked);
        }
        if kind == Kind::Boxed {
            for less in [1, 4] {
                let boxes = exact.boxes.saturating_sub(less);
                all.push(Asked { boxes, ..exact });
                all.push(Asked {
                    boxes,
                    ..exact.with_rows(0)
                });
            }
            for boxes in [0, large.first_floats, exact.boxes + 1, exact.boxes + 17] {
                all.push(Asked { boxes, ..exact });
            }
        }
        if kind == Kind::Counted {
            for words in [0, REPORT - 1, REPORT + 1] {
                all.push(Asked { words, ..exact });
            }
            let full = Report::FRESH.with(LAYOUTS, MOST_LAYOUTS);
            let last = Report::FRESH.with(LAYOUTS, MOST_LAYOUTS - 1);
            for report in [full, last, Report([1; REPORT]), Report::draw(rng)] {
                all.push(Asked { report, ..exact });
            }
        }
        if kind == Kind::Page {
            let spans = [
                (0, 0),
                (0, 1),
                (0, u64::MAX),
                (large.all, 1),
                (large.all + 1, 1),
                (large.all + 1, 0),
                (u64::MAX, u64::MAX),
            ];
            for (position, budget) in spans {
                let span = Span { position, budget };
                all.push(Asked { span, ..exact });
                all.push(Asked {
                    span,
                    ..exact.with_rows(0)
                });
            }
        }
        all.into_iter()
            .map(|asked| Asked {
                old: Old::draw(rng),
                ..asked
            })
            .collect()
    }
}

/// Exactly so many rows.
pub fn room_of(rows: usize, kind: Kind) -> Room {
    Room {
        indices: WORDS * rows,
        points: 4 * rows,
        counts: kind.counts(),
    }
}

/// So many rows, whichever slice decides it, with or without places beyond whole rows.
fn uneven(rows: usize, kind: Kind, rng: &mut Rng) -> Room {
    let mut room = room_of(rows, kind);
    match rng.below(4) {
        0 => room.indices += WORDS * (1 + rng.below(4) as usize),
        1 => room.points += 4 * (1 + rng.below(4) as usize),
        _ => {}
    }
    if rng.one_in(2) {
        room.indices += rng.below(WORDS as u64) as usize;
        room.points += rng.below(4) as usize;
    }
    room.counts += rng.below(3) as usize;
    if rng.one_in(16) {
        room.counts = rng.below(kind.counts() as u64) as usize;
    }
    room
}

fn span(all: u64, rng: &mut Rng) -> Span {
    let position = match rng.below(16) {
        0 => all,
        1 => all + 1,
        2 => rng.bits(),
        3..=7 => 0,
        _ => rng.below(all + 1),
    };
    let budget = match rng.below(16) {
        0 => 0,
        1 => u64::MAX,
        2 => position.wrapping_neg(),
        3 => 1,
        4 | 5 => all + 1,
        _ => 1 + rng.below(all / 2 + 1),
    };
    Span { position, budget }
}
