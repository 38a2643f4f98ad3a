//! Chains of calls, each at the position that the one before answered, and their rows, joined as they are read from the lent
//! slices. They are compared with the listing: the model's, and the one that the full call gives.

use super::ask::{Asked, Style};
use super::score::{Known, Score};
use crate::listings::layout::Call;
use crate::listings::lent::{is_row, Lent, Old, Room};
use crate::listings::model::Row;
use crate::met::Met;
use crate::rng::Rng;

/// Rows as they stand in lent slices.
#[derive(Default)]
struct Joined {
    indices: Vec<u64>,
    points: Vec<f64>,
}

impl Joined {
    fn add(&mut self, lent: &mut Lent, rows: usize) {
        let slices = lent.slices();
        self.indices.extend(&slices.indices[..3 * rows]);
        self.points.extend(&slices.points[..4 * rows]);
    }

    fn is(&self, rows: &[Row]) -> bool {
        let (indices, points) = (self.indices.chunks(3), self.points.chunks(4));
        let mut each = rows.iter().zip(indices.zip(points));
        self.indices.len() == 3 * rows.len() && each.all(|(row, (i, p))| is_row(row, i, p))
    }

    /// Whether these are the front rows of the full call's. Only the bits of a NaN are left open.
    fn is_front_of(&self, full: &Joined) -> bool {
        let is = |(a, b): (&f64, &f64)| a.to_bits() == b.to_bits() || a.is_nan() && b.is_nan();
        full.indices.starts_with(&self.indices)
            && full.points.len() >= self.points.len()
            && self.points.iter().zip(&full.points).all(is)
    }
}

/// A chain as it was run.
pub struct Chained {
    calls: u64,
    all: u64,
    /// How many pairs the full listing looks at.
    looked_at: u64,
    position: u64,
    rows: usize,
    refused: u64,
}

/// Of a path that is lent twice the first pair makes a row: a segment with itself.
pub fn kinds(call: Call) -> Met<Chained> {
    let mut kinds = Met::new();
    let ended = |c: &Chained| c.position == c.all;
    kinds.add("to the end, several calls", move |c| {
        ended(c) && c.calls > 1
    });
    kinds.add("to the end, more than 50 calls", move |c| {
        ended(c) && c.calls > 50
    });
    kinds.add("to the end, more than 50 rows", move |c| {
        ended(c) && c.rows > 50
    });
    kinds.add("to the end, one call", move |c| ended(c) && c.calls == 1);
    kinds.add("no pairs, no calls", |c| c.all == 0 && c.calls == 0);
    kinds.add("as many calls as pairs", move |c| {
        ended(c) && c.calls > 2 && c.calls == c.all
    });
    kinds.add("stopped before the end, with rows", move |c| {
        !ended(c) && c.rows > 0
    });
    kinds.add("with a refused call between", |c| {
        c.refused > 0 && c.calls > 1
    });
    kinds.add(
        "to the end, more pairs than the listing looks at",
        move |c| ended(c) && c.calls > 1 && c.looked_at > 0 && c.looked_at < c.all,
    );
    kinds.add("the same, and more than 10 rows", move |c| {
        ended(c) && c.calls > 1 && c.looked_at < c.all && c.rows > 10
    });
    kinds.add("to the end, the listing looks at none", move |c| {
        ended(c) && c.calls > 1 && c.looked_at == 0
    });
    kinds.add(
        "as many calls as pairs, and the listing looks at fewer",
        move |c| ended(c) && c.calls > 2 && c.calls == c.all && c.looked_at < c.all,
    );
    if call != Call::Twice {
        kinds.add("to the end, several calls, no rows", move |c| {
            ended(c) && c.calls > 1 && c.rows == 0
        });
        kinds.add("stopped before the end, without rows", move |c| {
            !ended(c) && c.calls > 0 && c.rows == 0
        });
    }
    kinds
}

/// Runs a chain from position 0 up to the end or, now and then, some calls less far. Answers how many calls it took.
pub fn run(score: &mut Score, known: &Known, rng: &mut Rng) -> u64 {
    let style = Style::draw(known.pages.all(), known.pages.rows().len(), rng);
    let most = if rng.one_in(4) {
        rng.below(32)
    } else {
        u64::MAX
    };
    run_with(score, known, most, rng, |position, rng| {
        let refused = rng.one_in(16);
        let ask = if refused { Style::refused } else { Style::ask };
        ask(&style, position, known.pages.all(), rng)
    })
}

/// The same with calls that are asked in a given way, and with at most so many.
pub fn run_with(
    score: &mut Score,
    known: &Known,
    most: u64,
    rng: &mut Rng,
    mut ask: impl FnMut(u64, &mut Rng) -> Asked,
) -> u64 {
    let (all, differences) = (known.pages.all(), score.differences);
    let mut joined = Joined::default();
    let (mut position, mut calls, mut refused) = (0, 0, 0);
    let mut pairs = 0;
    while position < all && calls < most {
        let asked = ask(position, rng);
        let (answer, mut lent) = score.compare(known, &asked);
        if score.differences > differences {
            // such a chain may never end
            return calls + refused;
        }
        if answer != 0 {
            refused += 1;
            continue;
        }
        calls += 1;
        let [rows, passed, next, _] = counts(&mut lent);
        if passed == 0 || calls > all {
            score.differ(
                known,
                "a call before the end passes no pair, or a chain has more calls than pairs",
            );
            return calls + refused;
        }
        joined.add(&mut lent, rows as usize);
        position = next;
        pairs += passed;
    }
    if pairs != position {
        score.differ(
            known,
            "the pairs of the calls are not all up to the position",
        );
    }
    if !joined.is(known.pages.rows_before(position)) {
        score.differ(known, "the joined rows are not those of the pairs passed");
    }
    let full = full(score, known);
    if !joined.is_front_of(&full) || position == all && joined.indices.len() < full.indices.len() {
        score.differ(known, "the joined rows are not those of the full call");
    }
    score.count_chain(&Chained {
        calls,
        all,
        looked_at: known.pages.looked_at(),
        position,
        rows: joined.indices.len() / 3,
        refused,
    });
    calls + refused
}

/// One more call, at the end.
pub fn at_end(score: &mut Score, known: &Known, rng: &mut Rng) {
    let all = known.pages.all();
    let asked = Style::draw(all, 4, rng).ask(all, all, rng);
    let (answer, mut lent) = score.compare(known, &asked);
    if answer != 0 || counts(&mut lent) != [0, 0, all, all] {
        score.differ(
            known,
            "a call at the end does not answer that nothing is left",
        );
    }
}

fn counts(lent: &mut Lent) -> [u64; 4] {
    let counts = lent.slices().counts;
    [counts[0], counts[1], counts[2], counts[3]]
}

/// The rows of the full call.
fn full(score: &mut Score, known: &Known) -> Joined {
    let rows = known.pages.rows().len();
    let mut lent = Lent::new(Room::of(rows), Old::Nans);
    let answer = (score.ours.full)(known.listed(), known.epsilon(), lent.slices());
    let mut full = Joined::default();
    if answer != 0 || *lent.slices().counts != [rows as u64, known.pages.looked_at()] {
        score.differ(known, "the full call answers something else");
    } else {
        full.add(&mut lent, rows);
    }
    full
}

/// A call at any position.
pub fn anywhere(score: &mut Score, known: &Known, rng: &mut Rng) {
    let all = known.pages.all();
    let position = rng.below(all + 1);
    let asked = Style::draw(all.min(4096), 16, rng).ask(position, all, rng);
    score.compare(known, &asked);
}
