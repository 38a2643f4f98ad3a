//! Kinds of call that a run must have met. They are read from the call itself, not from how it was drawn.

use super::ask::{Asked, BEYOND_ALL, COUNTS};
use super::model::{Page, Pages, BEYOND, NO_BUDGET, NO_ROW_FITS};
use crate::crossing::faults::{Fault, INFINITE, NOT_A_NUMBER, NO_TRACE};
use crate::listings::layout::Call;
use crate::listings::lent::Old;
use crate::listings::model::Path;
use crate::listings::traces::{Passed, Sight};
use crate::met::Met;

/// A call as it was made. A plain copy of what is needed, so that a kind's test borrows nothing.
pub struct Case {
    /// Vertices of each path, and whether it is closed.
    paths: Vec<(usize, bool)>,
    asked: Asked,
    /// The number of the first fault of the checks of numbers.
    fault: Option<u64>,
    /// The number of the refusal that is answered, if the counts have room.
    refusal: Option<u64>,
    page: Option<Seen>,
    all: u64,
    passed: Passed,
}

/// What an answered page looks like.
struct Seen {
    rows: usize,
    passed: u64,
    /// At its budget, at the end, before a pair that makes a row where no row is left. More than one may hold.
    stops: [bool; 3],
    starts_with_row: bool,
    starts_at_turn: bool,
    next_is_turn: bool,
    /// Whether pairs without a row follow the last row.
    has_tail: bool,
    traces: Over,
}

/// Pairs of one trace in a page and beside it.
struct Over {
    /// Of the pair before the page, its first and its last one, and the one behind it.
    before: bool,
    first: bool,
    last: bool,
    behind: bool,
    /// How many there are, and how many of them follow the last row.
    count: u64,
    tail: u64,
    /// How many pairs follow the last row.
    tail_pairs: u64,
    /// Whether one would make a row, in the page and behind its last row.
    row: bool,
    tail_row: bool,
}

impl Over {
    fn new(page: &Page, pages: &Pages, position: u64) -> Over {
        let next = page.next;
        let tail = match pages.last_row(next) {
            Some(at) if at >= position => at + 1,
            _ => position,
        };
        let count = |from: u64| (from..next).filter(|at| pages.is_over(*at)).count() as u64;
        Over {
            before: position > 0 && pages.is_over(position - 1),
            first: page.passed > 0 && pages.is_over(position),
            last: page.passed > 0 && pages.is_over(next - 1),
            behind: pages.is_over(next),
            count: count(position),
            tail: count(tail),
            tail_pairs: next - tail,
            row: pages.has_row_over(position, next),
            tail_row: pages.has_row_over(tail, next),
        }
    }
}

impl Seen {
    fn new(page: &Page, pages: &Pages, asked: &Asked) -> Seen {
        let position = asked.span.position;
        let full = page.rows.len() == asked.rows();
        Seen {
            rows: page.rows.len(),
            passed: page.passed,
            stops: [
                page.passed == asked.span.budget,
                page.next == page.all,
                full && pages.makes_row(page.next),
            ],
            starts_with_row: pages.makes_row(position),
            starts_at_turn: pages.is_turn(position),
            next_is_turn: pages.is_turn(page.next),
            has_tail: page.passed > 0 && !pages.makes_row(page.next - 1),
            traces: Over::new(page, pages, position),
        }
    }
}

impl Case {
    pub fn new(paths: &[Path], pages: &Pages, asked: &Asked, page: &Result<Page, Fault>) -> Case {
        let seen = |page: &Page| Seen::new(page, pages, asked);
        let counted = asked.room.counts >= COUNTS;
        let form = |path: &Path| (path.vertices(), path.closed);
        Case {
            paths: paths.iter().map(form).collect(),
            asked: *asked,
            fault: pages.fault().map(|fault| fault.number),
            refusal: page.as_ref().err().map(|fault| fault.number),
            page: page.as_ref().ok().filter(|_| counted).map(seen),
            all: pages.all(),
            passed: pages.passed,
        }
    }

    fn counts_fit(&self) -> bool {
        self.asked.room.counts >= COUNTS
    }

    fn is_refused(&self, number: u64) -> bool {
        self.counts_fit() && self.refusal == Some(number)
    }

    fn sees(&self, test: impl Fn(&Seen) -> bool) -> bool {
        self.page.as_ref().is_some_and(test)
    }

    /// Answered at the end.
    fn is_at_end(&self) -> bool {
        self.page.is_some() && self.asked.span.position == self.all
    }

    /// Whether the position is beyond the end, the budget 0, and no row fits. Of paths with a fault no one knows the end.
    fn wrongs(&self) -> [bool; 3] {
        let Asked { span, .. } = self.asked;
        let beyond = if self.fault.is_some() {
            span.position >= BEYOND_ALL
        } else {
            span.position > self.all
        };
        [beyond, span.budget == 0, self.asked.rows() == 0]
    }
}

pub fn kinds(call: Call) -> Met<Case> {
    let mut kinds = Met::new();
    let paths = if call == Call::Own { 1 } else { 2 };
    of_paths(&mut kinds, paths);
    of_starts(&mut kinds);
    of_stops(&mut kinds);
    of_rooms(&mut kinds);
    of_traces(&mut kinds, call);
    of_refusals(&mut kinds);
    kinds
}

fn of_paths(kinds: &mut Met<Case>, paths: usize) {
    for at in 0..paths {
        for closed in [false, true] {
            let form = if closed { "closed" } else { "open" };
            for n in 0..5 {
                let name = format!("path {at} {form}, {n} vertices");
                kinds.add(name, move |c| {
                    c.page.is_some() && c.paths[at] == (n, closed)
                });
            }
        }
    }
}

fn of_starts(kinds: &mut Met<Case>) {
    kinds.add("no pairs at all", |c| c.is_at_end() && c.all == 0);
    kinds.add("at the end", |c| c.is_at_end() && c.all > 0);
    for budget in [1, u64::MAX] {
        let name = format!("at the end, budget {budget}");
        kinds.add(name, move |c| {
            c.is_at_end() && c.asked.span.budget == budget
        });
    }
    kinds.add("at the end, no row fits", |c| {
        c.asked.span.position == c.all && c.is_refused(NO_ROW_FITS)
    });
    kinds.add("one pair before the end", |c| {
        c.page.is_some() && c.asked.span.position + 1 == c.all
    });
    kinds.add("from the front", |c| {
        c.sees(|page| page.passed > 0) && c.asked.span.position == 0
    });
    let inside = |c: &Case| c.sees(|page| page.passed > 0) && c.asked.span.position > 0;
    for turn in [false, true] {
        for row in [false, true] {
            let place = if turn {
                "at a first segment's first pair"
            } else {
                "among its pairs"
            };
            let gives = if row { "a row" } else { "no row" };
            kinds.add(format!("from inside, {place}, with {gives}"), move |c| {
                let is = |page: &Seen| page.starts_at_turn == turn && page.starts_with_row == row;
                inside(c) && c.sees(is)
            });
        }
    }
    kinds.add("position and budget beyond 2^64", |c| {
        let span = c.asked.span;
        c.page.is_some() && span.position.checked_add(span.budget).is_none()
    });
}

fn of_stops(kinds: &mut Met<Case>) {
    let names = [
        ("at its budget", [true, false, false]),
        ("at the end", [false, true, false]),
        ("before a row", [false, false, true]),
        ("at its budget, which is the end", [true, true, false]),
        ("at its budget, before a row", [true, false, true]),
    ];
    for (name, stops) in names {
        kinds.add(format!("stops {name}"), move |c| {
            c.sees(|page| page.passed > 0 && page.stops == stops)
        });
        if !stops[1] {
            for turn in [false, true] {
                let place = if turn {
                    "at a first segment's first pair"
                } else {
                    "among its pairs"
                };
                kinds.add(format!("stops {name}, {place}"), move |c| {
                    c.sees(|page| page.stops == stops && page.next_is_turn == turn)
                });
            }
        }
    }
    kinds.add("several pairs, no row", |c| {
        c.sees(|page| page.passed > 1 && page.rows == 0)
    });
    kinds.add("several pairs, each with a row", |c| {
        c.sees(|page| page.passed > 1 && page.rows as u64 == page.passed)
    });
    kinds.add("one row fits, and the first pair makes it", |c| {
        c.asked.rows() == 1 && c.sees(|page| page.starts_with_row && page.rows == 1)
    });
    kinds.add("no row is left, and pairs without one follow", |c| {
        c.sees(|page| page.rows == c.asked.rows() && page.has_tail)
    });
    kinds.add("no row is left, up to the end", |c| {
        c.sees(|page| page.rows == c.asked.rows() && page.stops[1])
    });
}

/// Pages that begin and end among pairs of one trace, that consist of them, and in which they follow the last row that fits.
fn of_traces(kinds: &mut Met<Case>, call: Call) {
    for sight in Sight::of(call) {
        kinds.add(format!("{sight:?}"), move |c| {
            c.page.is_some() && c.passed.has(sight)
        });
    }
    let names = ["at its budget", "at the end", "before a row"];
    for (name, stop) in names.into_iter().zip(0..) {
        kinds.add(
            format!("stops {name}, its last pair of one trace"),
            move |c| c.sees(|page| page.stops[stop] && page.traces.last),
        );
        if stop == 2 {
            // it has rows
            continue;
        }
        kinds.add(format!("stops {name}, each pair of one trace"), move |c| {
            let each = |page: &Seen| page.passed > 1 && page.traces.count == page.passed;
            c.sees(|page| page.stops[stop] && each(page))
        });
    }
    kinds.add("starts at a pair of one trace", |c| {
        c.asked.span.position > 0 && c.sees(|page| page.traces.first)
    });
    kinds.add("starts among pairs of one trace", |c| {
        c.sees(|page| page.traces.before && page.traces.first)
    });
    kinds.add("starts behind pairs of one trace", |c| {
        c.sees(|page| page.passed > 0 && page.traces.before && !page.traces.first)
    });
    kinds.add("starts behind pairs of one trace, with a row", |c| {
        c.sees(|page| page.traces.before && page.starts_with_row)
    });
    kinds.add("stops at its budget, among pairs of one trace", |c| {
        c.sees(|page| page.stops[0] && page.traces.last && page.traces.behind)
    });
    kinds.add("stops at its budget, before a pair of one trace", |c| {
        c.sees(|page| page.stops[0] && !page.traces.last && page.traces.behind)
    });
    kinds.add("a budget of one pair, of one trace", |c| {
        c.asked.span.budget == 1 && c.sees(|page| page.traces.first)
    });
    kinds.add("a pair of one trace that would make a row, and rows", |c| {
        c.sees(|page| page.rows > 0 && page.traces.row)
    });
    // behind the last row that fits
    let tail = |page: &Seen| page.traces.tail > 0 && page.traces.tail == page.traces.tail_pairs;
    let full = move |c: &Case, stop: usize| {
        c.sees(|page| page.rows == c.asked.rows() && page.stops[stop] && tail(page))
    };
    for (name, stop) in names.into_iter().zip(0..) {
        let name = format!("no row is left, pairs of one trace follow, stops {name}");
        kinds.add(name, move |c| full(c, stop));
    }
    kinds.add("no row is left, one follows that would make a row", |c| {
        c.sees(|page| page.rows == c.asked.rows() && page.traces.tail_row)
    });
    kinds.add(
        "no row is left before a row, one between would make a row",
        |c| c.sees(|page| page.stops[2] && page.traces.tail_row),
    );
}

fn of_rooms(kinds: &mut Met<Case>) {
    kinds.add("indices short of a row by a number", |c| {
        c.is_refused(NO_ROW_FITS) && c.asked.room.indices == 2 && c.asked.room.points >= 4
    });
    kinds.add("points short of a row by a number", |c| {
        c.is_refused(NO_ROW_FITS) && c.asked.room.points == 3 && c.asked.room.indices >= 3
    });
    kinds.add("empty slices", |c| {
        c.is_refused(NO_ROW_FITS) && c.asked.room.indices + c.asked.room.points == 0
    });
    let full = |c: &Case| c.sees(|page| page.stops[2]);
    kinds.add("stops for the indices' room", move |c| {
        full(c) && c.asked.room.indices / 3 < c.asked.room.points / 4
    });
    kinds.add("stops for the points' room", move |c| {
        full(c) && c.asked.room.points / 4 < c.asked.room.indices / 3
    });
    for rest in 1..3 {
        let name = format!("{rest} places beyond whole rows of indices");
        kinds.add(name, move |c| full(c) && c.asked.room.indices % 3 == rest);
    }
    for rest in 1..4 {
        let name = format!("{rest} places beyond whole rows of points");
        kinds.add(name, move |c| full(c) && c.asked.room.points % 4 == rest);
    }
    for counts in 0..7 {
        let name = format!("room for {counts} counts");
        kinds.add(name, move |c| c.asked.room.counts == counts);
    }
    kinds.add("old contents NaNs", |c| c.asked.old == Old::Nans);
    kinds.add("old contents zeros", |c| c.asked.old == Old::Zeros);
    kinds.add("old contents random", |c| {
        matches!(c.asked.old, Old::Bits(_))
    });
}

fn of_refusals(kinds: &mut Met<Case>) {
    // of the three that come last, which are wrong too
    let also = |[beyond, budget, rows]: [bool; 3]| {
        let words = [(beyond, "13"), (budget, "14"), (rows, "8")];
        let words: Vec<&str> = words.into_iter().filter(|w| w.0).map(|w| w.1).collect();
        words.join(", ")
    };
    let each = (0..8).map(|n| [n & 1 != 0, n & 2 != 0, n & 4 != 0]);
    for wrongs in each {
        let also = also(wrongs);
        for number in (2..8).chain([NOT_A_NUMBER, INFINITE, NO_TRACE]) {
            kinds.add(format!("refusal {number}, also [{also}]"), move |c| {
                c.is_refused(number) && c.wrongs() == wrongs
            });
        }
        let last = [BEYOND, NO_BUDGET, NO_ROW_FITS];
        let first = wrongs.iter().position(|wrong| *wrong).map(|at| last[at]);
        kinds.add(format!("no fault but [{also}]"), move |c| {
            let answered = match first {
                Some(number) => c.is_refused(number),
                None => c.page.is_some(),
            };
            c.fault.is_none() && c.wrongs() == wrongs && answered
        });
        kinds.add(format!("no room for counts, also [{also}]"), move |c| {
            !c.counts_fit() && c.fault.is_none() && c.wrongs() == wrongs
        });
    }
    kinds.add("no room for counts, also a fault", |c| {
        !c.counts_fit() && c.fault.is_some()
    });
    kinds.add("one position beyond the end", |c| {
        c.is_refused(BEYOND) && c.asked.span.position == c.all + 1
    });
    kinds.add("one position beyond no pairs", |c| {
        c.is_refused(BEYOND) && c.all == 0 && c.asked.span.position == 1
    });
    kinds.add("the greatest position", |c| {
        c.is_refused(BEYOND) && c.asked.span.position == u64::MAX
    });
}
