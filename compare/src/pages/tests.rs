//! The model on pages worked out by hand; a right stand-in for the library, which must pass; and wrong ones, which the comparison
//! must notice.

use super::model::Pages;
use super::stand_in::{self, STAND_IN};
use super::*;
use crate::crossing::faults::Fault;
use crate::listings::stand_in::{OF_CHECKS, OF_PAIRS};

const INPUTS: u64 = 1 << 17;

fn drawn(points: &[[f64; 2]], closed: bool) -> Drawn {
    Drawn::of(points.iter().map(|[x, y]| [*x, *y, 0.0]), closed)
}

/// Two segments with three: of the pairs at 0 to 5, those at 0 and 2 meet.
fn layout() -> Layout {
    Layout {
        first: drawn(&[[0.0, 0.0], [10.0, 0.0], [10.0, 10.0]], false),
        second: drawn(&[[2.0, -1.0], [2.0, 1.0], [8.0, 1.0], [8.0, -9.0]], false),
        epsilon: 1e-5,
    }
}

/// The counts and the rows' indices, or the word that tells a fault.
fn page(pages: &Pages, position: u64, budget: u64, room: usize) -> Result<Vec<u64>, u64> {
    let page = pages.page(Span { position, budget }, room);
    let page = page.map_err(Fault::word)?;
    let indices = page.rows.iter().flat_map(|row| row.indices);
    Ok(page.counts().into_iter().chain(indices).collect())
}

#[test]
fn pages_by_hand() {
    let layout = layout();
    let pages = Pages::new(layout.listed(Call::Mutual), layout.epsilon);
    let all: Vec<[u64; 2]> = pages.rows().iter().map(|row| row.indices).collect();
    assert_eq!((pages.all(), all), (6, vec![[0, 0], [0, 2]]));
    let page = |position, budget, room| page(&pages, position, budget, room);
    // at the budget, before a row, at the end
    assert_eq!(page(0, 2, 2), Ok(vec![1, 2, 2, 6, 0, 0]));
    assert_eq!(page(0, 9, 1), Ok(vec![1, 2, 2, 6, 0, 0]));
    assert_eq!(page(2, u64::MAX, 1), Ok(vec![1, 4, 6, 6, 0, 2]));
    assert_eq!(page(1, 1, 1), Ok(vec![0, 1, 2, 6]));
    assert_eq!(page(6, 1, 1), Ok(vec![0, 0, 6, 6]));
    assert_eq!(page(7, 0, 0), Err(0xa_010d));
    assert_eq!(page(6, 0, 0), Err(0xb_010e));
    assert_eq!(page(6, 1, 0), Err(0x9_0108));
}

#[test]
fn pages_of_one_path_by_hand() {
    // a bow tie: of a closed path of four segments, 0 with 2 has the only row, at position 1
    let first = drawn(&[[0.0, 0.0], [2.0, 2.0], [2.0, 0.0], [0.0, 2.0]], true);
    let layout = Layout {
        first,
        ..Layout::default()
    };
    let pages = Pages::new(layout.listed(Call::Own), 1e-5);
    assert_eq!(page(&pages, 0, 9, 9), Ok(vec![1, 6, 6, 6, 0, 2]));
    assert_eq!(page(&pages, 1, 2, 9), Ok(vec![1, 2, 3, 6, 0, 2]));
    assert_eq!(page(&pages, 2, 9, 9), Ok(vec![0, 4, 6, 6]));
    let open = drawn(&[[0.0, 0.0], [2.0, 2.0], [2.0, 0.0], [0.0, 2.0]], false);
    let pages = Pages::new(Call::Own.of(open.path(), open.path()), 1e-5);
    assert_eq!(page(&pages, 0, 9, 9), Ok(vec![1, 3, 3, 3, 0, 2]));
    // back over itself
    let fold = drawn(&[[0.0, 0.0], [10.0, 0.0], [5.0, 0.0]], false);
    let pages = Pages::new(Call::Own.of(fold.path(), fold.path()), 1e-5);
    assert_eq!(page(&pages, 0, 9, 9), Ok(vec![1, 1, 1, 1, 0, 1]));
    let nothing = Drawn::default();
    let pages = Pages::new(Call::Own.of(nothing.path(), nothing.path()), 1e-5);
    assert_eq!(page(&pages, 0, 1, 1), Ok(vec![0, 0, 0, 0]));
    assert_eq!(page(&pages, 1, 1, 1), Err(0xa_010d));
    let faulty = Pages::new(layout.listed(Call::Own), f64::NAN);
    assert_eq!(page(&faulty, 7, 0, 0), Err(0x104));
}

/// The first layout in tracks: of the pairs at 0 to 5, those at 0, 2 and 4 are of one trace.
#[test]
fn pages_with_traces_by_hand() {
    let mut layout = layout();
    let give = |drawn: &mut Drawn, traces: &[f64]| {
        let each = drawn.traces().zip(traces);
        each.for_each(|(trace, given)| *trace = *given);
    };
    give(&mut layout.first, &[1.0, 2.0, 1.0]);
    give(&mut layout.second, &[1.0, 2.0, 1.0, 2.0]);
    let pages = Pages::new(layout.listed(Call::Mutual), layout.epsilon);
    assert_eq!(
        (pages.all(), pages.looked_at(), pages.rows().len()),
        (6, 3, 0)
    );
    assert_eq!(page(&pages, 0, 1, 1), Ok(vec![0, 1, 1, 6]));
    assert_eq!(page(&pages, 2, 9, 1), Ok(vec![0, 4, 6, 6]));
    assert_eq!(page(&pages, 7, 9, 1), Err(0xa_010d));
    // the row at 2 is left, and the pair at 0, which would make one, is passed
    give(&mut layout.second, &[1.0, 2.0, -0.0, 0.0]);
    let pages = Pages::new(layout.listed(Call::Mutual), layout.epsilon);
    assert_eq!(
        (pages.all(), pages.looked_at(), pages.rows().len()),
        (6, 4, 1)
    );
    assert_eq!(page(&pages, 0, 2, 1), Ok(vec![0, 2, 2, 6]));
    assert_eq!(page(&pages, 0, 4, 1), Ok(vec![1, 4, 4, 6, 0, 2]));
    assert_eq!(page(&pages, 2, 9, 1), Ok(vec![1, 4, 6, 6, 0, 2]));
}

/// Compares until the first difference.
fn run(defect: &'static str) -> Run {
    stand_in::set(defect);
    let mut run = Run::new(STAND_IN, 1, 1);
    run.all(INPUTS);
    run
}

#[test]
fn a_right_stand_in_passes() {
    assert_eq!(run("").report(), 0);
}

/// Pairs of one trace, as they are passed and checked, and counted in positions, budgets and counts.
#[test]
fn wrong_traces_are_found() {
    let others = [
        "pairs of one trace are counted",
        "pairs of one trace have no position",
        "the budget is without pairs of one trace",
        "passed without pairs of one trace",
        "the next position without pairs of one trace",
        "all pairs without those of one trace",
        "all pairs without those of one trace passed",
        "stops before a pair of one trace that meets",
        "stops before pairs of one trace if no row is left",
        "stops before pairs of one trace",
        "pairs of one trace at the page's end are left",
        "pairs of one trace behind the page are passed",
    ];
    for defect in OF_PAIRS.into_iter().chain(OF_CHECKS).chain(others) {
        assert!(!run(defect).goes_on(), "not found: {defect}");
    }
}

#[test]
fn wrong_stand_ins_are_found() {
    for defect in [
        "the next one is no pair",
        "the closing pair is none",
        "a segment with itself",
        "j outer, i inner",
        "a position of 32 bits",
        "13 at the end",
        "13 at no pairs",
        "13 two beyond",
        "a budget of 32 bits",
        "no 14",
        "8 by the indices only",
        "8 by the points only",
        "8 by a number less",
        "8 before the end only",
        "8 for a row only",
        "14 before 13",
        "8 before 14",
        "8 before 13",
        "13 before faults",
        "14 before faults",
        "8 before faults",
        "13 before 5",
        "room for three counts",
        "room for counts last",
        "a refusal clears the counts",
        "a refusal clears a number",
        "a row less fits",
        "the budget wraps round",
        "a pair more",
        "a pair less",
        "a signed end",
        "the first pair's row is lost",
        "stops after the last row",
        "the budget counts rows",
        "stops where i changes",
        "the pair without room is passed",
        "rows in reverse",
        "indices exchanged",
        "j from the page's start",
        "an absent number is -0",
        "a NaN",
        "what follows is cleared",
        "the row without room is begun",
        "passed and next exchanged",
        "the end's next is 0",
        "what is left, not all",
        "rows since 0",
        "a pair passed at the end",
        "never at the end",
        "a fifth count",
        "the full listing has other points",
        "no place",
        "no index",
        "no owner",
        "one for every NaN and infinity",
        "the owner from 1",
        "the index from 1",
        "the last path's fault",
        "the last fault",
        "y for x",
        "the bulge's item for y",
        "an index of 11 bits",
        "a chord's second vertex",
        "the number's place in the path",
        "13 with the epsilon's item",
        "14 with the position",
        "8 with an owner",
        "7 with an index",
    ] {
        assert!(!run(defect).goes_on(), "not found: {defect}");
    }
}
