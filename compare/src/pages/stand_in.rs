//! A stand-in for the library, right or with a defect, to try the comparison on. It goes pair by pair through a list of them.

use std::cell::{Cell, RefCell};
use std::collections::{HashMap, HashSet};

use super::ask::BEYOND_ALL;
use super::model::{of_page, BEYOND, NO_BUDGET, NO_ROW_FITS};
use super::Ours;
use crate::capi::{Rows, Span};
use crate::crossing::faults::{Fault, Item};
use crate::crossing::NO_ROOM;
use crate::listings::model::{row_room, Listed, Listing, Path};
use crate::listings::sites::OF_A_VERTEX;
use crate::listings::stand_in::{self, key, passes_over, Key};
use crate::listings::traces::would_row;
use crate::vertex::VERTEX;

pub const STAND_IN: Ours = Ours { page, full };

/// Gives the stand-in a defect, or none if the name is empty.
pub fn set(defect: &'static str) {
    DEFECT.set(defect);
    LAST.set(None);
}

/// A listing with its pairs in order, and the row of each, if it makes one. Of a pair of one trace also whether it would make
/// one.
struct Given {
    listing: Listing,
    pairs: Vec<[u64; 2]>,
    row: Vec<Option<usize>>,
    over: Vec<bool>,
    row_over: Vec<bool>,
}

impl Given {
    fn new(listed: Listed, epsilon: f64) -> Given {
        let listing = stand_in::listing(listed, epsilon, &is);
        let mut pairs = match listed {
            _ if !listing.faults.is_empty() => Vec::new(),
            Listed::Mutual(first, second) => both(first, second),
            Listed::Own(path) => {
                let last = path.segments() as u64;
                let mut pairs = both(path, path);
                pairs.retain(|&[i, j]| match () {
                    _ if is("the next one is no pair") => i + 1 < j,
                    _ if is("the closing pair is none") => i < j && (i > 0 || j + 1 < last),
                    _ if is("a segment with itself") => i <= j,
                    _ => i < j,
                });
                pairs
            }
        };
        let is_over = |pair: &[u64; 2]| passes_over(listed, *pair, &is);
        if is("pairs of one trace have no position") {
            pairs.retain(|pair| !is_over(pair));
        }
        let over: Vec<bool> = pairs.iter().map(is_over).collect();
        let would_row = match listing.faults[..] {
            [] => would_row(listed, epsilon, &listing.rows.rows),
            _ => Vec::new(),
        };
        let would_row: HashSet<[u64; 2]> = would_row.into_iter().collect();
        let each = pairs.iter().zip(&over);
        let row_over = each
            .map(|(pair, over)| *over && would_row.contains(pair))
            .collect();
        let places = listing.rows.rows.iter().enumerate();
        let row_of: HashMap<[u64; 2], usize> = places.map(|(at, row)| (row.indices, at)).collect();
        let row = pairs.iter().map(|pair| row_of.get(pair).copied()).collect();
        Given {
            listing,
            pairs,
            row,
            over,
            row_over,
        }
    }
}

fn both(first: Path, second: Path) -> Vec<[u64; 2]> {
    let of = |path: Path| 0..path.segments() as u64;
    let mut pairs: Vec<[u64; 2]> = of(first)
        .flat_map(|i| of(second).map(move |j| [i, j]))
        .collect();
    if is("j outer, i inner") {
        pairs.sort_by_key(|&[i, j]| (j, i));
    }
    pairs
}

thread_local! {
    /// What is wrong with the stand-in.
    static DEFECT: Cell<&'static str> = const { Cell::new("") };
    /// The last listing, since most calls are on the same paths.
    static LAST: RefCell<Option<(Key, Given)>> = const { RefCell::new(None) };
}

fn is(defect: &str) -> bool {
    DEFECT.get() == defect
}

fn page(listed: Listed, epsilon: f64, span: Span, lent: Rows) -> u64 {
    let key = key(listed, epsilon);
    LAST.with_borrow_mut(|last| {
        if last.as_ref().is_none_or(|(of, _)| *of != key) {
            *last = Some((key, Given::new(listed, epsilon)));
        }
        let (_, given) = last.as_ref().expect("it was put there");
        answer(given, span, lent)
    })
}

fn refusal(given: &Given, span: Span, lent: &Rows) -> Option<Fault> {
    let (indices, points) = (lent.indices.len(), lent.points.len());
    let all = given.pairs.len() as u64;
    let position = if is("a position of 32 bits") {
        span.position & 0xffff_ffff
    } else {
        span.position
    };
    let beyond = match position {
        _ if is("13 at the end") => position >= all,
        _ if is("13 at no pairs") => position > all || all == 0,
        _ if is("13 two beyond") => position > all + 1,
        _ => position > all,
    };
    let no_budget = match span.budget {
        _ if is("a budget of 32 bits") => span.budget as u32 == 0,
        _ if is("no 14") => false,
        _ => span.budget == 0,
    };
    let row = |at: usize| given.row[at].is_some();
    let no_row = match row_room(indices, points) {
        _ if is("8 by the indices only") => indices < 3,
        _ if is("8 by the points only") => points < 4,
        _ if is("8 by a number less") => indices < 2 || points < 3,
        0 if is("8 before the end only") => position < all,
        0 if is("8 for a row only") => position < all && row(position as usize),
        room => room == 0,
    };
    let fault = told(&given.listing.faults);
    let far = span.position >= BEYOND_ALL;
    let last = [
        (beyond, BEYOND),
        (no_budget, NO_BUDGET),
        (no_row, NO_ROW_FITS),
    ];
    let order = match () {
        _ if is("14 before 13") => [1, 0, 2],
        _ if is("8 before 14") => [0, 2, 1],
        _ if is("8 before 13") => [2, 0, 1],
        _ => [0, 1, 2],
    };
    match fault {
        Some(_) if is("13 before faults") && far => Some(of_page(BEYOND)),
        Some(_) if is("14 before faults") && no_budget => Some(of_page(NO_BUDGET)),
        Some(_) if is("8 before faults") && no_row => Some(of_page(NO_ROW_FITS)),
        Some(fault) if is("13 before 5") && far && fault.number == 5 => Some(of_page(BEYOND)),
        Some(fault) => Some(fault),
        None => order
            .into_iter()
            .map(|at| last[at])
            .find(|one| one.0)
            .map(|one| of_page(one.1)),
    }
}

/// Which of the faults is told.
fn told(faults: &[Fault]) -> Option<Fault> {
    let (first, last) = (*faults.first()?, *faults.last()?);
    let again = first.place.item == last.place.item && first.place.owner < last.place.owner;
    Some(match () {
        _ if is("the last fault") => last,
        _ if is("the last path's fault") && again => last,
        _ => first,
    })
}

/// The returned word, right or with a defect in its parts.
fn word(fault: Fault) -> u64 {
    let Fault { number, mut place } = fault;
    let at = OF_A_VERTEX.iter().position(|item| *item == place.item);
    let of_path = at.is_some() || place.item == Item::Chord;
    match place.item {
        _ if is("no place") => return 256 + number,
        _ if is("no index") => place.index = 0,
        _ if is("no owner") => place.owner = 0,
        _ if is("the owner from 1") && of_path => place.owner += 1,
        _ if is("the index from 1") && of_path => place.index += 1,
        _ if is("an index of 11 bits") => place.index &= 0x7ff,
        Item::X if is("y for x") => place.item = Item::Y,
        Item::Y if is("the bulge's item for y") => place.item = Item::Bulge,
        Item::Chord if is("a chord's second vertex") => place.index += 1,
        _ if is("the number's place in the path") && at.is_some() => {
            place.index = VERTEX * place.index + at.expect("it is some");
        }
        Item::Position if is("13 with the epsilon's item") => place.item = Item::Epsilon,
        Item::Budget if is("14 with the position") => place.item = Item::Position,
        Item::Rows if is("8 with an owner") => place.owner = 1,
        Item::Length if is("7 with an index") && number == 7 => place.index = 4096,
        _ => {}
    }
    let number = match number {
        11 | 12 if is("one for every NaN and infinity") => 1,
        _ => number,
    };
    Fault { number, place }.word()
}

fn answer(given: &Given, span: Span, lent: Rows) -> u64 {
    let counts = if is("room for three counts") { 3 } else { 4 };
    if lent.counts.len() < counts && !is("room for counts last") {
        return NO_ROOM;
    }
    if let Some(fault) = refusal(given, span, &lent) {
        if is("a refusal clears the counts") {
            lent.counts.fill(0);
        }
        if is("a refusal clears a number") && !lent.points.is_empty() {
            lent.points[0] = 0.0;
        }
        return word(fault);
    }
    if lent.counts.len() < counts {
        return NO_ROOM;
    }
    write(given, span, lent);
    0
}

fn write(given: &Given, Span { position, budget }: Span, lent: Rows) {
    let all = given.pairs.len() as u64;
    let room = row_room(lent.indices.len(), lent.points.len());
    let room = match room {
        _ if is("a row less fits") => (room - 1).max(1),
        _ => room,
    };
    let position = if is("a position of 32 bits") {
        position & 0xffff_ffff
    } else {
        position
    };
    let end = match position.saturating_add(budget) {
        _ if is("the budget wraps round") => position.wrapping_add(budget),
        _ if is("a pair more") => position.saturating_add(budget).saturating_add(1),
        _ if is("a pair less") => position.saturating_add((budget - 1).max(1)),
        _ if is("a signed end") => position.wrapping_add(budget).min(i64::MAX as u64),
        _ if is("the budget counts rows") => all,
        end => end,
    };
    let end = match () {
        _ if is("the budget is without pairs of one trace") => all,
        _ => end.min(all),
    };
    let all_rows = &given.listing.rows.rows;
    let mut rows = Vec::new();
    let mut at = position;
    let of_one_trace = |from: u64, to: u64| {
        let over = &given.over[from as usize..to as usize];
        over.iter().filter(|over| **over).count() as u64
    };
    // of the budget, if pairs of one trace spend nothing
    let mut spent = 0;
    while at < end {
        let over = given.over[at as usize];
        let full = rows.len() == room;
        let stops = match () {
            _ if is("the budget is without pairs of one trace") => spent == budget && !over,
            _ if is("stops before a pair of one trace that meets") => {
                full && given.row_over[at as usize]
            }
            _ if is("stops before pairs of one trace if no row is left") => full && over,
            _ if is("stops before pairs of one trace") => over && at > position,
            _ => false,
        };
        if stops {
            break;
        }
        spent += u64::from(!over);
        let pair = given.pairs[at as usize];
        let row = given.row[at as usize].map(|at| &all_rows[at]);
        let lost = is("the first pair's row is lost") && at == position && position > 0;
        if let Some(row) = row.filter(|_| !lost) {
            if rows.len() == room {
                break;
            }
            rows.push(row);
        }
        at += 1;
        if is("stops after the last row") && rows.len() == room {
            break;
        }
        if is("the budget counts rows") && rows.len() as u64 == budget {
            break;
        }
        if is("stops where i changes") && at < end && given.pairs[at as usize][0] != pair[0] {
            break;
        }
    }
    let stopped = at < end && rows.len() == room;
    if is("pairs of one trace at the page's end are left") {
        while at > position + 1 && given.over[at as usize - 1] {
            at -= 1;
        }
    }
    if is("pairs of one trace behind the page are passed") {
        while at < all && given.over[at as usize] {
            at += 1;
        }
    }
    if is("the pair without room is passed") && stopped {
        at += 1;
    }
    if is("rows in reverse") {
        rows.reverse();
    }
    for (k, row) in rows.iter().enumerate() {
        let mut indices = [row.indices[0], row.indices[1], row.class];
        let mut points = row.points;
        match () {
            _ if is("indices exchanged") => indices.swap(0, 1),
            _ if is("j from the page's start") => indices[1] = indices[1].saturating_sub(position),
            _ if is("an absent number is -0") && row.given == 2 => points[3] = -0.0,
            _ if is("a NaN") => points[0] = f64::NAN,
            _ => {}
        }
        lent.indices[3 * k..3 * k + 3].copy_from_slice(&indices);
        lent.points[4 * k..4 * k + 4].copy_from_slice(&points);
    }
    if is("what follows is cleared") {
        lent.indices[3 * rows.len()..].fill(0);
    }
    if is("the row without room is begun") && stopped {
        if let Some(place) = lent.indices.get_mut(3 * rows.len()) {
            *place = given.pairs[at as usize][0];
        }
    }
    let mut counts = [rows.len() as u64, at - position, at, all];
    match () {
        _ if is("passed without pairs of one trace") => counts[1] -= of_one_trace(position, at),
        _ if is("the next position without pairs of one trace") => {
            counts[2] -= of_one_trace(position, at);
        }
        _ if is("all pairs without those of one trace") => counts[3] -= of_one_trace(0, all),
        _ if is("all pairs without those of one trace passed") => {
            counts[3] -= of_one_trace(position, at);
        }
        _ if is("passed and next exchanged") => counts.swap(1, 2),
        _ if is("the end's next is 0") && position == all => counts[2] = 0,
        _ if is("what is left, not all") => counts[3] = all - at,
        _ if is("rows since 0") => counts[0] = all_rows.len() as u64,
        _ if is("a pair passed at the end") && position == all => counts[1] = 1,
        _ if is("never at the end") => counts[2] = counts[2].min(all.saturating_sub(1)),
        _ => {}
    }
    let places = lent.counts.len().min(4);
    lent.counts[..places].copy_from_slice(&counts[..places]);
    if is("a fifth count") && lent.counts.len() > 4 {
        lent.counts[4] = 0;
    }
}

/// The full listing, from the same rows.
fn full(listed: Listed, epsilon: f64, lent: Rows) -> u64 {
    let mut listing = stand_in::listing(listed, epsilon, &is);
    if is("the full listing has other points") {
        for row in listing.rows.rows.iter_mut().skip(1).take(1) {
            row.points[0] += 1.0;
        }
    }
    stand_in::write(&listing, lent)
}
