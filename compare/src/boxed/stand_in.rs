//! A stand-in for the library, right or with a defect, to try the comparison on. It builds the index first, and goes from segment
//! to segment, over the groups that meet.

mod boxes;

use std::cell::{Cell, RefCell};
use std::collections::HashMap;

use super::Ours;
use crate::capi::Rows;
use crate::crossing::faults::{Fault, Item, Place};
use crate::crossing::NO_ROOM;
use crate::listings::model::{no_row_left, row_room, Listed, Listing};
use crate::listings::stand_in::{self, key, Key};

pub const STAND_IN: Ours = Ours { boxed, full };

/// Gives the stand-in a defect, or none if the name is empty. If it is hidden, the index is written without it.
pub fn set(defect: &'static str, hidden: bool) {
    DEFECT.set(defect);
    HIDDEN.set(hidden);
    LAST.set(None);
}

/// The full listing, and the place of each pair's row in it.
struct Given {
    listing: Listing,
    row: HashMap<[u64; 2], usize>,
}

thread_local! {
    /// What is wrong with the stand-in.
    static DEFECT: Cell<&'static str> = const { Cell::new("") };
    static HIDDEN: Cell<bool> = const { Cell::new(false) };
    /// The last listing, since many calls are on the same paths.
    static LAST: RefCell<Option<(Key, Given)>> = const { RefCell::new(None) };
}

fn is(defect: &str) -> bool {
    DEFECT.get() == defect
}

/// What is shown of the index: without the defect if that is hidden.
fn shown<T>(of: impl FnOnce() -> T) -> T {
    let defect = DEFECT.get();
    if HIDDEN.get() {
        DEFECT.set("");
    }
    let all = of();
    DEFECT.set(defect);
    all
}

fn boxed(listed: Listed, epsilon: f64, boxes: &mut [f64], lent: Rows) -> u64 {
    with_given(listed, epsilon, |given| {
        answer(given, listed, epsilon, boxes, lent)
    })
}

fn with_given<T>(listed: Listed, epsilon: f64, call: impl FnOnce(&Given) -> T) -> T {
    let key = key(listed, epsilon);
    LAST.with_borrow_mut(|last| {
        if last.as_ref().is_none_or(|(of, _)| *of != key) {
            let listing = stand_in::listing(listed, epsilon, &is);
            let places = listing.rows.rows.iter().enumerate();
            let row = places.map(|(at, row)| (row.indices, at)).collect();
            *last = Some((key, Given { listing, row }));
        }
        let (_, given) = last.as_ref().expect("it was put there");
        call(given)
    })
}

fn too_short(index: usize, room: usize) -> bool {
    match () {
        _ if is("17 if the index fits exactly") => room <= index && index > 0,
        _ if is("17 for less than whole boxes less") => room + 4 <= index,
        _ => room < index,
    }
}

fn answer(given: &Given, listed: Listed, epsilon: f64, boxes: &mut [f64], lent: Rows) -> u64 {
    let no_index = match () {
        _ if is("17 with the rows' item") => Fault::new(17, Place::alone(Item::Rows)),
        _ if is("17 with an owner") => Fault::new(17, Place::new(Item::Boxes, 1, 0)),
        _ if is("17 with an index") => Fault::new(17, Place::new(Item::Boxes, 0, boxes.len())),
        _ => Fault::new(17, Place::alone(Item::Boxes)),
    };
    let counts = if is("room for one count") { 1 } else { 2 };
    if lent.counts.len() < counts && !is("room for counts last") {
        return NO_ROOM;
    }
    let none = boxes.is_empty() && is("17 before faults");
    if let Some(fault) = given.listing.faults.first() {
        return if none { no_index } else { *fault }.word();
    }
    let (index, pairs, passed, of_one_trace) = boxes::found(listed, epsilon);
    let all = &given.listing.rows;
    let rows: Vec<usize> = pairs
        .iter()
        .filter_map(|pair| given.row.get(pair).copied())
        .collect();
    let needed = if is("8 counts the full rows") {
        all.rows.len()
    } else {
        rows.len()
    };
    let many = row_room(lent.indices.len(), lent.points.len()) < needed;
    if many && is("8 before 17") {
        return no_row_left().word();
    }
    let no_pairs = is("17 with pairs only") && all.pairs == 0;
    if too_short(index.len(), boxes.len()) && !no_pairs {
        if is("17 writes what fits") {
            let front = boxes.len();
            boxes.copy_from_slice(&index[..front]);
        }
        return no_index.word();
    }
    // not even a wrong one writes beyond its slice
    let index = &index[..index.len().min(boxes.len())];
    let skipped = is("no index if there are no pairs") && all.pairs == 0
        || is("no index if no boxes meet") && pairs.is_empty();
    if many {
        if is("the index written on 8") {
            boxes[..index.len()].copy_from_slice(index);
        }
        if is("8 clears the counts") {
            lent.counts.fill(0);
        }
        return no_row_left().word();
    }
    if lent.counts.len() < counts {
        return NO_ROOM;
    }
    if !skipped {
        boxes[..index.len()].copy_from_slice(index);
    }
    if is("what follows the index overwritten") && boxes.len() > index.len() {
        boxes[index.len()] = 0.0;
    }
    if is("the last float overwritten") {
        if let Some(last) = boxes.last_mut().filter(|_| index.is_empty()) {
            *last = 0.0;
        }
    }
    let looked_at = match () {
        _ if is("passed pairs counted") => all.pairs,
        _ if is("pairs of groups counted") => passed,
        _ if is("rows for pairs") => rows.len() as u64,
        _ if is("pairs of one trace are counted") => pairs.len() as u64 + of_one_trace,
        _ => pairs.len() as u64,
    };
    write(given, &rows, looked_at, is("another point"), lent);
    0
}

fn write(given: &Given, rows: &[usize], looked_at: u64, spoiled: bool, lent: Rows) {
    for (k, at) in rows.iter().enumerate() {
        let row = &given.listing.rows.rows[*at];
        let indices = [row.indices[0], row.indices[1], row.class];
        let mut points = row.points;
        if spoiled && k == 1 {
            points[1] += 1.0;
        }
        lent.indices[3 * k..3 * k + 3].copy_from_slice(&indices);
        lent.points[4 * k..4 * k + 4].copy_from_slice(&points);
    }
    if is("what follows the rows overwritten") {
        lent.points[4 * rows.len()..].fill(0.0);
    }
    let counts = [rows.len() as u64, looked_at];
    let places = lent.counts.len().min(2);
    lent.counts[..places].copy_from_slice(&counts[..places]);
}

/// The full listing, from the same rows.
fn full(listed: Listed, epsilon: f64, lent: Rows) -> u64 {
    with_given(listed, epsilon, |given| {
        let rows: Vec<usize> = (0..given.listing.rows.rows.len()).collect();
        if row_room(lent.indices.len(), lent.points.len()) < rows.len() {
            return no_row_left().word();
        }
        let spoiled = is("the full listing has other points");
        write(given, &rows, given.listing.rows.pairs, spoiled, lent);
        0
    })
}
