//! A stand-in for the listings, right or with a defect in what it does with traces; and its parts, which the stand-ins for
//! pages, for boxed listings and for joints use too. How pairs meet it takes from the model, with all traces 0.

use std::cell::{Cell, RefCell};
use std::collections::HashSet;

use super::model::{no_row_left, row_room, Listed, Listing, Path, Rows as Found};
use super::traces::cleared;
use crate::capi::Rows;
use crate::crossing::faults::{Fault, Item, Place, NO_TRACE};
use crate::crossing::NO_ROOM;
use crate::pages::model::in_order;
use crate::vertex::{TRACE, VERTEX};

/// Whether the stand-in has a defect, by its name.
pub type Is<'a> = &'a dyn Fn(&str) -> bool;

/// Defects of which pairs are passed over: any stand-in may have one.
pub const OF_PAIRS: [&str; 17] = [
    "traces play no part",
    "trace 0 passed over",
    "-0 is another trace than 0",
    "any two traces above 0",
    "a trace and 0",
    "traces of two paths are not compared",
    "traces of one path are not compared",
    "neighbours are not passed over",
    "only neighbours are passed over",
    "the second vertex's trace",
    "the trace of the vertex before",
    "a closing segment has vertex 0's trace",
    "a closing segment has no trace",
    "an open path's last trace is its last segment's",
    "an open path's last trace must be above 0",
    "traces of seven bits",
    "traces that differ by one are the same",
];

/// Defects of the checks, likewise.
pub const OF_CHECKS: [&str; 25] = [
    "no trace is looked at",
    "an open path's last trace is not looked at",
    "the last trace is not looked at",
    "a single vertex's trace is not looked at",
    "the second path's traces are not looked at",
    "15 before 3",
    "15 before 2",
    "a trace before its bulge",
    "traces behind all other numbers",
    "traces behind chords",
    "-0 refused",
    "255 refused",
    "256 taken",
    "257 taken",
    "the float above 255 taken",
    "the float below 255 taken",
    "fractions taken",
    "numbers below 0 taken",
    "subnormals taken",
    "a NaN taken",
    "11 for an infinity",
    "15 for a NaN",
    "15 for an infinity",
    "3 for a trace",
    "the bulge's item for a trace",
];

fn trace(path: Path, vertex: usize) -> f64 {
    path.numbers[VERTEX * vertex + TRACE]
}

/// Whether a pair is passed over.
pub fn passes_over(listed: Listed, pair: [u64; 2], is: Is) -> bool {
    let [i, j] = pair.map(|index| index as usize);
    let (first, second, own) = match listed {
        Listed::Mutual(first, second) => (first, second, false),
        Listed::Own(path) => (path, path, true),
    };
    let of = |path: Path, i: usize| {
        let n = path.vertices();
        let (closing, last) = (path.closed && i + 1 == n, !path.closed && i + 2 == n);
        match () {
            _ if is("the second vertex's trace") => trace(path, (i + 1) % n),
            _ if is("the trace of the vertex before") => trace(path, (i + n - 1) % n),
            _ if is("a closing segment has vertex 0's trace") && closing => trace(path, 0),
            _ if is("a closing segment has no trace") && closing => 0.0,
            _ if is("an open path's last trace is its last segment's") && last => {
                trace(path, i + 1)
            }
            _ => trace(path, i),
        }
    };
    let (a, b) = (of(first, i), of(second, j));
    let same = a > 0.0 && a == b;
    let around = own && first.closed && i == 0 && j + 1 == first.segments();
    let neighbours = own && j == i + 1 || around;
    let without = |path: Path| !path.closed && trace(path, path.vertices() - 1) == 0.0;
    match () {
        _ if is("traces play no part") => false,
        _ if is("trace 0 passed over") => a == b,
        _ if is("-0 is another trace than 0") => a.to_bits() == b.to_bits() && a.to_bits() > 0,
        _ if is("any two traces above 0") => a > 0.0 && b > 0.0,
        _ if is("a trace and 0") => same || (a > 0.0) != (b > 0.0),
        _ if is("traces of two paths are not compared") => same && own,
        _ if is("traces of one path are not compared") => same && !own,
        _ if is("neighbours are not passed over") => same && !neighbours,
        _ if is("only neighbours are passed over") => same && (neighbours || !own),
        _ if is("an open path's last trace must be above 0") => {
            same && !without(first) && !without(second)
        }
        _ if is("traces of seven bits") => {
            let bits = |trace: f64| trace as u64 & 127;
            a > 0.0 && b > 0.0 && bits(a) == bits(b)
        }
        _ if is("traces that differ by one are the same") => {
            a > 0.0 && b > 0.0 && (a - b).abs() <= 1.0
        }
        _ => same,
    }
}

/// The first two faults.
pub fn faults(listed: Listed, epsilon: f64, is: Is) -> Vec<Fault> {
    let mut all: Vec<Fault> = listed.faults(epsilon).collect();
    let paths = listed.paths();
    let path = |place: Place| paths[place.owner];
    let is_last = |place: Place| place.index + 1 == path(place).vertices();
    // each defect here concerns traces only
    let mut taken = |is_taken: &dyn Fn(Place, f64) -> bool| {
        let of_trace = |place: Place| place.item == Item::Trace;
        let is_taken = |place: Place| is_taken(place, trace(path(place), place.index));
        all.retain(|fault| !(of_trace(fault.place) && is_taken(fault.place)));
    };
    match () {
        _ if is("no trace is looked at") => taken(&|_, _| true),
        _ if is("an open path's last trace is not looked at") => {
            taken(&|place, _| !path(place).closed && is_last(place));
        }
        _ if is("the last trace is not looked at") => taken(&|place, _| is_last(place)),
        _ if is("a single vertex's trace is not looked at") => {
            taken(&|place, _| path(place).vertices() == 1);
        }
        _ if is("the second path's traces are not looked at") => {
            taken(&|place, _| place.owner == 1)
        }
        _ if is("256 taken") => taken(&|_, x| x == 256.0),
        _ if is("257 taken") => taken(&|_, x| x == 257.0),
        _ if is("the float above 255 taken") => taken(&|_, x| x == 255f64.next_up()),
        _ if is("the float below 255 taken") => taken(&|_, x| x == 255f64.next_down()),
        _ if is("fractions taken") => taken(&|_, x| x > 0.0 && x < 255.0),
        _ if is("numbers below 0 taken") => taken(&|_, x| x < 0.0 && x.is_finite()),
        _ if is("subnormals taken") => taken(&|_, x| x.is_subnormal()),
        _ if is("a NaN taken") => taken(&|_, x| x.is_nan()),
        _ if is("-0 refused") => refuse(&mut all, &paths, (-0f64).to_bits()),
        _ if is("255 refused") => refuse(&mut all, &paths, 255f64.to_bits()),
        _ => {}
    }
    for fault in all
        .iter_mut()
        .filter(|fault| fault.place.item == Item::Trace)
    {
        match fault.number {
            12 if is("11 for an infinity") => fault.number = 11,
            11 if is("15 for a NaN") => fault.number = NO_TRACE,
            12 if is("15 for an infinity") => fault.number = NO_TRACE,
            NO_TRACE if is("3 for a trace") => fault.number = 3,
            _ if is("the bulge's item for a trace") => fault.place.item = Item::Bulge,
            _ => {}
        }
    }
    all.sort_by_key(|fault| order(*fault, is));
    all.truncate(2);
    all
}

/// Puts in a fault for each trace with these bits.
fn refuse(all: &mut Vec<Fault>, paths: &[Path], bits: u64) {
    let is_one = |fault: &Fault| matches!(fault.place.item, Item::Epsilon | Item::Length);
    if all.iter().any(is_one) {
        return;
    }
    for (owner, path) in paths.iter().enumerate() {
        let vertices = (0..path.vertices()).filter(|i| trace(*path, *i).to_bits() == bits);
        all.extend(vertices.map(|i| Fault::new(NO_TRACE, Place::new(Item::Trace, owner, i))));
    }
}

/// The order of the checks: epsilon, lengths, and for each path its numbers, vertex by vertex, and its chords.
fn order(fault: Fault, is: Is) -> [usize; 5] {
    let Place { item, owner, index } = fault.place;
    let (part, among) = match item {
        Item::Epsilon => return [0; 5],
        Item::Length => return [1, owner, 0, 0, 0],
        Item::Chord => (2, 0),
        Item::Trace if is("traces behind all other numbers") => (1, 0),
        Item::Trace if is("traces behind chords") => (3, 0),
        Item::Trace if is("a trace before its bulge") => (0, 3),
        Item::Trace if fault.number == NO_TRACE && is("15 before 3") => (0, 5),
        Item::Trace if fault.number == NO_TRACE && is("15 before 2") => (0, 1),
        Item::X => (0, 2),
        Item::Y => (0, 3),
        Item::Bulge if fault.number == 3 => (0, 6),
        // 11 and 12 come before 15 in either order
        Item::Bulge => (0, 4),
        _ => (0, 7),
    };
    [2, owner, part, index, among]
}

/// What the stand-in lists: faults, or rows and how many pairs it looks at.
pub fn listing(listed: Listed, epsilon: f64, is: Is) -> Listing {
    let faults = faults(listed, epsilon, is);
    if !faults.is_empty() {
        let rows = Found::default();
        return Listing { faults, rows };
    }
    let mut rows = cleared(listed, |listed| listed.rows(epsilon));
    let over = |pair: [u64; 2]| passes_over(listed, pair, is);
    let meets: HashSet<[u64; 2]> = rows.rows.iter().map(|row| row.indices).collect();
    rows.rows.retain(|row| !over(row.indices));
    in_order(listed, |pair| {
        let counted = match () {
            _ if is("pairs of one trace are counted") => true,
            _ if is("pairs of one trace that meet are counted") => meets.contains(&pair),
            _ => false,
        };
        rows.pairs -= u64::from(over(pair) && !counted);
    });
    Listing { faults, rows }
}

/// A call's paths and epsilon, bit by bit.
pub type Key = (Vec<Vec<u64>>, Vec<bool>, u64);

pub fn key(listed: Listed, epsilon: f64) -> Key {
    let paths = listed.paths();
    let bits = |path: &Path| path.numbers.iter().map(|x| x.to_bits()).collect();
    (
        paths.iter().map(bits).collect(),
        paths.iter().map(|path| path.closed).collect(),
        epsilon.to_bits(),
    )
}

thread_local! {
    /// What is wrong with the stand-in.
    static DEFECT: Cell<&'static str> = const { Cell::new("") };
    /// The last listing, since many calls are on the same paths.
    static LAST: RefCell<Option<(Key, Listing)>> = const { RefCell::new(None) };
}

/// Gives the stand-in for the full listing a defect, or none if the name is empty.
pub fn set(defect: &'static str) {
    DEFECT.set(defect);
    LAST.set(None);
}

/// The full listing.
pub fn full(listed: Listed, epsilon: f64, lent: Rows) -> u64 {
    let key = key(listed, epsilon);
    LAST.with_borrow_mut(|last| {
        if last.as_ref().is_none_or(|(of, _)| *of != key) {
            let found = listing(listed, epsilon, &|defect| DEFECT.get() == defect);
            *last = Some((key, found));
        }
        let (_, listing) = last.as_ref().expect("it was put there");
        write(listing, lent)
    })
}

/// Writes a listing, or refuses.
pub fn write(listing: &Listing, lent: Rows) -> u64 {
    let rows = &listing.rows.rows;
    if lent.counts.len() < 2 {
        return NO_ROOM;
    }
    if let Some(fault) = listing.faults.first() {
        return fault.word();
    }
    if row_room(lent.indices.len(), lent.points.len()) < rows.len() {
        return no_row_left().word();
    }
    for (k, row) in rows.iter().enumerate() {
        let indices = [row.indices[0], row.indices[1], row.class];
        lent.indices[3 * k..3 * k + 3].copy_from_slice(&indices);
        lent.points[4 * k..4 * k + 4].copy_from_slice(&row.points);
    }
    lent.counts[..2].copy_from_slice(&[rows.len() as u64, listing.rows.pairs]);
    0
}
