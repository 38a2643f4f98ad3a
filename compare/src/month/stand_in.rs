//! A stand-in for the library, right or with a defect, to try the comparison on. What it lists it takes from the stand-in for
//! listings; it counts by itself.

use std::cell::{Cell, RefCell};

use super::ask::COUNTS;
use super::Ours;
use crate::capi::Rows;
use crate::crossing::faults::{Fault, Item, Place};
use crate::crossing::NO_ROOM;
use crate::listings::model::{no_row_left, row_room, Listed, Listing};
use crate::listings::stand_in::{self, key, write, Key};

pub const STAND_IN: Ours = Ours {
    counted,
    plain,
    join,
};

const WORDS: usize = 40;
const MOST: u64 = 0xffff_ffff_fbff_ffff;

/// Gives the stand-in a defect, or none if the name is empty. If it is of one word, of one class or of one refusal, this says of
/// which.
pub fn set(defect: &'static str, of: usize) {
    DEFECT.set(defect);
    OF.set(of);
    LAST.set(None);
}

thread_local! {
    /// What is wrong with the stand-in.
    static DEFECT: Cell<&'static str> = const { Cell::new("") };
    static OF: Cell<usize> = const { Cell::new(0) };
    /// The last listing, since many calls are on the same paths.
    static LAST: RefCell<Option<(Key, Listing)>> = const { RefCell::new(None) };
}

fn is(defect: &str) -> bool {
    DEFECT.get() == defect
}

/// Whether it has the defect for this one.
fn is_of(defect: &str, one: usize) -> bool {
    is(defect) && OF.get() == one
}

fn with_listing<T>(listed: Listed, epsilon: f64, call: impl FnOnce(&Listing) -> T) -> T {
    let key = key(listed, epsilon);
    LAST.with_borrow_mut(|last| {
        if last.as_ref().is_none_or(|(of, _)| *of != key) {
            let listing = stand_in::listing(listed, epsilon, &is);
            *last = Some((key, listing));
        }
        let (_, listing) = last.as_ref().expect("it was put there");
        call(listing)
    })
}

fn plain(listed: Listed, epsilon: f64, lent: Rows) -> u64 {
    with_listing(listed, epsilon, |listing| {
        let word = write(listing, lent);
        if is("the plain listing has another word") && word != 0 {
            return word ^ 1;
        }
        word
    })
}

fn refused_19() -> u64 {
    let place = match () {
        _ if is("19 with the rows' item") => Place::alone(Item::Rows),
        _ if is("19 with the boxes' item") => Place::alone(Item::Boxes),
        _ if is("19 with an owner") => Place::new(Item::Report, 1, 0),
        _ if is("19 with an index") => Place::new(Item::Report, 0, 1),
        _ => Place::alone(Item::Report),
    };
    let number = if is("20 for 19") { 20 } else { 19 };
    Fault::new(number, place).word()
}

/// Whether a counted listing is refused for the report.
fn is_too_full(report: &[u64]) -> bool {
    let layouts = match () {
        _ if is("the 10,001st accepted") => report[0] > 10_000,
        _ if is("the 10,000th refused") => report[0] >= 9_999,
        _ if is("only exactly 10,000 layouts are too many") => report[0] == 10_000,
        _ if is("layouts of 32 bits") => report[0] as u32 >= 10_000,
        _ if is("layouts with a sign") => report[0] as i64 >= 10_000,
        _ if is("layouts are not looked at") => false,
        _ => report[0] >= 10_000,
    };
    let most = match () {
        _ if is("a word at its most refused") => MOST - 1,
        _ if is("a word beyond its most accepted") => MOST + 1,
        _ if is("words up to 2^64 - 1") => u64::MAX,
        _ if is("room for 16,777,216") => u64::MAX - (1 << 24),
        _ if is("words up to 2^63") => 1 << 63,
        _ => MOST,
    };
    let looked_at = |k: usize| match () {
        _ if is_of("a word is not looked at", k) => false,
        _ if is("refusals' words are not looked at") => k < 8,
        _ => k > 0,
    };
    let mut words = report[..report.len().min(WORDS)].iter().enumerate();
    layouts || words.any(|(k, word)| looked_at(k) && *word > most)
}

fn counted(listed: Listed, epsilon: f64, lent: Rows, report: &mut [u64]) -> u64 {
    let needed = match () {
        _ if is("39 words are enough") => 39,
        _ if is("41 words are needed") => 41,
        _ => WORDS,
    };
    let no_room = lent.counts.len() < COUNTS || report.len() < needed;
    if no_room {
        if is("no room counts a layout") && report.len() >= WORDS && report[0] < 10_000 {
            report[0] += 1;
        }
        let full = report.len() >= WORDS && is_too_full(report);
        if full && is("19 before no room for counts") {
            return refused_19();
        }
        if report.len() < needed && is("a report too short is 19") {
            return refused_19();
        }
        if lent.counts.len() >= COUNTS && is("a fault before no room for a report") {
            return with_listing(listed, epsilon, |listing| match listing.faults.first() {
                Some(fault) => fault.word(),
                None => NO_ROOM,
            });
        }
        return NO_ROOM;
    }
    with_listing(listed, epsilon, |listing| {
        let room = row_room(lent.indices.len(), lent.points.len());
        let fault = listing.fault(room);
        let told = fault.is_some() && is("19 last, and what comes before it counted");
        if is_too_full(report) && !told {
            return too_full(listing, fault, lent, report);
        }
        let word = write(listing, lent);
        tally(listed, listing, fault, room, report);
        word
    })
}

/// A report that is too full, in the right way or in a wrong one.
fn too_full(listing: &Listing, fault: Option<Fault>, lent: Rows, report: &mut [u64]) -> u64 {
    let before = |numbers: &[u64]| fault.filter(|fault| numbers.contains(&fault.number));
    let told = match () {
        _ if is("19 after 4") => before(&[4]),
        _ if is("19 after lengths") => before(&[4, 6, 7]),
        _ if is("19 after the numbers") => before(&[2, 3, 4, 6, 7, 11, 12, 15]),
        _ if is("19 after chords") => before(&[2, 3, 4, 5, 6, 7, 11, 12, 15]),
        _ if is("19 last") => fault,
        _ => None,
    };
    if let Some(fault) = told {
        return fault.word();
    }
    if is("19 counted") && report[27] < MOST {
        report[27] += 1;
    }
    if is("19 counts a layout") {
        report[0] = report[0].wrapping_add(1);
    }
    if is("19 begins a fresh report") {
        report[..WORDS].fill(0);
    }
    if is("19 clears the counts") {
        lent.counts.fill(0);
    } else if is("19 writes the rows") {
        write(listing, lent);
    }
    refused_19()
}

fn tally(listed: Listed, listing: &Listing, fault: Option<Fault>, room: usize, report: &mut [u64]) {
    let mut add = |word: usize, by: u64| {
        let sum = report[word].wrapping_add(by);
        report[word] = match () {
            _ if is_of("a word is not counted", word) => return,
            _ if is_of("a word is overwritten", word) => by,
            _ if is("words of 32 bits") => u64::from(sum as u32),
            _ if is("words as floats") => (report[word] as f64 + by as f64) as u64,
            _ if is("words of 63 bits") => sum & (u64::MAX >> 1),
            _ => sum,
        };
    };
    let (rows, pairs) = (&listing.rows.rows, listing.rows.pairs);
    let all = |k: usize| row_count(rows.iter().map(|row| row.class), k as u64);
    if let Some(Fault { number, .. }) = fault {
        if !(is("a refused layout is no layout") || number == 8 && is("8 is no layout")) {
            add(0, 1);
        }
        let no_rows = no_row_left().number;
        match number {
            8 if is("8 not counted") => {}
            15 if is("15 counted as 16") => add(8 + 16, 1),
            11 | 12 if is("11 and 12 counted as 1") => add(8 + 1, 1),
            _ if is("refusals one word before") => add(7 + number as usize, 1),
            _ if is("refusals one word behind") => add(9 + number as usize, 1),
            _ if is("all refusals in one word") => add(8 + 2, 1),
            _ if is("refusals by their last three bits") => add(8 + (number as usize & 7), 1),
            _ => add(8 + number as usize, 1),
        }
        // what is known of a listing that has too many rows
        let found = if number == no_rows { pairs } else { 0 };
        if is("a refused layout adds its pairs") {
            add(1, found);
        }
        if is("a refused layout adds its classes") {
            add(2, found - (rows.len() as u64).min(found));
            (1..6).for_each(|class| add(2 + class, all(class)));
        }
        if is("a refused layout adds the rows that fit") && number == no_rows {
            let fit = rows.iter().take(room).map(|row| row.class);
            (1..6).for_each(|class| add(2 + class, row_count(fit.clone(), class as u64)));
        }
        return;
    }
    if !(is("a layout without pairs is no layout") && pairs == 0
        || is("a layout without rows is no layout") && rows.is_empty())
    {
        add(0, 1);
    }
    let product: u64 = listed
        .paths()
        .iter()
        .map(|path| path.segments() as u64)
        .product();
    let looked_at = match () {
        _ if is("passed pairs counted") => product,
        _ if is("rows for pairs") => rows.len() as u64,
        _ => pairs,
    };
    add(1, looked_at);
    let none = match () {
        _ if is("rows counted as class 0") => pairs,
        _ if is("passed pairs counted as class 0") => product - rows.len() as u64,
        _ if is("passed pairs counted") => product - rows.len() as u64,
        _ if is("class 0 is not counted") => 0,
        _ => pairs - rows.len() as u64,
    };
    add(2, none);
    let held = rows.iter().take(2048).map(|row| row.class);
    let behind = rows.iter().skip(2048).map(|row| row.class);
    for class in 1..6 {
        let count = match () {
            _ if is("rows behind the 2,048th not counted") => row_count(held.clone(), class as u64),
            _ if is("rows behind the 2,048th counted twice") => {
                all(class) + row_count(behind.clone(), class as u64)
            }
            _ if is("a layout adds a class once") => all(class).min(1),
            _ => all(class),
        };
        let at = match class {
            4 if is("lines and arcs exchanged") => 5,
            5 if is("lines and arcs exchanged") => 4,
            1 if is("tangent counted as one") => 2,
            _ => class,
        };
        add(2 + at, count);
    }
    if is("the next word overwritten") {
        if let Some(word) = report.get_mut(WORDS) {
            *word = 0;
        }
    }
    if is("words of refusals cleared") {
        report[8..WORDS].fill(0);
    }
}

fn row_count(classes: impl Iterator<Item = u64>, class: u64) -> u64 {
    classes.filter(|of| *of == class).count() as u64
}

fn join(into: &mut [u64], other: &[u64]) -> u64 {
    let short = |len: usize| match () {
        _ if is("join: 39 words are enough") => len < 39,
        _ if is("join: 41 words are needed") => len < 41,
        _ => len < WORDS,
    };
    let taken = [
        is("join: the first may be short"),
        is("join: the second may be short"),
    ];
    if short(into.len()) && !taken[0] || short(other.len()) && !taken[1] {
        return NO_ROOM;
    }
    // not even a wrong one writes beyond its slice
    let words = into.len().min(other.len()).min(WORDS);
    if is("join: some words joined before 19") {
        return one_by_one(&mut into[..words], other);
    }
    if !can_join(&into[..words], other) {
        if is("join: 19 clears the first") {
            into.fill(0);
        }
        let no_rows = is("join: 8 for 19");
        return if no_rows {
            no_row_left().word()
        } else {
            refused_19()
        };
    }
    for k in 0..words {
        let (a, b) = (into[k], other[k]);
        into[k] = match () {
            _ if is("join by maximum") => a.max(b),
            _ if is_of("a word is forgotten in a join", k) => a,
            _ if is_of("a word is taken in a join", k) => b,
            _ if is("join: saturates") => a.saturating_add(b),
            _ if is("join: words of 32 bits") => u64::from(a.wrapping_add(b) as u32),
            _ if is("join: the second put in place of the first") => b,
            _ if is("join: or") => a | b,
            _ => a.wrapping_add(b),
        };
    }
    if let Some(word) = into.get_mut(WORDS) {
        match other.get(WORDS) {
            Some(b) if is("join: the next word is joined") => *word = word.wrapping_add(*b),
            _ if is("join: the next word cleared") => *word = 0,
            _ => {}
        }
    }
    u64::from(is("join: answers 1"))
}

fn can_join(into: &[u64], other: &[u64]) -> bool {
    let fits = |k: usize| {
        let (sum, over) = into[k].overflowing_add(other[k]);
        match () {
            _ if is_of("join: a word's sum is not looked at", k) => true,
            _ if is("join: saturates") || is("join: wraps round") => k > 0 || !over,
            _ if k == 0 && is("join: layouts wrap round") => sum <= 10_000,
            _ if k == 0 && is("join: 10,001 layouts joined") => !over && sum <= 10_001,
            _ if k == 0 && is("join: 10,000 layouts refused") => !over && sum < 10_000,
            _ if k == 0 && is("join: a full first report refused") => !over && into[0] < 10_000,
            _ if k == 0 && is("join: any layouts") => !over,
            _ if k == 0 => !over && sum <= 10_000,
            _ if is("join: 2^64 - 1 refused") => !over && sum < u64::MAX,
            _ if is("join: words up to a counted listing's most") => !over && sum <= MOST,
            _ => !over,
        }
    };
    (0..into.len()).all(fits)
}

/// Stops at the first word that does not fit.
fn one_by_one(into: &mut [u64], other: &[u64]) -> u64 {
    for k in 0..into.len() {
        let Some(sum) = into[k].checked_add(other[k]) else {
            return refused_19();
        };
        if k == 0 && sum > 10_000 {
            return refused_19();
        }
        into[k] = sum;
    }
    0
}
