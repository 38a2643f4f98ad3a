//! A right stand-in for the library, which must pass; and wrong ones, which the comparison must notice.

use std::cell::Cell;

use super::faults::{Fault, Item, Place};
use super::*;

const INPUTS: u64 = 1 << 11;

thread_local! {
    /// What is wrong with the stand-in.
    static DEFECT: Cell<&'static str> = const { Cell::new("") };
}

fn is(defect: &str) -> bool {
    DEFECT.get() == defect
}

/// What a right call does, but for the defect.
fn stand_in<const CALL: usize>(numbers: &[f64], out: &mut [f64]) -> u64 {
    if out.len() < 4 {
        return NO_ROOM;
    }
    match told(&CALLS[CALL], numbers) {
        None => {
            let (case, values) = (CALLS[CALL].text)(numbers);
            out[..4].fill(0.0);
            out[..values.len()].copy_from_slice(&values);
            case
        }
        Some(fault) => {
            if is("a refusal writes") {
                out[3] = 0.0;
            }
            word(CALL, fault)
        }
    }
}

/// Which fault is told.
fn told(call: &Call, numbers: &[f64]) -> Option<Fault> {
    let faults: Vec<Fault> = call.faults(numbers).collect();
    if is("v2's bulge") && call.chords.len() == 2 && faults.is_empty() {
        return Fault::of(Place::new(Item::Bulge, 0, 1), numbers[5]);
    }
    let first = *faults.first()?;
    match () {
        _ if is("the last fault") => faults.last().copied(),
        _ if is("epsilon last") => {
            let other = faults.iter().find(|fault| fault.number != 4);
            other.or(faults.first()).copied()
        }
        _ if is("NaNs first") => {
            let nan = faults.iter().find(|fault| fault.number == 11);
            nan.or(faults.first()).copied()
        }
        _ if is("u's chord first") => {
            let of_u = |fault: &&Fault| fault.number == 5 && fault.place.owner == 1;
            let chord = faults.iter().find(of_u).filter(|_| first.number == 5);
            chord.or(faults.first()).copied()
        }
        _ => Some(first),
    }
}

/// The word of a fault, with a defect in one of its parts.
fn word(
    call: usize,
    Fault {
        mut number,
        mut place,
    }: Fault,
) -> u64 {
    let Place { item, owner, index } = place;
    let owned = item != Item::Epsilon;
    match item {
        _ if is("no place") => return 256 + number,
        _ if is("no owner") => place.owner = 0,
        _ if is("no index") => place.index = 0,
        _ if is("the owner from 1") && owned => place.owner += 1,
        _ if is("a kernel's points by index") && call == 0 => {
            (place.owner, place.index) = (owner / 2, owner % 2);
        }
        _ if is("a pair's vertices by owner") && call == PAIRS && item != Item::Chord => {
            (place.owner, place.index) = (2 * owner + index, 0);
        }
        Item::Radius | Item::CenterX | Item::CenterY if is("a circle counts by itself") => {
            place.owner = owner.saturating_sub(2);
        }
        Item::CenterX if is("x for a centre's") => place.item = Item::X,
        Item::CenterY if is("a centre's y for x") => place.item = Item::CenterX,
        Item::Radius if is("a radius without its item") => place.item = Item::Epsilon,
        Item::Chord if is("a chord with its end") => place.index = 1,
        Item::Chord if is("the bulge of a chord") => place.item = Item::Bulge,
        Item::Epsilon if is("epsilon with an owner") => place.owner = 1,
        Item::Epsilon if is("11 for epsilon") => number = 11,
        _ => {}
    }
    number = match number {
        11 | 12 if is("1 for both") => 1,
        11 if is("a NaN is infinite") => 12,
        12 if is("infinite is beyond a limit") && item == Item::X => 2,
        12 if is("infinite is beyond a circle's limit") && item == Item::Radius => 9,
        _ => number,
    };
    Fault { number, place }.word()
}

/// How many differences there are.
fn found(defect: &'static str) -> u64 {
    DEFECT.set(defect);
    let calls: &'static [Call; 4] = Box::leak(Box::new([
        Call {
            ours: stand_in::<0>,
            ..CALLS[0]
        },
        Call {
            ours: stand_in::<1>,
            ..CALLS[1]
        },
        Call {
            ours: stand_in::<2>,
            ..CALLS[2]
        },
        Call {
            ours: stand_in::<3>,
            ..CALLS[3]
        },
    ]));
    check_calls(calls, INPUTS, 1)
}

#[test]
fn a_right_stand_in_passes() {
    assert_eq!(found(""), 0);
}

#[test]
fn wrong_stand_ins_are_found() {
    for defect in [
        "a refusal writes",
        "the last fault",
        "epsilon last",
        "NaNs first",
        "u's chord first",
        "v2's bulge",
        "no place",
        "no owner",
        "no index",
        "the owner from 1",
        "a kernel's points by index",
        "a pair's vertices by owner",
        "a circle counts by itself",
        "x for a centre's",
        "a centre's y for x",
        "a radius without its item",
        "a chord with its end",
        "the bulge of a chord",
        "epsilon with an owner",
        "11 for epsilon",
        "1 for both",
        "a NaN is infinite",
        "infinite is beyond a limit",
        "infinite is beyond a circle's limit",
    ] {
        assert!(found(defect) > 0, "not found: {defect}");
    }
}
