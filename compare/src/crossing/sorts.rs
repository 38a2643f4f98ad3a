//! Sorts of numbers that a call refuses, found from the number itself: every place must meet each of them.

use super::faults::{two_to, Fault, Item, Place};
use crate::inputs::values::{down, up};

#[derive(Clone, Copy, Debug, PartialEq, Eq, PartialOrd, Ord)]
pub enum Sort {
    QuietNan {
        negative: bool,
    },
    SignallingNan {
        negative: bool,
    },
    Infinite {
        negative: bool,
    },
    BelowItsLimit,
    AboveItsLimit,
    /// Of a trace: within its limits, but no whole number.
    NotWhole,
    /// Of a trace: one of those below, by its name.
    NoTrace(&'static str),
}

const QUIET: u64 = 1 << 51;

impl Sort {
    /// Of a number that is refused, by what it is for.
    pub fn of(item: Item, x: f64) -> Sort {
        let negative = x.is_sign_negative();
        if x.is_nan() && x.to_bits() & QUIET != 0 {
            Sort::QuietNan { negative }
        } else if x.is_nan() {
            Sort::SignallingNan { negative }
        } else if x.is_infinite() {
            Sort::Infinite { negative }
        } else if item == Item::Trace {
            of_trace(x)
        } else if x < two_to(-40) {
            // no number below this is above a limit
            Sort::BelowItsLimit
        } else {
            Sort::AboveItsLimit
        }
    }
}

fn of_trace(x: f64) -> Sort {
    match named().into_iter().find(|(_, no_trace)| *no_trace == x) {
        Some((name, _)) => Sort::NoTrace(name),
        None if x < 0.0 => Sort::BelowItsLimit,
        None if x > 255.0 => Sort::AboveItsLimit,
        None => Sort::NotWhole,
    }
}

/// Finite numbers that are no traces, each of which every trace's place must meet: what is next to one, and what would be one if
/// it were rounded, had no sign or had eight bits.
fn named() -> [(&'static str, f64); 12] {
    let least = f64::from_bits(1);
    [
        ("the float below 0", -least),
        ("the float above 0", least),
        ("the float below 1", down(1.0)),
        ("the float above 1", up(1.0)),
        ("the float below 255", down(255.0)),
        ("the float above 255", up(255.0)),
        ("the float below 256", down(256.0)),
        ("256", 256.0),
        ("257", 257.0),
        ("1/2", 0.5),
        ("-1", -1.0),
        ("-255", -255.0),
    ]
}

pub fn no_traces() -> [f64; 12] {
    named().map(|(_, x)| x)
}

/// The same, and traces among them.
pub fn about_traces() -> Vec<f64> {
    [&no_traces()[..], &[1.0, 2.0, 128.0, 254.0, 255.0]].concat()
}

/// NaNs, infinities, and finite numbers that every place refuses: one of each sort.
pub fn by_refusal() -> [Vec<f64>; 3] {
    let [quiet, signalling] = [0x7ff8_0000_0000_0000, 0x7ff0_0000_0000_0001].map(f64::from_bits);
    [
        vec![quiet, -quiet, signalling, -signalling],
        vec![f64::INFINITY, f64::NEG_INFINITY],
        vec![f64::MAX, f64::MIN],
    ]
}

/// Every fault that a place with a number can have, with the sort of its number.
pub fn faults_of(place: Place) -> impl Iterator<Item = (Fault, Sort)> {
    let more = match place.item {
        Item::Trace => [&no_traces()[..], &[1e-8]].concat(),
        _ => Vec::new(),
    };
    let all = by_refusal().into_iter().flatten().chain(more);
    all.map(move |x| {
        let fault = Fault::of(place, x).expect("each place refuses it");
        (fault, Sort::of(place.item, x))
    })
}

#[cfg(test)]
mod tests {
    use super::*;

    #[test]
    fn all_differ() {
        for (item, count) in [(Item::X, 8), (Item::Trace, 21)] {
            let mut sorts: Vec<Sort> = faults_of(Place::alone(item))
                .map(|(_, sort)| sort)
                .collect();
            sorts.sort();
            sorts.dedup();
            assert_eq!(sorts.len(), count);
        }
    }
}
