//! Which two faults came up at once: the one that is told, and the next one in the order of the checks.

use std::collections::{BTreeMap, BTreeSet};

use super::layout::Call;
use super::sites::OF_A_VERTEX;
use crate::crossing::faults::{Fault, Item, Place};
use crate::crossing::sorts::faults_of;

/// A fault at any vertex or segment.
type What = (u64, Item, usize);

/// How often each two came up. All that can be are there from the start, except for the second path if it is the first again.
pub struct Orders(BTreeMap<[What; 2], u64>);

impl Orders {
    pub fn of(call: Call) -> Orders {
        let two = match call {
            Call::Mutual => each_two(2),
            Call::Own => each_two(1),
            Call::Twice => of_each_path_the_same(),
        };
        Orders(two.into_iter().map(|two| (two, 0)).collect())
    }

    /// The same with arcs that are cut: of each its point's x, its y, and its halves.
    pub fn of_large(call: Call) -> Orders {
        let two = match call {
            Call::Mutual => each_two_of(2, segment_of_a_large_arc),
            Call::Own => each_two_of(1, segment_of_a_large_arc),
            Call::Twice => of_each_path_the_same(),
        };
        Orders(two.into_iter().map(|two| (two, 0)).collect())
    }

    /// Counts a refused call by its faults.
    pub fn count(&mut self, faults: &[Fault]) {
        let what = |fault: Fault| (fault.number, fault.place.item, fault.place.owner);
        if let [first, next, ..] = *faults {
            *self.0.entry([first, next].map(what)).or_insert(0) += 1;
        }
    }

    /// Prints how many there are, and answers those that never occurred.
    pub fn report(&self, name: &str) -> Vec<String> {
        let least = self.0.values().min().copied().unwrap_or(0);
        println!(
            "{name}: {} times two faults at once (number, item, path), at least {least} of each",
            self.0.len()
        );
        let unmet = self.0.iter().filter(|(_, count)| **count == 0);
        unmet
            .map(|([first, next], _)| format!("fault {first:?}, then {next:?}"))
            .collect()
    }
}

fn length(path: usize) -> Vec<What> {
    vec![(6, Item::Length, path), (7, Item::Length, path)]
}

fn numbers(path: usize) -> Vec<What> {
    let of_item = |item: Item| {
        let numbers = faults_of(Place::new(item, path, 0)).map(|(fault, _)| fault.number);
        numbers.map(move |number| (number, item, path))
    };
    let all: BTreeSet<What> = OF_A_VERTEX.into_iter().flat_map(of_item).collect();
    all.into_iter().collect()
}

fn chord(path: usize) -> Vec<What> {
    vec![(5, Item::Chord, path)]
}

/// What can be wrong with a segment in the mode with large arcs.
fn segment_of_a_large_arc(path: usize) -> Vec<What> {
    let mut all = chord(path);
    all.extend([(2, Item::CutX, path), (2, Item::CutY, path)]);
    all
}

fn each_two(paths: usize) -> Vec<[What; 2]> {
    each_two_of(paths, chord)
}

/// Every two in the order of the checks. A path has many vertices and segments, but one length.
fn each_two_of(paths: usize, of_segment: fn(usize) -> Vec<What>) -> Vec<[What; 2]> {
    let mut groups = vec![(false, vec![(4, Item::Epsilon, 0)])];
    groups.extend((0..paths).map(|path| (false, length(path))));
    for path in 0..paths {
        groups.extend([(true, numbers(path)), (true, of_segment(path))]);
    }
    let mut all = Vec::new();
    for (at, (many, group)) in groups.iter().enumerate() {
        let from = if *many { at } else { at + 1 };
        for first in group {
            let later = groups[from..].iter().flat_map(|(_, group)| group);
            all.extend(later.map(|next| [*first, *next]));
        }
    }
    all
}

/// A path that is lent twice has each fault twice.
fn of_each_path_the_same() -> Vec<[What; 2]> {
    let firsts = [length(0), numbers(0), chord(0)].concat();
    let again = |(number, item, _): What| [(number, item, 0), (number, item, 1)];
    firsts.into_iter().map(again).collect()
}
