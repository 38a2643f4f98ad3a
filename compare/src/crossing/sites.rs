//! Where a call's refusals came up: with which number, at which place, for which sort of number; and which two faults at once.

use std::collections::{BTreeMap, BTreeSet};

use super::calls::Call;
use super::faults::{Fault, Item, Place};
use super::sorts::{self, Sort};

/// A chord has no number of its own, and so no sort.
type Site = (Fault, Option<Sort>);

#[derive(Default)]
pub struct Sites {
    told: BTreeMap<Site, u64>,
    /// The fault that is told, and the next one in the order of the checks.
    both: BTreeMap<[Fault; 2], u64>,
}

impl Sites {
    /// Counts a call that is refused.
    pub fn count(&mut self, call: &Call, numbers: &[f64], fault: Fault) {
        let mut order = call.order.iter();
        let number = order.find(|(_, place)| *place == fault.place);
        let sort = number.map(|(at, place)| Sort::of(place.item, numbers[*at]));
        *self.told.entry((fault, sort)).or_insert(0) += 1;
        if let Some(next) = call.faults(numbers).nth(1) {
            *self.both.entry([fault, next]).or_insert(0) += 1;
        }
    }

    pub fn add(&mut self, other: &Sites) {
        for (site, count) in &other.told {
            *self.told.entry(*site).or_insert(0) += count;
        }
        for (two, count) in &other.both {
            *self.both.entry(*two).or_insert(0) += count;
        }
    }

    /// Prints how many sites there are. Answers how many never came up that the call can have.
    pub fn report(&self, call: &Call) -> u64 {
        let name = call.name;
        let (sites, both) = (sites(call), both(call));
        let least = |counts: Vec<u64>| counts.into_iter().min().unwrap_or(0);
        let told = |site: &Site| self.told.get(site).copied().unwrap_or(0);
        let at_once = |two: &[Fault; 2]| self.both.get(two).copied().unwrap_or(0);
        println!(
            "{name}: refusals at {} sites (number, place, sort of number), at least {} at each",
            sites.len(),
            least(sites.iter().map(told).collect()),
        );
        println!(
            "{name}: {} times two faults at once (number and place), at least {} of each",
            both.len(),
            least(both.iter().map(at_once).collect()),
        );
        let unmet = sites.iter().filter(|site| told(site) == 0);
        let unmet = unmet.map(|(fault, sort)| format!("{fault:?}, {sort:?}"));
        let unmet_both = both.iter().filter(|two| at_once(two) == 0);
        let unmet_both = unmet_both.map(|[first, next]| format!("{first:?}, then {next:?}"));
        let unmet: Vec<String> = unmet.chain(unmet_both).collect();
        for what in &unmet {
            println!("{name}: NEVER MET: {what}");
        }
        unmet.len() as u64
    }
}

/// Every site that a call can have.
fn sites(call: &Call) -> Vec<Site> {
    let of_number = |(_, place): &(usize, Place)| {
        let faults = sorts::faults_of(*place);
        faults.map(|(fault, sort)| (fault, Some(sort)))
    };
    let chords = chords(call).map(|fault| (fault, None));
    call.order
        .iter()
        .flat_map(of_number)
        .chain(chords)
        .collect()
}

fn chords(call: &Call) -> impl Iterator<Item = Fault> {
    let place = |owner: usize| Place::new(Item::Chord, owner, 0);
    (0..call.chords.len()).map(move |owner| Fault::new(5, place(owner)))
}

/// The faults of two places that must have come up at once, the one that is told first. A chord may be at fault behind numbers
/// that are not its own, and both chords may be.
fn both(call: &Call) -> Vec<[Fault; 2]> {
    let mut all = Vec::new();
    for (i, (_, place)) in call.order.iter().enumerate() {
        let own = |chord: &Fault| *place != Place::EPSILON && chord.place.owner == place.owner;
        for first in faults(*place) {
            let later = call.order[i + 1..]
                .iter()
                .flat_map(|(_, place)| faults(*place));
            let chords = chords(call).filter(|chord| !own(chord));
            all.extend(later.chain(chords).map(|next| [first, next]));
        }
    }
    let v = chords(call).next();
    all.extend(
        v.into_iter()
            .flat_map(|v| chords(call).skip(1).map(move |u| [v, u])),
    );
    all
}

/// Every fault of a place with a number.
fn faults(place: Place) -> BTreeSet<Fault> {
    let faults = sorts::faults_of(place);
    faults.map(|(fault, _)| fault).collect()
}
