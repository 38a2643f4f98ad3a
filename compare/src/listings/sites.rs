//! Where refusals came up: with which number, for which sort of number of which vertex, for which segment, of which path.

use std::collections::{BTreeMap, BTreeSet};

use super::layout::Call;
use super::lent::Room;
use super::model::{Path, MOST_VERTICES};
use crate::crossing::faults::{Fault, Item, Place};
use crate::crossing::sorts::{faults_of, Sort};
use crate::vertex::VERTEX;

/// The numbers of a vertex, in the order in which they are lent and checked.
pub const OF_A_VERTEX: [Item; VERTEX] = [Item::X, Item::Y, Item::Bulge, Item::Trace];

#[derive(Clone, Copy, Debug, PartialEq, Eq, PartialOrd, Ord)]
enum Site {
    Epsilon(Sort),
    Length {
        path: usize,
    },
    Number {
        path: usize,
        closed: bool,
        at: At,
        item: Item,
        sort: Sort,
    },
    Chord {
        path: usize,
        closed: bool,
        at: At,
    },
    /// At the last vertex or segment of a path of 4,096 vertices.
    Far {
        path: usize,
        closed: bool,
        item: Item,
    },
    Rows(Short),
    /// Of the call as a whole: a page's position or budget, a boxed listing's index.
    OfCall(Item),
}

#[derive(Clone, Copy, Debug, PartialEq, Eq, PartialOrd, Ord)]
enum At {
    First,
    Inner,
    Last,
}

/// Which slice has room for too few whole rows.
#[derive(Clone, Copy, Debug, PartialEq, Eq, PartialOrd, Ord)]
pub enum Short {
    Indices,
    Points,
    Both,
}

impl At {
    fn of(i: usize, count: usize) -> At {
        if i == 0 {
            At::First
        } else if i + 1 == count {
            At::Last
        } else {
            At::Inner
        }
    }
}

impl Short {
    /// If there is room for fewer rows than this.
    pub fn of(room: Room, rows: usize) -> Short {
        match (room.indices / 3 < rows, room.points / 4 < rows) {
            (true, false) => Short::Indices,
            (false, true) => Short::Points,
            _ => Short::Both,
        }
    }
}

/// How often each refusal came up at each site. All possible sites are there from the start.
pub struct Sites(BTreeMap<(u64, Site), u64>);

impl Sites {
    pub fn of_listings(call: Call) -> Sites {
        let mut all = Vec::new();
        let of_epsilon = |(fault, sort): (Fault, Sort)| (fault.number, Site::Epsilon(sort));
        all.extend(faults_of(Place::EPSILON).map(of_epsilon));
        if call == Call::Twice {
            // the only fault that the first path does not have: it is open there and closed here
            let (path, closed, at) = (1, true, At::Last);
            all.push((5, Site::Chord { path, closed, at }));
        }
        let paths = if call == Call::Mutual { 2 } else { 1 };
        for path in 0..paths {
            all.extend([6, 7].map(|number| (number, Site::Length { path })));
            for closed in [false, true] {
                all.extend(in_path(path, closed));
            }
        }
        let shorts = [Short::Indices, Short::Points, Short::Both];
        all.extend(shorts.map(|short| (8, Site::Rows(short))));
        Sites(all.into_iter().map(|site| (site, 0)).collect())
    }

    pub fn of_pages(call: Call) -> Sites {
        let mut sites = Sites::of_listings(call);
        for (number, item) in [(13, Item::Position), (14, Item::Budget)] {
            sites.0.insert((number, Site::OfCall(item)), 0);
        }
        sites
    }

    pub fn of_boxed(call: Call) -> Sites {
        let mut sites = Sites::of_listings(call);
        sites.0.insert((17, Site::OfCall(Item::Boxes)), 0);
        sites
    }

    /// Counts a refused call. `short` is which slice is too short, if one is.
    pub fn count(&mut self, paths: &[Path], epsilon: f64, fault: Fault, short: Short) {
        let Place { item, owner, index } = fault.place;
        let site = match item {
            Item::Epsilon => Site::Epsilon(Sort::of(item, epsilon)),
            Item::Length => Site::Length { path: owner },
            Item::Chord => Site::Chord {
                path: owner,
                closed: paths[owner].closed,
                at: At::of(index, paths[owner].segments()),
            },
            Item::Rows => Site::Rows(short),
            Item::Position | Item::Budget | Item::Boxes => Site::OfCall(item),
            _ => Site::Number {
                path: owner,
                closed: paths[owner].closed,
                at: At::of(index, paths[owner].vertices()),
                item,
                sort: Sort::of(item, number(paths[owner], item, index)),
            },
        };
        self.add(fault.number, site);
        if is_far(paths, fault.place) {
            let (path, closed) = (owner, paths[owner].closed);
            self.add(fault.number, Site::Far { path, closed, item });
        }
    }

    fn add(&mut self, number: u64, site: Site) {
        *self.0.entry((number, site)).or_insert(0) += 1;
    }

    /// Prints how many there are, and answers those that never occurred.
    pub fn report(&self, name: &str) -> Vec<String> {
        let least = self.0.values().min().copied().unwrap_or(0);
        println!(
            "{name}: refusals at {} sites (number, path, vertex, place, sort of number), at least {least} at each",
            self.0.len()
        );
        let unmet = self.0.iter().filter(|(_, count)| **count == 0);
        unmet
            .map(|((number, site), _)| format!("refusal {number} at {site:?}"))
            .collect()
    }
}

/// The number of a vertex that an item names.
fn number(path: Path, item: Item, vertex: usize) -> f64 {
    let place = OF_A_VERTEX.iter().position(|of| *of == item);
    path.numbers[VERTEX * vertex + place.expect("a number of a vertex")]
}

/// Every site within a path.
fn in_path(path: usize, closed: bool) -> BTreeSet<(u64, Site)> {
    let mut all = BTreeSet::new();
    for at in [At::First, At::Inner, At::Last] {
        for item in OF_A_VERTEX {
            for (fault, sort) in faults_of(Place::new(item, path, 0)) {
                let site = Site::Number {
                    path,
                    closed,
                    at,
                    item,
                    sort,
                };
                all.insert((fault.number, site));
                all.insert((fault.number, Site::Far { path, closed, item }));
            }
        }
        all.insert((5, Site::Chord { path, closed, at }));
    }
    let item = Item::Chord;
    all.insert((5, Site::Far { path, closed, item }));
    all
}

/// Whether it is the last vertex or segment of a path that is as long as can be.
fn is_far(paths: &[Path], Place { item, owner, index }: Place) -> bool {
    let last = match item {
        Item::Chord => paths[owner].segments(),
        item if OF_A_VERTEX.contains(&item) => paths[owner].vertices(),
        _ => return false,
    };
    paths[owner].vertices() == MOST_VERTICES && index + 1 == last
}
