//! Where refusals came up in this mode: with which number, of which path, at which vertex or segment, of a cut arc or not.

use std::collections::BTreeMap;

use super::ask::Kind;
use super::cut::{segment, RULE};
use crate::crossing::faults::{Fault, Item, Place};
use crate::listings::layout::Call;
use crate::listings::lent::Room;
use crate::listings::model::{Path, MOST_VERTICES};

#[derive(Clone, Copy, Debug, PartialEq, Eq, PartialOrd, Ord)]
pub enum Site {
    /// Of the call as a whole.
    OfCall(Item),
    Length {
        path: usize,
    },
    Number {
        path: usize,
        closed: bool,
        at: At,
        item: Item,
    },
    /// A chord or a cut point: of a cut arc or not, and of a point whether it is beyond the limit below 0.
    Segment {
        path: usize,
        closed: bool,
        at: At,
        item: Item,
        cut: bool,
        negative: bool,
    },
    /// At the last vertex or segment of a path of 4,096 vertices.
    Far {
        path: usize,
        item: Item,
    },
    /// Which slice has room for too few rows: the indices, the points.
    Rows([bool; 2]),
}

#[derive(Clone, Copy, Debug, PartialEq, Eq, PartialOrd, Ord)]
pub enum At {
    First,
    Inner,
    Last,
}

impl At {
    fn of(i: usize, count: usize) -> At {
        if i == 0 {
            At::First
        } else if i + 1 == count {
            At::Last
        } else {
            At::Inner
        }
    }
}

pub struct Sites(BTreeMap<(u64, Site), u64>);

const AT: [At; 3] = [At::First, At::Inner, At::Last];
const OF_NUMBERS: [(Item, u64); 4] = [
    (Item::X, 2),
    (Item::Y, 2),
    (Item::Bulge, 3),
    (Item::Trace, 15),
];

impl Sites {
    pub fn of(kind: Kind, call: Call) -> Sites {
        let mut all = vec![(4, Site::OfCall(Item::Epsilon))];
        // a path that is lent twice has each fault first in the first
        for path in 0..if call == Call::Mutual { 2 } else { 1 } {
            all.extend([6, 7].map(|number| (number, Site::Length { path })));
            for (item, beyond) in OF_NUMBERS {
                for number in [11, 12, beyond] {
                    for (closed, at) in both(AT) {
                        let site = Site::Number {
                            path,
                            closed,
                            at,
                            item,
                        };
                        all.push((number, site));
                    }
                    all.push((number, Site::Far { path, item }));
                }
            }
            for (closed, at) in both(AT) {
                let site = |item, cut, negative| Site::Segment {
                    path,
                    closed,
                    at,
                    item,
                    cut,
                    negative,
                };
                for cut in [false, true] {
                    all.push((5, site(Item::Chord, cut, false)));
                }
                for negative in [false, true] {
                    for item in [Item::CutX, Item::CutY] {
                        all.push((2, site(item, true, negative)));
                    }
                }
            }
            for (number, item) in [(5, Item::Chord), (2, Item::CutX), (2, Item::CutY)] {
                all.push((number, Site::Far { path, item }));
            }
        }
        for short in [[true, false], [false, true], [true, true]] {
            all.push((8, Site::Rows(short)));
        }
        all.extend(match kind {
            Kind::Full => vec![],
            Kind::Page => vec![
                (13, Site::OfCall(Item::Position)),
                (14, Site::OfCall(Item::Budget)),
            ],
            Kind::Boxed => vec![(17, Site::OfCall(Item::Boxes))],
            Kind::Counted => vec![(19, Site::OfCall(Item::Report))],
        });
        Sites(all.into_iter().map(|site| (site, 0)).collect())
    }

    /// Counts a refused call, which needs room for so many rows.
    pub fn count(&mut self, paths: &[Path], fault: Fault, room: Room, rows: usize) {
        let Place { item, owner, index } = fault.place;
        let mut add = |site: Site| *self.0.entry((fault.number, site)).or_insert(0) += 1;
        match item {
            Item::Length => add(Site::Length { path: owner }),
            Item::Rows => {
                let short = [room.indices / 5 < rows, room.points / 4 < rows];
                add(Site::Rows(short));
            }
            Item::X | Item::Y | Item::Bulge | Item::Trace => {
                let path = paths[owner];
                add(Site::Number {
                    path: owner,
                    closed: path.closed,
                    at: At::of(index, path.vertices()),
                    item,
                });
                if path.vertices() == MOST_VERTICES && index + 1 == MOST_VERTICES {
                    add(Site::Far { path: owner, item });
                }
            }
            Item::Chord | Item::CutX | Item::CutY => {
                let path = paths[owner];
                let s = segment(path, index);
                let [x, y] = (RULE.point)(s);
                let negative = match item {
                    Item::CutX => x < 0.0,
                    Item::CutY => y < 0.0,
                    _ => false,
                };
                add(Site::Segment {
                    path: owner,
                    closed: path.closed,
                    at: At::of(index, path.segments()),
                    item,
                    cut: (RULE.cuts)(s[2]),
                    negative,
                });
                if path.vertices() == MOST_VERTICES && index + 1 == path.segments() {
                    add(Site::Far { path: owner, item });
                }
            }
            _ => add(Site::OfCall(item)),
        }
    }

    pub fn len(&self) -> usize {
        self.0.len()
    }

    /// Which site came up least often, and how often.
    pub fn least(&self) -> u64 {
        self.0.values().min().copied().unwrap_or(0)
    }

    pub fn unmet(&self) -> impl Iterator<Item = String> + '_ {
        let unmet = self.0.iter().filter(|(_, count)| **count == 0);
        unmet.map(|((number, site), _)| format!("refusal {number} at {site:?}"))
    }
}

fn both(all: [At; 3]) -> Vec<(bool, At)> {
    let each = |closed: bool| all.map(move |at| (closed, at));
    [each(false), each(true)].concat()
}
