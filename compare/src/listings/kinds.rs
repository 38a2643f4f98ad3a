//! Kinds of input that a run must have met. They are read from the input itself, not from how it was drawn.

use super::layout::Call;
use super::lent::{Old, Room};
use super::model::{row_room, Path};
use super::sites::OF_A_VERTEX;
use super::traces::{Passed, Sight};
use crate::crossing::faults::{Fault, Item};
use crate::vertex::VERTEX;

/// A call as it was made.
pub struct Case<'a> {
    pub paths: &'a [Path<'a>],
    /// The first two faults, without too little room for rows.
    pub faults: &'a [Fault],
    /// The fault that is answered, if the counts have room.
    pub fault: Option<Fault>,
    /// The rows of the listing, unless it is refused for another reason than room.
    pub rows: usize,
    /// What traces do; nothing if the paths or the epsilon have a fault.
    pub passed: Passed,
    pub room: Room,
    pub old: Old,
}

impl Case<'_> {
    fn row_room(&self) -> usize {
        row_room(self.room.indices, self.room.points)
    }

    fn is_answered(&self) -> bool {
        self.room.counts >= 2 && self.fault.is_none()
    }

    /// Whether nothing is wrong except perhaps the room for rows.
    fn has_rows(&self, rows: usize) -> bool {
        self.room.counts >= 2 && self.faults.is_empty() && self.rows == rows
    }
}

type Test = Box<dyn Fn(&Case) -> bool>;

struct Kind {
    name: String,
    met: u64,
    test: Test,
}

pub struct Kinds(Vec<Kind>);

fn is_number(item: Item) -> bool {
    OF_A_VERTEX.contains(&item)
}

/// The row counts around which the code takes another way.
const TURNS: [usize; 3] = [2047, 2048, 2049];

impl Kinds {
    /// The kinds that a call must meet: only a full run lists as many pairs as there can be.
    pub fn of(call: Call, full: bool) -> Kinds {
        let mut kinds = Kinds(Vec::new());
        let paths = if call == Call::Own { 1 } else { 2 };
        kinds.of_paths(paths, |closed| match call {
            Call::Mutual => true,
            Call::Twice => false,
            Call::Own => full && closed,
        });
        if full && call == Call::Mutual {
            kinds.add("as many pairs as there can be", |c| {
                c.is_answered() && c.paths.iter().all(|path| path.segments() == 4096)
            });
        }
        kinds.of_rooms();
        kinds.of_traces(call);
        if call != Call::Twice {
            kinds.of_turns();
        }
        kinds.of_refusals(if call == Call::Mutual { 2 } else { 1 });
        kinds
    }

    fn add(&mut self, name: impl Into<String>, test: impl Fn(&Case) -> bool + 'static) {
        self.0.push(Kind {
            name: name.into(),
            met: 0,
            test: Box::new(test),
        });
    }

    fn of_paths(&mut self, paths: usize, largest: impl Fn(bool) -> bool) {
        for at in 0..paths {
            for closed in [false, true] {
                let form = if closed { "closed" } else { "open" };
                let long = move |c: &Case, numbers: usize| {
                    let Path {
                        numbers: n,
                        closed: is,
                    } = c.paths[at];
                    is == closed && n.len() == numbers
                };
                let most = if largest(closed) { 5 } else { 4 };
                for n in &[0, 1, 2, 3, 4096][..most] {
                    let (name, numbers) = (format!("path {at} {form}, {n} vertices"), VERTEX * n);
                    self.add(name, move |c| long(c, numbers) && c.is_answered());
                }
                let name = format!("path {at} {form}, 4097 vertices");
                self.add(name, move |c| long(c, VERTEX * 4097));
                for rest in 1..VERTEX {
                    let name = format!("path {at} {form}, {rest} numbers beyond whole vertices");
                    self.add(name, move |c| {
                        c.paths[at].closed == closed && c.paths[at].numbers.len() % VERTEX == rest
                    });
                }
            }
        }
    }

    fn of_rooms(&mut self) {
        self.add("no rows, no room", |c| c.has_rows(0) && c.row_room() == 0);
        self.add("no rows, empty slices", |c| {
            c.has_rows(0) && c.room.indices + c.room.points == 0
        });
        self.add("one row", |c| c.has_rows(1) && c.is_answered());
        self.add("rows, and no room", |c| c.rows > 0 && c.row_room() == 0);
        let near: [(&str, isize); 4] = [("less", -1), ("exact", 0), ("more", 1), ("two more", 2)];
        for (name, by) in near {
            self.add(format!("room {name}"), move |c| {
                c.rows > 0 && c.row_room() as isize == c.rows as isize + by
            });
        }
        self.add("room decided by the indices", |c| {
            c.room.indices / 3 < c.room.points / 4
        });
        self.add("room decided by the points", |c| {
            c.room.points / 4 < c.room.indices / 3
        });
        for rest in 1..3 {
            let name = format!("{rest} places beyond whole rows of indices");
            self.add(name, move |c| c.is_answered() && c.room.indices % 3 == rest);
        }
        for rest in 1..4 {
            let name = format!("{rest} places beyond whole rows of points");
            self.add(name, move |c| c.is_answered() && c.room.points % 4 == rest);
        }
        for counts in 0..5 {
            let name = format!("room for {counts} counts");
            self.add(name, move |c| c.room.counts == counts);
        }
        self.add("old contents NaNs", |c| c.old == Old::Nans);
        self.add("old contents zeros", |c| c.old == Old::Zeros);
        self.add("old contents random", |c| matches!(c.old, Old::Bits(_)));
    }

    fn of_traces(&mut self, call: Call) {
        for sight in Sight::of(call) {
            self.add(format!("{sight:?}"), move |c| {
                c.is_answered() && c.passed.has(sight)
            });
        }
        let some = |c: &Case| c.is_answered() && c.passed.over > 0;
        self.add("each pair passed over, though some meet", move |c| {
            some(c) && c.passed.over == c.passed.all && c.passed.rows_without > 0
        });
        self.add("some passed over, and rows", move |c| some(c) && c.rows > 0);
        if call != Call::Twice {
            // of a path that is lent twice each segment meets itself
            self.add("some passed over, and all rows are left", move |c| {
                some(c) && c.rows > 0 && c.rows == c.passed.rows_without
            });
        }
        self.add("rows that fit only since some are passed over", move |c| {
            some(c) && c.rows > 0 && c.row_room() < c.passed.rows_without
        });
        self.add("some passed over, and rows that do not fit", |c| {
            c.faults.is_empty() && c.passed.over > 0 && c.row_room() < c.rows
        });
        if call == Call::Mutual {
            for at in 0..2 {
                let name = format!("path {at} with 4096 vertices, some passed over");
                self.add(name, move |c| some(c) && c.paths[at].vertices() == 4096);
            }
        }
    }

    fn of_turns(&mut self) {
        for rows in TURNS {
            self.add(format!("{rows} rows, answered"), move |c| {
                c.rows == rows && c.is_answered()
            });
            self.add(format!("{rows} rows, room for one less"), move |c| {
                c.has_rows(rows) && c.row_room() == rows - 1
            });
            self.add(format!("{rows} rows, room for one more"), move |c| {
                c.has_rows(rows) && c.row_room() == rows + 1
            });
            self.add(format!("more than 2049 rows, room for {rows}"), move |c| {
                c.rows > 2049 && c.row_room() == rows
            });
        }
        self.add("more than 4096 rows, answered", |c| {
            c.rows > 4096 && c.is_answered()
        });
    }

    fn of_refusals(&mut self, paths: usize) {
        for at in 0..paths {
            for n in [1, 2] {
                let name = format!("path {at}, {n} vertices, a number refused");
                self.add(name, move |c| {
                    let is = |fault: Fault| fault.place.owner == at && is_number(fault.place.item);
                    c.paths[at].vertices() == n && c.fault.is_some_and(is)
                });
            }
        }
        self.add("two faults", |c| c.faults.len() > 1);
        self.add("a fault, and no row room", |c| {
            !c.faults.is_empty() && c.row_room() == 0
        });
        self.add("a fault, and no room for counts", |c| {
            !c.faults.is_empty() && c.room.counts < 2
        });
        self.add("too many rows, and no room for counts", |c| {
            c.rows > c.row_room() && c.room.counts < 2
        });
    }

    pub fn count(&mut self, case: &Case) {
        for kind in &mut self.0 {
            kind.met += u64::from((kind.test)(case));
        }
    }

    /// Prints how many there are, and answers those that never occurred.
    pub fn report(&self, name: &str) -> Vec<String> {
        let rarest = self.0.iter().min_by_key(|kind| kind.met);
        if let Some(Kind {
            name: kind, met, ..
        }) = rarest
        {
            println!(
                "{name}: {} kinds of input, the rarest ({kind}) {met} times",
                self.0.len()
            );
        }
        let unmet = self.0.iter().filter(|kind| kind.met == 0);
        unmet.map(|kind| kind.name.clone()).collect()
    }
}
