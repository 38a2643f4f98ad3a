//! Kinds of call that a run must have met. They are read from the call itself, not from how it was drawn.

use super::case::Case;
use super::index::A_GROUP;
use super::model::{NO_INDEX, NO_ROWS};
use super::seen::{GAPS, SIDES, SORTS};
use crate::crossing::faults::{INFINITE, NOT_A_NUMBER, NO_TRACE};
use crate::listings::layout::Call;
use crate::listings::lent::Old;
use crate::listings::traces::Sight;
use crate::met::Met;

/// The kinds that a call must meet: only a full run has the largest listing of one path.
pub fn kinds(call: Call, full: bool) -> Met<Case> {
    let mut kinds = Met::new();
    let paths = if call == Call::Own { 1 } else { 2 };
    for path in 0..paths {
        of_sizes(&mut kinds, path, call == Call::Mutual, full);
    }
    of_boxes(&mut kinds, call);
    of_groups(&mut kinds, call);
    of_index(&mut kinds, call);
    of_rows(&mut kinds, call);
    of_traces(&mut kinds, call);
    of_refusals(&mut kinds);
    kinds
}

/// About a group, and the most. A single segment is no closed path.
fn of_sizes(kinds: &mut Met<Case>, path: usize, mutual: bool, full: bool) {
    let mut open = vec![0, 1, 2, 15, 16, 17, 31, 32, 33];
    let mut closed = vec![0, 2, 15, 16, 17, 31, 32, 33];
    if mutual {
        open.push(4095);
    }
    if mutual || full && path == 0 {
        closed.push(4096);
    }
    for (is_closed, sizes) in [(false, open), (true, closed)] {
        let form = if is_closed { "closed" } else { "open" };
        for n in sizes {
            let name = format!("path {path} {form}, {n} segments");
            kinds.add(name, move |c| {
                c.is_answered() && c.paths[path] == (n, is_closed)
            });
        }
    }
}

fn of_boxes(kinds: &mut Met<Case>, call: Call) {
    for (side, side_name) in SIDES.iter().enumerate() {
        for (gap, gap_name) in GAPS.iter().enumerate() {
            for (sort, sort_name) in SORTS.iter().enumerate() {
                let name = format!("{sort_name}, {side_name} {gap_name} the other's greatest");
                kinds.add(name, move |c| {
                    c.is_answered() && c.seen.has_edge(side, gap, sort)
                });
            }
            let name = format!("groups, {side_name} {gap_name} the other's greatest");
            kinds.add(name, move |c| {
                c.is_answered() && c.seen.has_group_edge(side, gap)
            });
        }
    }
    for path in 0..2 {
        for row in [false, true] {
            let gives = if row { "a row" } else { "a pair" };
            let name = format!("{gives} by the chord of segment {path} only");
            kinds.add(name, move |c| {
                c.is_answered() && c.seen.is_by_chord(path, row)
            });
        }
    }
    if call == Call::Mutual {
        // in one path the boxes of neighbours meet
        kinds.add("pairs, and none meets", |c| {
            c.is_answered() && c.pairs > 1 && c.looked_at == 0
        });
    }
    kinds.add("some pairs meet, and some do not", |c| {
        c.is_answered() && c.looked_at > 0 && c.looked_at < c.pairs
    });
    kinds.add("each pair meets", |c| {
        c.is_answered() && c.pairs > 1 && c.looked_at == c.pairs
    });
    kinds.add("more than a group squared, and each pair meets", |c| {
        let most = (A_GROUP * A_GROUP) as u64;
        c.is_answered() && c.pairs > most && c.looked_at == c.pairs
    });
}

fn of_groups(kinds: &mut Met<Case>, call: Call) {
    kinds.add("groups apart", |c| c.is_answered() && c.seen.groups_apart);
    kinds.add("groups meet in vain", |c| {
        c.is_answered() && c.seen.groups_in_vain
    });
    kinds.add("pairs of two groups", |c| {
        c.is_answered() && c.seen.in_two_groups
    });
    if call == Call::Own {
        kinds.add("pairs of one group", |c| {
            c.is_answered() && c.seen.in_one_group
        });
    }
    kinds.add("rows otherwise than from group to group", |c| {
        c.is_answered() && c.seen.rows_across_groups
    });
}

fn of_index(kinds: &mut Met<Case>, call: Call) {
    kinds.add("an index a float short", |c| {
        c.is_refused(NO_INDEX) && c.beyond() == -1
    });
    kinds.add("no floats for an index", |c| {
        c.is_refused(NO_INDEX) && c.asked.boxes == 0
    });
    kinds.add("an index without its groups", |c| {
        let segments: usize = c.paths.iter().map(|path| path.0).sum();
        c.is_refused(NO_INDEX) && c.asked.boxes >= 4 * segments
    });
    if call != Call::Own {
        kinds.add("room for the first path's index", |c| {
            let first = c.first_floats;
            c.is_refused(NO_INDEX) && first > 0 && c.asked.boxes == first
        });
    }
    for beyond in 0..5 {
        let name = format!("an index, and {beyond} floats more");
        kinds.add(name, move |c| {
            c.is_answered() && c.floats > 0 && c.beyond() == beyond
        });
    }
    kinds.add("an index, and more floats than a group's", |c| {
        c.is_answered() && c.floats > 0 && c.beyond() > 4 * A_GROUP as isize
    });
    if call != Call::Twice {
        without_pairs(kinds);
    }
    if call == Call::Mutual {
        for path in 0..2 {
            kinds.add(format!("an index of path {path} only"), move |c| {
                let [this, other] = [path, 1 - path].map(|path| c.paths[path].0);
                c.is_answered() && this > A_GROUP && other == 0
            });
        }
    }
    kinds.add("nothing to write, no floats", |c| {
        c.is_answered() && c.floats == 0 && c.asked.boxes == 0
    });
    kinds.add("nothing to write, some floats", |c| {
        c.is_answered() && c.floats == 0 && c.asked.boxes > 4
    });
    kinds.add("an index that fits, rows that do not", |c| {
        c.is_refused(NO_ROWS) && c.beyond() == 0
    });
    kinds.add("an index with more floats, rows that do not fit", |c| {
        c.is_refused(NO_ROWS) && c.beyond() > 0
    });
}

/// A path that is lent twice has none of these: its segments have pairs with themselves.
fn without_pairs(kinds: &mut Met<Case>) {
    let no_pairs = |c: &Case| c.pairs == 0 && c.floats > 0;
    kinds.add("an index without pairs", move |c| {
        no_pairs(c) && c.is_answered() && c.beyond() == 0
    });
    kinds.add("an index without pairs, more floats", move |c| {
        no_pairs(c) && c.is_answered() && c.beyond() > 0
    });
    kinds.add("an index without pairs, a float short", move |c| {
        no_pairs(c) && c.is_refused(NO_INDEX) && c.beyond() == -1
    });
}

fn of_rows(kinds: &mut Met<Case>, call: Call) {
    kinds.add("a row of the full listing is left out", |c| {
        c.is_answered() && c.rows < c.full_rows
    });
    kinds.add("some rows are left out, and some are not", |c| {
        c.is_answered() && c.rows > 0 && c.rows < c.full_rows
    });
    kinds.add("exactly the boxed rows fit", |c| {
        c.is_answered() && c.rows < c.full_rows && c.asked.rows() == c.rows
    });
    if call != Call::Twice {
        kinds.add("no room, and only left-out rows", |c| {
            c.is_answered() && c.rows == 0 && c.full_rows > 0 && c.asked.room.points == 0
        });
    }
    kinds.add("a row too many", |c| {
        c.is_refused(NO_ROWS) && c.asked.rows() + 1 == c.rows
    });
    kinds.add("no rows, empty slices", |c| {
        c.is_answered() && c.rows == 0 && c.asked.room.indices + c.asked.room.points == 0
    });
    kinds.add("rows, and more room", |c| {
        c.is_answered() && c.rows > 0 && c.asked.rows() > c.rows
    });
    kinds.add("indices short by a number", |c| {
        let room = c.asked.room;
        c.is_refused(NO_ROWS) && room.indices + 1 == 3 * c.rows && room.points >= 4 * c.rows
    });
    kinds.add("points short by a number", |c| {
        let room = c.asked.room;
        c.is_refused(NO_ROWS) && room.points + 1 == 4 * c.rows && room.indices >= 3 * c.rows
    });
    for counts in 0..5 {
        let name = format!("room for {counts} counts");
        kinds.add(name, move |c| c.asked.room.counts == counts);
    }
    kinds.add("old contents NaNs", |c| c.asked.old == Old::Nans);
    kinds.add("old contents zeros", |c| c.asked.old == Old::Zeros);
    kinds.add("old contents random", |c| {
        matches!(c.asked.old, Old::Bits(_))
    });
}

fn of_traces(kinds: &mut Met<Case>, call: Call) {
    for sight in Sight::of(call) {
        kinds.add(format!("{sight:?}"), move |c| {
            c.is_answered() && c.passed.has(sight)
        });
    }
    kinds.add("of one trace, boxes meet", |c| {
        c.is_answered() && c.seen.of_one_trace
    });
    kinds.add("of one trace, boxes apart", |c| {
        c.is_answered() && c.seen.of_one_trace_apart
    });
    kinds.add("groups that meet, each pair of one trace", |c| {
        c.is_answered() && c.seen.groups_of_one_trace
    });
    // in one path all pairs are of one trace if all those of a segment are
    let paths = if call == Call::Own { 0 } else { 2 };
    for path in 0..paths {
        let name = format!("a segment of path {path}, each pair of one trace, others not");
        kinds.add(name, move |c| {
            c.is_answered() && c.seen.segment_of_one_trace[path] && c.passed.over < c.passed.all
        });
    }
    kinds.add("each pair of one trace, and an index", |c| {
        let each = c.passed.all > 0 && c.passed.over == c.passed.all;
        c.is_answered() && each && c.beyond() == 0
    });
    kinds.add("each pair of one trace, an index a float short", |c| {
        let each = c.passed.all > 0 && c.passed.over == c.passed.all;
        c.is_refused(NO_INDEX) && each && c.beyond() == -1
    });
    kinds.add("some of one trace, and rows", |c| {
        c.is_answered() && c.passed.over > 0 && c.rows > 0
    });
    kinds.add("rows that fit only since some are passed over", |c| {
        let room = c.asked.rows();
        c.is_answered() && c.passed.over > 0 && c.rows > 0 && room < c.passed.rows_without
    });
}

fn of_refusals(kinds: &mut Met<Case>) {
    for wrongs in [[false, false], [true, false], [false, true], [true, true]] {
        let also = match wrongs {
            [false, false] => "",
            [true, false] => "17",
            [false, true] => "8",
            [true, true] => "17, 8",
        };
        for number in (2..8).chain([NOT_A_NUMBER, INFINITE, NO_TRACE]) {
            kinds.add(format!("refusal {number}, also [{also}]"), move |c| {
                c.is_refused(number) && c.wrongs() == wrongs
            });
        }
        kinds.add(format!("no fault but [{also}]"), move |c| {
            let answered = match wrongs {
                [true, _] => c.is_refused(NO_INDEX),
                [false, true] => c.is_refused(NO_ROWS),
                _ => c.is_answered(),
            };
            c.fault.is_none() && c.wrongs() == wrongs && answered
        });
        kinds.add(format!("no room for counts, also [{also}]"), move |c| {
            !c.counts_fit() && c.fault.is_none() && c.wrongs() == wrongs
        });
        kinds.add(
            format!("no room for counts, a fault, also [{also}]"),
            move |c| !c.counts_fit() && c.fault.is_some() && c.wrongs() == wrongs,
        );
    }
}
