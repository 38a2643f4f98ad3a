//! A stand-in for the library, right or with a defect, to try the comparison on. How two halves meet it takes from the model of
//! listings, on paths that it has cut by its own rule; it checks, lists, names and writes by itself.

use std::cell::{Cell, RefCell};

use cavalier_contours::polyline::pline_seg_intr;

use super::cut::{segment, Cut, Rule, MOST_BULGE, RULE};
use super::faults::{of_number, of_pair, of_segment, segment_of};
use super::model::{on, Large, WORDS};
use super::pairs::{self, FLOATS};
use super::Ours;
use crate::boxed::index::{floats_needed, Boxes, A_GROUP};
use crate::boxed::model::no_index_fits;
use crate::capi::{Rows, Span};
use crate::crossing::faults::{chord, Fault, Item, Place};
use crate::crossing::NO_ROOM;
use crate::inputs::values::COORDINATE_LIMIT;
use crate::listings::model::{no_row_left, shape, Listed, Path, Row, Rows as Found, MOST_VERTICES};
use crate::listings::sites::OF_A_VERTEX;
use crate::listings::stand_in::{key, Key};
use crate::month::model::{too_full, Report, WORDS as REPORT};
use crate::pages::model::{of_page, BEYOND, NO_BUDGET, NO_ROW_FITS};
use crate::vertex::VERTEX;

pub const STAND_IN: Ours = Ours {
    full,
    page,
    boxed,
    counted,
    pair,
};

thread_local! {
    static DEFECT: Cell<&'static str> = const { Cell::new("") };
    /// The last listing, since many calls are on the same paths.
    static LAST: RefCell<Option<(Key, Large)>> = const { RefCell::new(None) };
}

/// Gives the stand-in a defect, or none if the name is empty.
pub fn set(defect: &'static str) {
    DEFECT.set(defect);
    LAST.set(None);
}

fn is(defect: &str) -> bool {
    DEFECT.get() == defect
}

/// What the issue names as wrong programs.
pub const NAMED: [&str; 9] = [
    "the sign lost",
    "a cut at exactly 1",
    "halves exchanged",
    "the second segment's halves outermost",
    "5 before 2",
    "the new index told",
    "7 after the cut",
    "the trace lost on a half",
    "y's cut with plus",
];

/// Defects of the cut.
pub const OF_THE_CUT: [&str; 17] = [
    "the sign lost in the half's bulge",
    "the sign lost in the cut point",
    "x's cut with minus",
    "x and y exchanged",
    "the middle of the chord",
    "two products",
    "from the first end on",
    "the bulge halved",
    "the half's bulge by another formula",
    "the half's bulge a last bit off",
    "the second half has the whole's bulge",
    "the second half is a line",
    "the second half bends the other way",
    "only above 1, not below -1",
    "cut only from the second float above 1 on",
    "the trace lost on the first half",
    "the second half has the next vertex's trace",
];

/// Defects of the checks.
pub const OF_CHECKS: [&str; 28] = [
    "3 beyond 1",
    "3 from 16 on",
    "3 beyond 17",
    "3 beyond 16 below 0 not given",
    "an open path's last bulge is not looked at",
    "an open path's last bulge is an arc's",
    "2 before 5",
    "y before x",
    "a cut point at the limit refused",
    "a cut point one float beyond taken",
    "no cut point is looked at",
    "the cut point's x is not looked at",
    "the cut point's y is not looked at",
    "cut points below 0 are not looked at",
    "the cut point has the vertex's item",
    "y has x's item",
    "the cut index in a place",
    "the cut vertex's index in a place",
    "the cut point's owner is 0",
    "5 on the whole chord",
    "5 on the whole chord too",
    "5 on the first half only",
    "5 on the second half only",
    "5 with another item",
    "3 for a cut point",
    "the second path's cut points before its numbers",
    "cut points before the path's traces",
    "4,095 vertices at most",
];

/// Defects of listings.
pub const OF_LISTINGS: [&str; 22] = [
    "halves of an uncut segment are 1",
    "halves of a cut one are 0",
    "the second path's halves are not told",
    "the class before the second index",
    "halves of one arc make no row",
    "halves of one arc are no neighbours",
    "the first half and the next segment are neighbours",
    "the second half and the next segment are no neighbours",
    "the closing half and the first are no neighbours",
    "the cut point is no joint",
    "the first half shares the end's vertex",
    "rows of four words",
    "rows of three words",
    "room by words alone",
    "room by floats alone",
    "pairs counted before the cut",
    "halves of one arc are not counted",
    "rows ordered by old indices",
    "one half of a loop is forgotten",
    "old segments with their first half only",
    "counts not written",
    "the last half of a closed path is forgotten",
];

/// Defects of the other forms.
pub const OF_FORMS: [&str; 16] = [
    "positions count old pairs",
    "all pairs before the cut",
    "a page has no halves of one arc",
    "budgets count old pairs",
    "17 by old segments",
    "17 by segments alone",
    "boxes of old segments",
    "groups of eight old segments",
    "a half's box without its chord",
    "a half's box by the whole chord",
    "8 before 17",
    "the report counts old pairs",
    "a row counted once for both halves",
    "a refusal is not counted",
    "19 after the checks",
    "the report's 8 is not counted",
];

/// Defects of the pair call.
pub const OF_PAIRS: [&str; 16] = [
    "always four results",
    "room for one result",
    "room for as many as there are",
    "results of two words",
    "points side by side",
    "unused points are left",
    "no result of class 0",
    "results in rows of both",
    "the halves' words exchanged",
    "the first meeting half only",
    "the number of results less one",
    "classes before halves",
    "a refusal writes",
    "the second segment's faults first",
    "the unused bulges are checked",
    "the pair's cut index",
];

fn rule() -> Rule {
    Rule {
        cuts: |b| {
            let above = b.abs() > 1.0;
            match () {
                _ if is("a cut at exactly 1") => b.abs() >= 1.0,
                _ if is("only above 1, not below -1") => b > 1.0,
                _ if is("cut only from the second float above 1 on") => b.abs() > 1f64.next_up(),
                _ => above,
            }
        },
        point: |[x1, y1, b, x2, y2]| {
            let [x, y] = (RULE.point)([x1, y1, b, x2, y2]);
            match () {
                _ if is("the sign lost") || is("the sign lost in the cut point") => {
                    (RULE.point)([x1, y1, b.abs(), x2, y2])
                }
                _ if is("y's cut with plus") => [x, (y1 + y2) / 2.0 + (b * (x2 - x1)) / 2.0],
                _ if is("x's cut with minus") => [(x1 + x2) / 2.0 - (b * (y2 - y1)) / 2.0, y],
                _ if is("x and y exchanged") => [y, x],
                _ if is("the middle of the chord") => [(x1 + x2) / 2.0, (y1 + y2) / 2.0],
                _ if is("two products") => [
                    (x1 + x2) / 2.0 + (b * y2 - b * y1) / 2.0,
                    (y1 + y2) / 2.0 - (b * x2 - b * x1) / 2.0,
                ],
                _ if is("from the first end on") => [
                    x1 + ((x2 - x1) / 2.0 + (b * (y2 - y1)) / 2.0),
                    y1 + ((y2 - y1) / 2.0 - (b * (x2 - x1)) / 2.0),
                ],
                _ => [x, y],
            }
        },
        bulges: |b| {
            let [h, _] = (RULE.bulges)(b);
            match () {
                _ if is("the sign lost") || is("the sign lost in the half's bulge") => [h.abs(); 2],
                _ if is("the bulge halved") => [b / 2.0; 2].map(|b| b.clamp(-1.0, 1.0)),
                _ if is("the half's bulge by another formula") => {
                    [b / (1.0 + (1.0 + b * b).sqrt()); 2]
                }
                _ if is("the half's bulge a last bit off") => [h.next_up(); 2],
                _ if is("the second half has the whole's bulge") => [h, b.clamp(-1.0, 1.0)],
                _ if is("the second half is a line") => [h, 0.0],
                _ if is("the second half bends the other way") => [h, -h],
                _ => [h; 2],
            }
        },
        traces: |trace| match () {
            _ if is("the trace lost on a half") => [trace, 0.0],
            _ if is("the trace lost on the first half") => [0.0, trace],
            _ => [trace; 2],
        },
    }
}

/// The path as the stand-in takes it, cut.
fn cut(path: Path) -> Cut {
    let mut cut = Cut::by(&rule(), path);
    if is("the second half has the next vertex's trace") {
        let n = path.vertices();
        for (at, (i, half)) in cut.names.iter().enumerate() {
            if *half == 2 {
                cut.drawn.numbers[VERTEX * at + 3] = path.trace((*i as usize + 1) % n);
            }
        }
    }
    cut
}

/// The number's fault, by the stand-in's limit of a bulge.
fn number_fault(place: Place, x: f64) -> Option<Fault> {
    let right = of_number(place, x);
    if place.item != Item::Bulge || !x.is_finite() {
        return right;
    }
    let refused = match () {
        _ if is("3 beyond 1") => x.abs() > 1.0,
        _ if is("3 from 16 on") => x.abs() >= MOST_BULGE,
        _ if is("3 beyond 17") => x.abs() > 17.0,
        _ if is("3 beyond 16 below 0 not given") => x > MOST_BULGE,
        _ => x.abs() > MOST_BULGE,
    };
    refused.then_some(Fault::new(3, place))
}

/// A segment's faults in order.
fn segment_faults(path: Path, at: usize, i: usize) -> Vec<Fault> {
    let s = segment(path, i);
    let rule = rule();
    let mut faults = of_segment(&rule, s, at, i);
    let is_cut = (rule.cuts)(s[2]);
    if !is_cut {
        return faults;
    }
    let point = (rule.point)(s);
    let mut refuse = |refused: &dyn Fn(f64) -> bool| {
        faults.retain(|fault| fault.number != 2);
        let items = [Item::CutX, Item::CutY].into_iter().zip(point);
        let beyond = items.filter(|(_, x)| refused(*x));
        let more = beyond.map(|(item, _)| Fault::new(2, Place::new(item, at, i)));
        faults.splice(0..0, more.collect::<Vec<_>>());
    };
    match () {
        _ if is("a cut point at the limit refused") => refuse(&|x| x.abs() >= COORDINATE_LIMIT),
        _ if is("a cut point one float beyond taken") => {
            refuse(&|x| x.abs() > COORDINATE_LIMIT.next_up());
        }
        _ if is("no cut point is looked at") => refuse(&|_| false),
        _ if is("cut points below 0 are not looked at") => refuse(&|x| x > COORDINATE_LIMIT),
        _ if is("the cut point's x is not looked at") => {
            faults.retain(|fault| fault.place.item != Item::CutX);
        }
        _ if is("the cut point's y is not looked at") => {
            faults.retain(|fault| fault.place.item != Item::CutY);
        }
        _ if is("y before x") => faults.sort_by_key(|fault| match fault.place.item {
            Item::CutY => 0,
            Item::CutX => 1,
            _ => 2,
        }),
        _ => {}
    }
    let parts = rule.parts(s);
    let of = |s: [f64; 5]| chord(&s, at, i);
    let chords = match () {
        _ if is("5 on the whole chord") => Some(of(s).into_iter().collect()),
        _ if is("5 on the whole chord too") => Some(
            [of(s), of(parts[0].0), of(parts[1].0)]
                .into_iter()
                .flatten()
                .collect(),
        ),
        _ if is("5 on the first half only") => Some(of(parts[0].0).into_iter().collect()),
        _ if is("5 on the second half only") => Some(of(parts[1].0).into_iter().collect()),
        _ => None,
    };
    if let Some(chords) = chords {
        let chords: Vec<Fault> = chords;
        faults.retain(|fault| fault.number != 5);
        faults.extend(chords);
    }
    for fault in &mut faults {
        let item = &mut fault.place.item;
        match (fault.number, *item) {
            (2, Item::CutX) if is("the cut point has the vertex's item") => *item = Item::X,
            (2, Item::CutY) if is("the cut point has the vertex's item") => *item = Item::Y,
            (2, Item::CutY) if is("y has x's item") => *item = Item::CutX,
            (2, _) if is("the cut point's owner is 0") => fault.place.owner = 0,
            (2, _) if is("3 for a cut point") => fault.number = 3,
            (5, _) if is("5 with another item") => *item = Item::CutX,
            _ => {}
        }
        let before = cut(path)
            .names
            .iter()
            .filter(|(k, _)| (*k as usize) < i)
            .count();
        if is("the cut index in a place") {
            fault.place.index = before;
        }
        if is("the cut vertex's index in a place") {
            fault.place.index = before + 1;
        }
    }
    faults
}

/// The faults of a listing. Those of segments are put in the stand-in's order.
fn faults(listed: Listed, epsilon: f64) -> Vec<Fault> {
    let mut all: Vec<Fault> = Fault::of(Place::EPSILON, epsilon).into_iter().collect();
    let paths = listed.paths();
    for (at, path) in paths.iter().enumerate() {
        let long =
            |n: usize| Fault::new(7, Place::new(Item::Length, at, 0)).then(n > MOST_VERTICES);
        match shape(*path, at) {
            Some(fault) if fault.number == 7 && is("7 after the cut") => all.push(fault),
            Some(fault) => all.push(fault),
            None if is("7 after the cut") && path.numbers.iter().all(|x| x.is_finite()) => {
                all.extend(long(cut(*path).path().vertices()));
            }
            None if is("4,095 vertices at most") => all.extend(long(path.vertices() + 1)),
            None => {}
        }
    }
    for (at, path) in paths.iter().enumerate() {
        if !all.is_empty() {
            break;
        }
        let mut numbers = Vec::new();
        for (i, x) in path.numbers.iter().enumerate() {
            let place = Place::new(OF_A_VERTEX[i % VERTEX], at, i / VERTEX);
            let last = !path.closed && place.index + 1 == path.vertices();
            let unseen = is("an open path's last bulge is not looked at") && last;
            if place.item != Item::Bulge || !unseen {
                numbers.extend(number_fault(place, *x));
            }
            if numbers.len() > 1 {
                break;
            }
        }
        let early = is("the second path's cut points before its numbers") && at == 1;
        let traces = is("cut points before the path's traces");
        if !early && !traces && !numbers.is_empty() {
            all.extend(numbers);
            break;
        }
        let mut arcs = Vec::new();
        for i in 0..path.segments() {
            arcs.extend(segment_faults(*path, at, i));
            let stops = arcs.len() > 1 && !is("5 before 2") && !is("2 before 5");
            if stops {
                break;
            }
        }
        match () {
            _ if is("5 before 2") => arcs.sort_by_key(|fault| fault.number != 5),
            _ if is("2 before 5") => arcs.sort_by_key(|fault| fault.number != 2),
            _ if is("an open path's last bulge is an arc's") && !path.closed => {
                let n = path.vertices();
                if n > 1 && (RULE.cuts)(path.vertex(n - 1).bulge) {
                    let closed = Path {
                        closed: true,
                        ..*path
                    };
                    arcs.extend(segment_faults(closed, at, n - 1));
                }
            }
            _ => {}
        }
        if early {
            let is_number = |fault: &Fault| fault.place.item != Item::Chord;
            let (points, chords): (Vec<Fault>, Vec<Fault>) = arcs.into_iter().partition(is_number);
            all.extend(points.into_iter().chain(numbers).chain(chords));
        } else if traces {
            let of_trace = |fault: &Fault| fault.place.item == Item::Trace;
            if numbers.first().is_some_and(|first| !of_trace(first)) {
                all.extend(numbers);
            } else {
                all.extend(arcs.into_iter().chain(numbers));
            }
        } else {
            all.extend(arcs);
        }
    }
    all.truncate(2);
    all
}

trait Then: Sized {
    fn then(self, is: bool) -> Option<Self>;
}

impl Then for Fault {
    fn then(self, is: bool) -> Option<Fault> {
        is.then_some(self)
    }
}

/// The listing, with the stand-in's defects of rows.
fn listing(listed: Listed, epsilon: f64) -> Large {
    let faults = faults(listed, epsilon);
    let own = matches!(listed, Listed::Own(_));
    if !faults.is_empty() {
        return Large {
            faults,
            ..Large::default()
        };
    }
    let paths = listed.paths();
    let cuts = [paths[0], paths[paths.len() - 1]].map(cut);
    let mut found = on(&cuts, own).rows(epsilon);
    if own {
        neighbours(&cuts[0], epsilon, &mut found);
    }
    let old_pairs = |found: &Found| {
        let one = |(i, half): (u64, u64)| (half <= 1).then_some(i);
        let count = |at: usize| cuts[at].names.iter().filter_map(|name| one(*name)).count() as u64;
        let [s, m] = [0, 1].map(count);
        let all = if own {
            s * s.saturating_sub(1) / 2
        } else {
            s * m
        };
        all.min(found.pairs)
    };
    if is("pairs counted before the cut") || is("the report counts old pairs") {
        let pairs = old_pairs(&found);
        // class 0 is the pairs less the rows
        found.pairs = pairs.max(found.rows.len() as u64);
    }
    let of_one_arc = |row: &Row| {
        let [a, b] = row.indices.map(|i| i as usize);
        own && cuts[0].names[a].0 == cuts[1].names[b].0
    };
    if is("halves of one arc make no row") || is("a page has no halves of one arc") {
        found.rows.retain(|row| !of_one_arc(row));
    }
    if is("halves of one arc are not counted") && own {
        let twos = cuts[0].names.iter().filter(|(_, half)| *half == 2).count();
        found.pairs = found.pairs.saturating_sub(twos as u64);
        found.rows.retain(|row| !of_one_arc(row));
    }
    if is("one half of a loop is forgotten") {
        let names = &cuts[1].names;
        found
            .rows
            .retain(|row| names[row.indices[1] as usize].1 != 2);
    }
    if is("old segments with their first half only") {
        let names = &cuts[0].names;
        found
            .rows
            .retain(|row| names[row.indices[0] as usize].1 != 2);
    }
    if is("the last half of a closed path is forgotten") && paths[0].closed {
        let last = cuts[0].names.len().saturating_sub(1) as u64;
        let names = &cuts[0].names;
        found.rows.retain(|row| {
            let cut = names.last().is_some_and(|(_, half)| *half == 2);
            !(cut && row.indices[0] == last)
        });
    }
    if is("rows ordered by old indices") {
        let name = |row: &Row| {
            let [a, b] = row.indices.map(|i| i as usize);
            (cuts[0].names[a].0, cuts[1].names[b].0)
        };
        found.rows.sort_by_key(name);
    }
    Large::of(cuts, own, found, epsilon)
}

/// Rows of one path by another rule of neighbours: those that meet are asked again.
fn neighbours(cut: &Cut, epsilon: f64, found: &mut Found) {
    const RULES: [&str; 6] = [
        "halves of one arc are no neighbours",
        "the first half and the next segment are neighbours",
        "the second half and the next segment are no neighbours",
        "the closing half and the first are no neighbours",
        "the cut point is no joint",
        "the first half shares the end's vertex",
    ];
    if !RULES.iter().any(|rule| is(rule)) {
        return;
    }
    let path = cut.path();
    let n = path.segments();
    let mut rows = Vec::new();
    for i in 0..n {
        for j in i + 1..n {
            if path.trace(i) > 0.0 && path.trace(i) == path.trace(j) {
                continue;
            }
            let ((v1, v2), (u1, u2)) = (path.segment(i), path.segment(j));
            let answer = pline_seg_intr(v1, v2, u1, u2, epsilon);
            let row = Row::new([i, j], answer);
            if row.class == 0 {
                continue;
            }
            let mut shared: Vec<_> = path.shared(i, j).collect();
            let of_one = cut.names[i].0 == cut.names[j].0;
            let next = j == i + 1 && !of_one;
            let halves = [cut.names[i].1, cut.names[j].1];
            match () {
                _ if is("halves of one arc are no neighbours") && of_one => shared.clear(),
                _ if is("the cut point is no joint") && of_one => shared.clear(),
                _ if is("the second half and the next segment are no neighbours")
                    && next
                    && halves[0] == 2 =>
                {
                    shared.clear();
                }
                _ if is("the closing half and the first are no neighbours")
                    && path.closed
                    && i == 0
                    && j + 1 == n
                    && halves[1] == 2 =>
                {
                    shared.clear();
                }
                _ if (is("the first half and the next segment are neighbours")
                    || is("the first half shares the end's vertex"))
                    && halves[0] == 1
                    && j == i + 2 =>
                {
                    shared.push(path.vertex(j));
                }
                _ => {}
            }
            if shared.is_empty() || !row.is_at_joint(shared.into_iter(), epsilon) {
                rows.push(row);
            }
        }
    }
    found.rows = rows;
}

fn with_listing<T>(listed: Listed, epsilon: f64, call: impl FnOnce(&Large) -> T) -> T {
    let key = key(listed, epsilon);
    LAST.with_borrow_mut(|last| {
        if last.as_ref().is_none_or(|(of, _)| *of != key) {
            *last = Some((key, listing(listed, epsilon)));
        }
        let (_, large) = last.as_ref().expect("it was put there");
        call(large)
    })
}

/// How many words a row has, and how many rows fit.
fn row_words() -> usize {
    match () {
        _ if is("rows of four words") => 4,
        _ if is("rows of three words") => 3,
        _ => WORDS,
    }
}

fn room(lent: &Rows) -> usize {
    let (indices, points) = (lent.indices.len() / row_words(), lent.points.len() / 4);
    match () {
        _ if is("room by words alone") => indices,
        _ if is("room by floats alone") => points,
        _ => indices.min(points),
    }
}

/// A row's words.
fn words(large: &Large, row: usize) -> [u64; WORDS] {
    let [i, half, j, other, class] = large.words(row);
    let [a, b] = large.found.rows[row].indices;
    let exchanged = |half: u64| [0, 2, 1][half as usize];
    match () {
        _ if is("halves exchanged") => [i, exchanged(half), j, exchanged(other), class],
        _ if is("the new index told") => [a, half, b, other, class],
        _ if is("halves of an uncut segment are 1") => [i, half.max(1), j, other.max(1), class],
        _ if is("halves of a cut one are 0") => [i, 0, j, 0, class],
        _ if is("the second path's halves are not told") => [i, half, j, 0, class],
        _ if is("the class before the second index") => [i, half, class, j, other],
        _ => [i, half, j, other, class],
    }
}

fn write(large: &Large, rows: &[usize], counts: &[u64], lent: Rows) {
    let each = row_words();
    for (at, row) in rows.iter().enumerate() {
        let to = each * at..(each * at + WORDS).min(lent.indices.len());
        if to.start < to.end {
            let words = words(large, *row);
            lent.indices[to.clone()].copy_from_slice(&words[..to.len()]);
        }
        let to = 4 * at..(4 * at + 4).min(lent.points.len());
        if to.start < to.end {
            let points = large.found.rows[*row].points;
            lent.points[to.clone()].copy_from_slice(&points[..to.len()]);
        }
    }
    if !is("counts not written") {
        lent.counts[..counts.len()].copy_from_slice(counts);
    }
}

fn full(listed: Listed, epsilon: f64, lent: Rows) -> u64 {
    with_listing(listed, epsilon, |large| {
        if lent.counts.len() < 2 {
            return NO_ROOM;
        }
        if let Some(fault) = large.faults.first() {
            return fault.word();
        }
        if room(&lent) < large.rows() {
            return no_row_left().word();
        }
        let counts = [large.rows() as u64, large.found.pairs];
        let rows: Vec<usize> = (0..large.rows()).collect();
        write(large, &rows, &counts, lent);
        0
    })
}

fn page(listed: Listed, epsilon: f64, span: Span, lent: Rows) -> u64 {
    with_listing(listed, epsilon, |large| {
        if lent.counts.len() < 4 {
            return NO_ROOM;
        }
        if let Some(fault) = large.faults.first() {
            return fault.word();
        }
        let own = matches!(listed, Listed::Own(_));
        let old = |at: usize| {
            let names = &large.cuts[at].names;
            names.iter().filter(|(_, half)| *half <= 1).count() as u64
        };
        let [s, m] = [0, 1].map(old);
        let old_all = if own {
            s * s.saturating_sub(1) / 2
        } else {
            s * m
        };
        let all = if is("all pairs before the cut") {
            old_all
        } else {
            large.all
        };
        if span.position > all {
            return of_page(BEYOND).word();
        }
        if span.budget == 0 {
            return of_page(NO_BUDGET).word();
        }
        let room = room(&lent);
        if room == 0 {
            return of_page(NO_ROW_FITS).word();
        }
        let mut from = span.position;
        if is("positions count old pairs") && old_all > 0 {
            from = from * large.all / old_all.max(1);
            from = from.min(large.all);
        }
        let mut budget = span.budget;
        if is("budgets count old pairs") && old_all > 0 {
            budget = budget.saturating_mul(large.all / old_all.max(1)).max(1);
        }
        let end = from.saturating_add(budget).min(large.all);
        let first = large.positions.partition_point(|at| *at < from);
        let mut rows = Vec::new();
        let mut next = end;
        for (at, position) in large.positions.iter().enumerate().skip(first) {
            if *position >= end {
                break;
            }
            if rows.len() == room {
                next = *position;
                break;
            }
            rows.push(at);
        }
        let counts = [rows.len() as u64, next - from, next, all];
        write(large, &rows, &counts, lent);
        0
    })
}

/// The index as the stand-in has it.
fn index(listed: Listed, large: &Large, epsilon: f64) -> Vec<f64> {
    let own = matches!(listed, Listed::Own(_));
    let paths = listed.paths();
    let mut all = Vec::new();
    for at in 0..if own { 1 } else { 2 } {
        let cut = &large.cuts[at];
        let boxes = if is("boxes of old segments") {
            Boxes::of(paths[at], epsilon)
        } else {
            Boxes::of(cut.path(), epsilon)
        };
        let mut segments = boxes.segments.clone();
        for (k, (i, half)) in cut.names.iter().enumerate() {
            let moved =
                |by: f64, one: [f64; 4]| [one[0] + by, one[1] + by, one[2] - by, one[3] - by];
            if *half > 0 && k < segments.len() {
                let (from, to) = cut.path().segment(k);
                let long = |dx: f64, dy: f64| (dx * dx + dy * dy).sqrt();
                let chord = long(to.x - from.x, to.y - from.y);
                if is("a half's box without its chord") {
                    segments[k] = moved(chord, segments[k]);
                }
                if is("a half's box by the whole chord") {
                    let (from, to) = paths[at].segment(*i as usize);
                    let whole = long(to.x - from.x, to.y - from.y);
                    segments[k] = moved(chord - whole, segments[k]);
                }
            }
        }
        let mut groups = boxes.groups.clone();
        if is("groups of eight old segments") {
            let joined = |members: &[[f64; 4]]| {
                let mut one = members[0];
                for member in members {
                    one[0] = one[0].min(member[0]);
                    one[1] = one[1].min(member[1]);
                    one[2] = one[2].max(member[2]);
                    one[3] = one[3].max(member[3]);
                }
                one
            };
            let mut from = 0;
            let mut new = Vec::new();
            while from < segments.len() {
                let old = cut.names[from].0;
                let same = |(k, _): &&(u64, u64)| *k < old + A_GROUP as u64 / 2;
                let to = from + cut.names[from..].iter().take_while(same).count();
                new.push(joined(&segments[from..to]));
                from = to;
            }
            groups = new;
        }
        all.extend(segments.into_iter().chain(groups).flatten());
    }
    all
}

fn boxed(listed: Listed, epsilon: f64, boxes: &mut [f64], lent: Rows) -> u64 {
    with_listing(listed, epsilon, |large| {
        if lent.counts.len() < 2 {
            return NO_ROOM;
        }
        if let Some(fault) = large.faults.first() {
            return fault.word();
        }
        let index = index(listed, large, epsilon);
        let old: usize = listed
            .paths()
            .iter()
            .map(|path| floats_needed(path.segments()))
            .sum();
        let own = matches!(listed, Listed::Own(_));
        let segments: usize = large.cuts[..if own { 1 } else { 2 }]
            .iter()
            .map(|cut| 4 * cut.names.len())
            .sum();
        let needed = match () {
            _ if is("17 by old segments") => old,
            _ if is("17 by segments alone") => segments,
            _ => index.len(),
        };
        let rows = large.boxed_rows.len();
        if is("8 before 17") && room(&lent) < rows {
            return no_row_left().word();
        }
        if boxes.len() < needed {
            return no_index_fits().word();
        }
        if room(&lent) < rows {
            return no_row_left().word();
        }
        let fit = index.len().min(boxes.len());
        boxes[..fit].copy_from_slice(&index[..fit]);
        let counts = [rows as u64, large.boxed_pairs];
        write(large, &large.boxed_rows, &counts, lent);
        0
    })
}

fn counted(listed: Listed, epsilon: f64, lent: Rows, report: &mut [u64]) -> u64 {
    if report.len() < REPORT || lent.counts.len() < 2 {
        return NO_ROOM;
    }
    let before = Report(
        report[..REPORT]
            .try_into()
            .expect("as many words as a report has"),
    );
    let late = is("19 after the checks");
    if before.is_too_full() && !late {
        return too_full().word();
    }
    with_listing(listed, epsilon, |large| {
        let fault = large.faults.first().copied();
        let fault = fault.or((room(&lent) < large.rows()).then(no_row_left));
        if let Some(fault) = fault {
            let is_room = fault.number == 8;
            let counted =
                !(is("a refusal is not counted") || is_room && is("the report's 8 is not counted"));
            if counted && !before.is_too_full() {
                report[..REPORT].copy_from_slice(&before.refused(fault.number).0);
            }
            return fault.word();
        }
        if before.is_too_full() {
            return too_full().word();
        }
        let mut after = before.accepted(&large.found);
        if is("a row counted once for both halves") {
            let twos = (0..large.rows()).filter(|row| {
                let [(_, half), (_, other)] = large.names(*row);
                half == 2 || other == 2
            });
            for row in twos {
                let class = large.found.rows[row].class as usize;
                after.0[2 + class] -= 1;
            }
        }
        report[..REPORT].copy_from_slice(&after.0);
        let counts = [large.rows() as u64, large.found.pairs];
        let rows: Vec<usize> = (0..large.rows()).collect();
        write(large, &rows, &counts, lent);
        0
    })
}

/// The faults of a pair in the stand-in's order.
fn pair_faults(numbers: &[f64; 13]) -> Vec<Fault> {
    let rule = rule();
    let mut all: Vec<Fault> = of_pair(&rule, numbers).collect();
    if is("the second segment's faults first") {
        all.sort_by_key(|fault| fault.place.item != Item::Epsilon && fault.place.owner == 0);
    }
    if is("the unused bulges are checked") {
        let beyond = |at: usize| numbers[at].is_nan() || numbers[at].abs() > MOST_BULGE;
        if beyond(5) || beyond(11) {
            all.push(Fault::new(3, Place::new(Item::Bulge, 0, 1)));
        }
    }
    if is("5 before 2") {
        all.sort_by_key(|fault| match fault.place.item {
            Item::Chord => 1,
            Item::CutX | Item::CutY => 2,
            _ => 0,
        });
    }
    if is("the pair's cut index") {
        for fault in &mut all {
            if fault.number == 5 || matches!(fault.place.item, Item::CutX | Item::CutY) {
                fault.place.index = 1;
            }
        }
    }
    all
}

fn pair(numbers: &[f64; 13], words: &mut [u64], out: &mut [f64]) -> u64 {
    let rule = rule();
    let [first, second] = [0, 1].map(|owner| rule.parts(segment_of(numbers, owner)));
    let count = first.len() * second.len();
    let needed = match () {
        _ if is("room for one result") => 1,
        _ if is("room for as many as there are") => count,
        _ => pairs::MOST,
    };
    if words.len() < needed * pairs::WORDS || out.len() < needed * FLOATS {
        return NO_ROOM;
    }
    if let Some(fault) = pair_faults(numbers).first() {
        if is("a refusal writes") && !words.is_empty() {
            words[0] = 1;
        }
        return fault.word();
    }
    let mut results = Vec::new();
    for v in &first {
        for u in &second {
            let mut numbers = *numbers;
            for (at, x) in v.0.into_iter().enumerate() {
                numbers[at] = x;
            }
            for (at, x) in u.0.into_iter().enumerate() {
                numbers[6 + at] = x;
            }
            // both are uncut now
            let mut one = pairs::results(&numbers)[0];
            one.halves = [v.1, u.1];
            results.push(one);
        }
    }
    match () {
        _ if is("the second segment's halves outermost") => {
            results.sort_by_key(|one| [one.halves[1], one.halves[0]]);
        }
        _ if is("results in rows of both") && results.len() == 4 => results.swap(1, 3),
        _ if is("always four results") => {
            while results.len() < 4 {
                results.push(results[0]);
            }
        }
        _ if is("no result of class 0") => results.retain(|one| one.class > 0),
        _ if is("the first meeting half only") => {
            let at = results.iter().position(|one| one.class > 0).unwrap_or(0);
            results = vec![results[at]];
        }
        _ => {}
    }
    for (at, one) in results.iter().enumerate() {
        let mut halves = one.halves;
        match () {
            _ if is("halves exchanged") => halves = halves.map(|half| [0, 2, 1][half as usize]),
            _ if is("the halves' words exchanged") => halves = [halves[1], halves[0]],
            _ if is("halves of an uncut segment are 1") => halves = halves.map(|half| half.max(1)),
            _ => {}
        }
        let mut word = [halves[0], halves[1], one.class];
        if is("classes before halves") {
            word = [one.class, halves[0], halves[1]];
        }
        let each = if is("results of two words") {
            2
        } else {
            pairs::WORDS
        };
        let to = each * at..(each * at + pairs::WORDS).min(words.len());
        if to.start < to.end {
            words[to.clone()].copy_from_slice(&word[..to.len()]);
        }
        let given = if is("unused points are left") {
            one.given
        } else {
            FLOATS
        };
        let each = if is("points side by side") {
            one.given
        } else {
            FLOATS
        };
        let to = (each * at).min(out.len())..(each * at + given).min(out.len());
        let points = one.points;
        out[to.clone()].copy_from_slice(&points[..to.len()]);
    }
    let count = results.len() as u64;
    if is("the number of results less one") {
        count - 1
    } else {
        count
    }
}
