//! The pair call of this mode: one, two or four results, the first segment's halves outermost, each with its halves, its class
//! and its points. How each two halves meet is the Rust's own answer.

use std::collections::BTreeMap;

use cavalier_contours::polyline::{pline_seg_intr, PlineSegIntr, PlineVertex};

use super::cut::{Half, Segment, MOST_BULGE, RULE};
use super::draw::{large_bulge, some_bulge};
use super::faults::{of_pair, segment_of, OF_A_PAIR};
use super::{edges, Ours};
use crate::capi::vj_pair;
use crate::crossing::faults::{Fault, Item, Place};
use crate::crossing::sorts;
use crate::crossing::{of_segments, specials, NO_ROOM};
use crate::inputs::values::{epsilon, nudge};
use crate::inputs::{Kind, Pair};
use crate::listings::lent::Old;
use crate::met::Met;
use crate::numbers::hex;
use crate::rng::Rng;

/// Words and floats of a result, and how many results there must be room for.
pub const WORDS: usize = 3;
pub const FLOATS: usize = 4;
pub const MOST: usize = 4;

/// Places before a lent slice and behind it.
const GUARD: usize = 24;
const SHOWN: u64 = 5;

pub type Numbers = [f64; 13];

/// How two parts meet: their halves, the class, and the points, so many numbers of which are given.
#[derive(Clone, Copy)]
pub struct Met4 {
    pub halves: [Half; 2],
    pub class: u64,
    pub points: [f64; FLOATS],
    pub given: usize,
}

/// The results of accepted segments, in order.
pub fn results(numbers: &Numbers) -> Vec<Met4> {
    let [first, second] = [0, 1].map(|owner| RULE.parts(segment_of(numbers, owner)));
    let mut all = Vec::new();
    for (v, half) in &first {
        for (u, other) in &second {
            let (class, values) = of_segments(meets(*v, *u, numbers[12]));
            let mut points = [0.0; FLOATS];
            points[..values.len()].copy_from_slice(&values);
            all.push(Met4 {
                halves: [*half, *other],
                class,
                points,
                given: values.len(),
            });
        }
    }
    all
}

fn meets(v: Segment, u: Segment, epsilon: f64) -> PlineSegIntr<f64> {
    let ends = |s: Segment| {
        let from = PlineVertex::new(s[0], s[1], s[2]);
        (from, PlineVertex::new(s[3], s[4], 0.0))
    };
    let ((v1, v2), (u1, u2)) = (ends(v), ends(u));
    pline_seg_intr(v1, v2, u1, u2, epsilon)
}

/// The lengths of the two slices, and what they hold.
#[derive(Clone, Copy, Debug)]
pub struct Room {
    pub words: usize,
    pub floats: usize,
    pub old: Old,
}

impl Room {
    pub const ENOUGH: Room = Room {
        words: MOST * WORDS,
        floats: MOST * FLOATS,
        old: Old::Nans,
    };

    pub fn is_enough(self) -> bool {
        self.words >= MOST * WORDS && self.floats >= MOST * FLOATS
    }

    /// Mostly exactly enough or some more; in one of eight calls too little, in one slice or in both.
    pub fn draw(rng: &mut Rng) -> Room {
        let mut room = Room {
            words: MOST * WORDS + rng.below(3) as usize,
            floats: MOST * FLOATS + rng.below(3) as usize,
            old: Old::draw(rng),
        };
        if rng.one_in(8) {
            match rng.below(3) {
                0 => room.words = rng.below((MOST * WORDS) as u64) as usize,
                1 => room.floats = rng.below((MOST * FLOATS) as u64) as usize,
                _ => {
                    room.words = rng.below((MOST * WORDS) as u64) as usize;
                    room.floats = rng.below((MOST * FLOATS) as u64) as usize;
                }
            }
        }
        room
    }
}

/// A call as kinds of it see it.
pub struct Case {
    room: Room,
    fault: bool,
    /// Which of both segments are cut, and each result's halves and class; nothing of a refused call.
    results: Vec<([Half; 2], u64)>,
}

/// Where a refusal was: its number and place, of a cut arc or not, below 0 or not.
type Site = (u64, Place, bool, bool);

pub struct Pairs {
    ours: Ours,
    counts: [u64; MOST + 1],
    classes: [u64; 6],
    refusals: [u64; 32],
    no_room: u64,
    sites: BTreeMap<Site, u64>,
    orders: BTreeMap<[Place; 2], u64>,
    kinds: Met<Case>,
    pub differences: u64,
}

impl Pairs {
    pub fn new(ours: Ours) -> Pairs {
        Pairs {
            ours,
            counts: [0; MOST + 1],
            classes: [0; 6],
            refusals: [0; 32],
            no_room: 0,
            sites: sites().into_iter().map(|site| (site, 0)).collect(),
            orders: orders().into_iter().map(|two| (two, 0)).collect(),
            kinds: kinds(),
            differences: 0,
        }
    }

    pub fn compare(&mut self, numbers: &Numbers, room: Room) {
        let faults: Vec<Fault> = of_pair(&RULE, numbers).take(2).collect();
        let found = if faults.is_empty() {
            results(numbers)
        } else {
            Vec::new()
        };
        if let Some(what) = self.wrong(numbers, room, faults.first().copied(), &found) {
            self.differences += 1;
            if self.differences <= SHOWN {
                println!("large, pair: {what}\n  {room:?}, of {}", hex(numbers));
            }
        }
        self.count(numbers, room, &faults, &found);
    }

    fn wrong(
        &self,
        numbers: &Numbers,
        room: Room,
        fault: Option<Fault>,
        found: &[Met4],
    ) -> Option<String> {
        let old = room.old;
        let filled = |places: usize| (0..GUARD + places + GUARD).map(move |place| old.at(place));
        let mut words: Vec<u64> = filled(room.words).collect();
        let mut floats: Vec<f64> = filled(room.floats).map(f64::from_bits).collect();
        let answer = (self.ours.pair)(
            numbers,
            &mut words[GUARD..GUARD + room.words],
            &mut floats[GUARD..GUARD + room.floats],
        );
        let (right, found): (u64, &[Met4]) = match fault {
            _ if !room.is_enough() => (NO_ROOM, &[]),
            Some(fault) => (fault.word(), &[]),
            None => (found.len() as u64, found),
        };
        if answer != right {
            return Some(format!("returned {answer:#x}, expected {right:#x}"));
        }
        for (place, word) in words.iter().enumerate() {
            let at = place.wrapping_sub(GUARD);
            let right = match found.get(at / WORDS) {
                Some(one) if place >= GUARD => {
                    [one.halves[0], one.halves[1], one.class][at % WORDS]
                }
                _ => old.at(place),
            };
            if *word != right {
                return Some(format!(
                    "results[{}] is {word}, expected {right}",
                    at as isize
                ));
            }
        }
        for (place, x) in floats.iter().enumerate() {
            let at = place.wrapping_sub(GUARD);
            let is = match found.get(at / FLOATS) {
                Some(one) if place >= GUARD && at % FLOATS < one.given => {
                    let right = one.points[at % FLOATS];
                    *x == right || x.is_nan() && right.is_nan()
                }
                Some(_) if place >= GUARD => x.to_bits() == 0,
                _ => x.to_bits() == old.at(place),
            };
            if !is {
                return Some(format!("out[{}] is {}", at as isize, hex(&[*x])));
            }
        }
        self.beside_old(found, numbers, &floats[GUARD..])
    }

    /// The pair call of the other mode on each two parts: the same class, and the same bits but for NaNs.
    fn beside_old(&self, found: &[Met4], numbers: &Numbers, floats: &[f64]) -> Option<String> {
        if found.is_empty() {
            return None;
        }
        let [first, second] = [0, 1].map(|owner| RULE.parts(segment_of(numbers, owner)));
        let each = first
            .iter()
            .flat_map(|v| second.iter().map(move |u| (v.0, u.0)));
        for (at, (v, u)) in each.enumerate() {
            let mut old = [0.0; FLOATS];
            let n = [
                v[0],
                v[1],
                v[2],
                v[3],
                v[4],
                0.0,
                u[0],
                u[1],
                u[2],
                u[3],
                u[4],
                0.0,
                numbers[12],
            ];
            let class = vj_pair(n, &mut old);
            let ours = &floats[FLOATS * at..FLOATS * (at + 1)];
            let same =
                |(a, b): (&f64, &f64)| a.to_bits() == b.to_bits() || a.is_nan() && b.is_nan();
            if class != found[at].class || !ours.iter().zip(&old).all(same) {
                return Some(format!(
                    "result {at} is not the other mode's on these parts"
                ));
            }
        }
        None
    }

    fn count(&mut self, numbers: &Numbers, room: Room, faults: &[Fault], found: &[Met4]) {
        if !room.is_enough() {
            self.no_room += 1;
        } else if let Some(fault) = faults.first() {
            self.refusals[fault.number as usize] += 1;
            let Place { item, owner, .. } = fault.place;
            let segment = segment_of(numbers, owner);
            let [x, y] = (RULE.point)(segment);
            let (cut, negative) = match item {
                Item::Chord => ((RULE.cuts)(segment[2]), false),
                Item::CutX => (true, x < 0.0),
                Item::CutY => (true, y < 0.0),
                _ => (false, false),
            };
            let site = (fault.number, fault.place, cut, negative);
            *self.sites.entry(site).or_insert(0) += 1;
            if let [first, next] = faults {
                let two = [first.place, next.place];
                *self.orders.entry(two).or_insert(0) += 1;
            }
        } else {
            self.counts[found.len()] += 1;
            for one in found {
                self.classes[one.class as usize] += 1;
            }
        }
        self.kinds.count(&Case {
            room,
            fault: !faults.is_empty(),
            results: found.iter().map(|one| (one.halves, one.class)).collect(),
        });
    }

    /// Prints the counts, and answers how many differences there were; what never occurred counts as one.
    pub fn report(&self) -> u64 {
        let refusals = self.refusals.iter().enumerate().filter(|(_, n)| **n > 0);
        let refusals: Vec<String> = refusals
            .map(|(number, n)| format!("{n} by {number}"))
            .collect();
        println!(
            "large, pair: with 1, 2 and 4 results {}, {} and {}; results by class {:?}; refused {}, {} without room, \
             {} differences",
            self.counts[1],
            self.counts[2],
            self.counts[4],
            self.classes,
            refusals.join(", "),
            self.no_room,
            self.differences
        );
        let least = |counts: &mut dyn Iterator<Item = &u64>| counts.min().copied().unwrap_or(0);
        println!(
            "large, pair: refusals at {} sites, at least {} at each; {} times two faults at once, at least {} of each",
            self.sites.len(),
            least(&mut self.sites.values()),
            self.orders.len(),
            least(&mut self.orders.values()),
        );
        let mut unmet: Vec<String> = Vec::new();
        let none = |count: &u64| *count == 0;
        unmet.extend(
            self.sites
                .iter()
                .filter(|(_, n)| none(n))
                .map(|(s, _)| format!("{s:?}")),
        );
        let orders = self.orders.iter().filter(|(_, n)| none(n));
        unmet.extend(orders.map(|(two, _)| format!("{two:?}")));
        unmet.extend(self.kinds.report("large, pair", "input"));
        for what in &unmet {
            println!("large, pair: NEVER MET: {what}");
        }
        self.differences + unmet.len() as u64
    }
}

/// Every site that the call can have.
fn sites() -> Vec<Site> {
    let mut all = Vec::new();
    for (_, place) in OF_A_PAIR {
        let numbers: &[u64] = match place.item {
            Item::Epsilon => &[4],
            Item::Bulge => &[11, 12, 3],
            _ => &[11, 12, 2],
        };
        all.extend(numbers.iter().map(|number| (*number, place, false, false)));
    }
    for owner in 0..2 {
        let place = |item| Place::new(item, owner, 0);
        for cut in [false, true] {
            all.push((5, place(Item::Chord), cut, false));
        }
        for negative in [false, true] {
            all.push((2, place(Item::CutX), true, negative));
            all.push((2, place(Item::CutY), true, negative));
        }
    }
    all
}

/// The places of two faults at once, the one that is told first. A number of a segment hides what else is wrong with it.
fn orders() -> Vec<[Place; 2]> {
    let arcs = |owner: usize| {
        [Item::CutX, Item::CutY, Item::Chord].map(move |item| Place::new(item, owner, 0))
    };
    let mut all = Vec::new();
    for (i, (_, first)) in OF_A_PAIR.iter().enumerate() {
        all.extend(OF_A_PAIR[i + 1..].iter().map(|(_, next)| [*first, *next]));
        for owner in 0..2 {
            if first.item == Item::Epsilon || first.owner != owner {
                all.extend(arcs(owner).map(|next| [*first, next]));
            }
        }
    }
    for first in arcs(0) {
        all.extend(arcs(1).map(|next| [first, next]));
    }
    // of one segment both coordinates may be beyond; a half that is too short has no such point
    for owner in 0..2 {
        let [x, y, chord] = arcs(owner);
        all.extend([[x, y], [chord, chord]]);
    }
    all
}

fn kinds() -> Met<Case> {
    let mut kinds = Met::new();
    let all = [0, 1, 2]
        .map(|half| [0, 1, 2].map(|other| [half, other]))
        .concat();
    for halves in all {
        for class in [0, 1, 2, 3, 5] {
            kinds.add(
                format!("halves {halves:?}, class {class}"),
                move |c: &Case| c.room.is_enough() && c.results.contains(&(halves, class)),
            );
        }
    }
    kinds.add("two lines that overlap", |c: &Case| {
        c.results.contains(&([0, 0], 4))
    });
    for cut in [[false, false], [false, true], [true, false], [true, true]] {
        kinds.add(
            format!("cut {cut:?}, all results differ"),
            move |c: &Case| {
                let is = c
                    .results
                    .first()
                    .map(|(halves, _)| halves.map(|half| half > 0));
                let mut classes: Vec<u64> = c.results.iter().map(|(_, class)| *class).collect();
                let count = classes.len();
                classes.sort();
                classes.dedup();
                is == Some(cut) && classes.len() >= count.min(3)
            },
        );
    }
    for words in 0..=MOST * WORDS + 1 {
        kinds.add(format!("room for {words} words"), move |c: &Case| {
            c.room.words == words && c.room.floats >= MOST * FLOATS
        });
    }
    for floats in 0..=MOST * FLOATS + 1 {
        kinds.add(format!("room for {floats} floats"), move |c: &Case| {
            c.room.floats == floats && c.room.words >= MOST * WORDS
        });
    }
    kinds.add("a fault, and no room", |c: &Case| {
        c.fault && !c.room.is_enough()
    });
    kinds
}

/// Four vertices and an epsilon, of two segments.
fn numbers(v: Segment, u: Segment, epsilon: f64, unused: [f64; 2]) -> Numbers {
    let [a, b, c, d, e] = v;
    let [g, h, i, j, k] = u;
    [a, b, c, d, e, unused[0], g, h, i, j, k, unused[1], epsilon]
}

/// The bulges of the second vertices, which have no effect.
fn unused(rng: &mut Rng) -> [f64; 2] {
    [0; 2].map(|_| match rng.below(4) {
        0 => f64::from_bits(rng.bits()),
        1 => 17.0,
        _ => some_bulge(rng),
    })
}

/// A pair of which one segment or both are large arcs: as for the pair call with other bulges, or of one circle.
pub fn draw(rng: &mut Rng) -> Numbers {
    let pair = Pair::draw(Kind::Accepted, rng);
    let of = |s: crate::inputs::Segment| {
        let (from, to) = (s.from, s.to);
        [from.at.x, from.at.y, from.bulge, to.at.x, to.at.y]
    };
    let (mut v, mut u) = (of(pair.v), of(pair.u));
    if !rng.one_in(4) {
        v[2] = some_bulge(rng);
    }
    if !rng.one_in(4) {
        u[2] = some_bulge(rng);
    }
    if rng.one_in(4) {
        v = [
            0.0,
            0.0,
            large_bulge(rng),
            rng.pick(&[0.125, 1.0, 2.0]),
            0.0,
        ];
        u = of_one_circle(v, pair.epsilon, rng);
    }
    if rng.one_in(2) {
        (v, u) = (u, v);
    }
    numbers(v, u, pair.epsilon, unused(rng))
}

/// The same arc, the same the other way round, a half of it, the rest of its circle; or a line through its middle or its ends.
fn of_one_circle(v: Segment, epsilon: f64, rng: &mut Rng) -> Segment {
    let [x1, y1, b, x2, y2] = v;
    let parts = RULE.parts(v);
    let [x, y] = (RULE.point)(v);
    let mut u = match rng.below(8) {
        0 => v,
        1 => [x2, y2, -b, x1, y1],
        2 => parts[0].0,
        3 => parts[1].0,
        4 => [x2, y2, 1.0 / b, x1, y1],
        5 => [x1, y1, 0.0, x, y],
        6 => [x - 1.0, y, 0.0, x + 1.0, y],
        _ => [x1, y1 - 1.0, 0.0, x2, y2 + rng.between(-40.0, 40.0)],
    };
    if rng.one_in(4) {
        let (dx, dy) = (nudge(epsilon, rng), nudge(epsilon, rng));
        u = [u[0] + dx, u[1] + dy, u[2], u[3] + dx, u[4] + dy];
    }
    u
}

/// Segments at a limit, each as the first and as the second of a pair.
pub fn at_limits(rng: &mut Rng) -> Vec<Numbers> {
    let mut all = Vec::new();
    let other = [0.0, 0.0, 2.0, 1.0, 0.0];
    for segment in edges::segments(rng) {
        let epsilon = epsilon(rng);
        for (v, u) in [(segment, other), (other, segment), (segment, segment)] {
            all.push(numbers(v, u, epsilon, unused(rng)));
        }
    }
    all
}

/// Each number at every limit, and 16 in a bulge's place.
pub fn one_at_a_time(rng: &mut Rng) -> Vec<Numbers> {
    let base = accepted(rng);
    let bulges = [MOST_BULGE.next_down(), MOST_BULGE, MOST_BULGE.next_up()];
    let mut all = Vec::new();
    for at in 0..base.len() {
        let more = bulges.iter().flat_map(|b| [*b, -b]);
        for special in specials().into_iter().chain(more) {
            let mut numbers = base;
            numbers[at] = special;
            all.push(numbers);
        }
    }
    all
}

fn accepted(rng: &mut Rng) -> Numbers {
    loop {
        let numbers = draw(rng);
        if of_pair(&RULE, &numbers).next().is_none() {
            return numbers;
        }
    }
}

/// Every two faults: of numbers, of cut points, of chords.
pub fn two_at_once(rng: &mut Rng) -> Vec<Numbers> {
    let [nans, infinities, finite] = sorts::by_refusal();
    let mut changes: Vec<Vec<(usize, f64)>> = Vec::new();
    for owner in 0..2 {
        let x = edges::cut_at(0, rng.one_in(2), true, rng);
        let y = edges::cut_at(1, rng.one_in(2), true, rng);
        let both = edges::beyond_both([rng.one_in(2), rng.one_in(2)]);
        let chords = [[0.0, 0.0, 4.0, 0.0, 0.0], [0.0, 0.0, 0.5, 0.0, 0.0]];
        for segment in [x, y, both, chords[0], chords[1]] {
            changes.push((6 * owner..).zip(segment).collect());
        }
    }
    for (at, _) in OF_A_PAIR {
        for numbers in [&nans, &infinities, &finite] {
            changes.push(vec![(at, rng.pick(numbers))]);
        }
    }
    let base = accepted(rng);
    let mut all = Vec::new();
    for (i, one) in changes.iter().enumerate() {
        for other in &changes[..i] {
            let mut numbers = base;
            for (at, x) in other.iter().chain(one) {
                numbers[*at] = *x;
            }
            all.push(numbers);
        }
    }
    all
}
