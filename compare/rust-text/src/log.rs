//! What the copy of the pair function notes, in the order in which it happens. The calls are put in by `insertions.rs`.

use std::cell::RefCell;

use crate::core::math::Vector2;
use crate::core::traits::Real;

/// A rule of the test of a sweep that says yes, in the order of the rules.
#[derive(Clone, Copy, Debug, PartialEq, Eq)]
pub enum Rule {
    Centre,
    Inside,
    Start,
    End,
}

/// Which kernel was asked, and what it found.
#[derive(Clone, Copy, Debug, PartialEq, Eq)]
pub enum Kernel {
    Lines,
    LineMisses,
    LineTouches,
    LineCrosses,
    ArcsMiss,
    ArcsTouch,
    ArcsCross,
    OneCircle,
}

pub type Point = [f64; 2];

/// A test of a sweep.
#[derive(Clone, Copy, Debug, PartialEq)]
pub struct Swept {
    pub center: Point,
    /// From the centre to the arc's start, and to its end.
    pub start: Point,
    pub end: Point,
    pub point: Point,
    /// The first rule that said yes.
    pub rule: Option<Rule>,
}

#[derive(Clone, Copy, Debug, PartialEq)]
pub enum Event {
    Kernel(Kernel),
    /// The point of the line at this parameter comes next.
    Parameter(f64),
    /// A computed point of two arcs is tested next: the first or the second, 0 or 1, against v or u, 0 or 1.
    About {
        point: usize,
        arc: usize,
    },
    Swept(Swept),
    /// Whether this end lies on the other arc comes next, up to `Lies`.
    End(Point),
    Lies(bool),
    /// An end of two crossing arcs is kept.
    Slot(Point),
    /// An end is put into the answer, in the first place or the second.
    Placed {
        place: usize,
        end: Point,
    },
    /// The points of the answer change places.
    Exchanged,
}

thread_local! {
    static EVENTS: RefCell<Vec<Event>> = const { RefCell::new(Vec::new()) };
}

/// Hands out what was noted since the last time.
pub fn take(events: &mut Vec<Event>) {
    events.clear();
    EVENTS.with_borrow_mut(|noted| std::mem::swap(noted, events));
}

fn note(event: Event) {
    EVENTS.with_borrow_mut(|noted| noted.push(event));
}

fn plain<T: Real>(p: Vector2<T>) -> Point {
    [p.x.into(), p.y.into()]
}

fn swept<T: Real>([center, start, end]: [Vector2<T>; 3], point: Vector2<T>, rule: Option<Rule>) {
    note(Event::Swept(Swept {
        center: plain(center),
        start: plain(start),
        end: plain(end),
        point: plain(point),
        rule,
    }));
}

/// What a rule says.
pub(crate) fn by<T: Real>(
    sweep: [Vector2<T>; 3],
    point: Vector2<T>,
    rule: Rule,
    yes: bool,
) -> bool {
    if yes {
        swept(sweep, point, Some(rule));
    }
    yes
}

/// No rule said yes.
pub(crate) fn outside<T: Real>(sweep: [Vector2<T>; 3], point: Vector2<T>) -> bool {
    swept(sweep, point, None);
    false
}

pub(crate) fn kernel(found: Kernel) {
    note(Event::Kernel(found));
}

pub(crate) fn parameter<T: Real>(t: T) {
    note(Event::Parameter(t.into()));
}

pub(crate) fn about(point: usize, arc: usize) -> bool {
    note(Event::About { point, arc });
    true
}

pub(crate) fn end<T: Real>(end: Vector2<T>) {
    note(Event::End(plain(end)));
}

pub(crate) fn lies(lies: bool) -> bool {
    note(Event::Lies(lies));
    lies
}

pub(crate) fn slot<T: Real>(end: Vector2<T>) {
    note(Event::Slot(plain(end)));
}

pub(crate) fn placed<T: Real>(place: usize, end: Vector2<T>) -> Vector2<T> {
    note(Event::Placed {
        place,
        end: plain(end),
    });
    end
}

pub(crate) fn exchanged() {
    note(Event::Exchanged);
}
