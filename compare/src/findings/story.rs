//! What the Rust did with a pair: the copy's log, read into one value. A log that is not as the branches of the text allow is an
//! error, so that nothing is read into the wrong place.

use cavalier_contours::log::{self, Event, Kernel, Point, Swept};
use cavalier_contours::polyline::with_log::{pline_seg_intr, PlineSegIntr};
use cavalier_contours::polyline::{seg_arc_radius_and_center, PlineVertex};

use crate::numbers::Numbers;

/// The two segments of a pair.
pub const V: usize = 0;
pub const U: usize = 1;

/// An end of which was asked whether it lies on the other arc.
#[derive(Clone, Copy, Debug)]
pub struct Asked {
    pub end: Point,
    /// The test of the sweep, if its turn came.
    pub swept: Option<Swept>,
    pub lies: bool,
}

#[derive(Clone, Debug)]
pub struct Story {
    pub kernel: Kernel,
    /// Which segments are arcs.
    pub arcs: [bool; 2],
    /// Of a line and an arc: the parameters of the computed points that were asked about, in order.
    pub parameters: Vec<f64>,
    /// By computed point and by arc: the test, if there was one.
    pub tests: [[Option<Swept>; 2]; 2],
    pub ends: Vec<Asked>,
    /// Ends that crossing arcs keep.
    pub slots: Vec<Point>,
    /// Ends that were put into the answer, and where: in its first place or in its second.
    pub placed: Vec<(usize, Point)>,
    pub exchanged: bool,
}

fn vertex(n: &[f64], at: usize) -> PlineVertex {
    PlineVertex::new(n[at], n[at + 1], n[at + 2])
}

/// Runs the copy: its answer as a class and points, and what it did.
pub fn run(n: &[f64], events: &mut Vec<Event>) -> ((u64, Numbers), Result<Story, String>) {
    let answer = pline_seg_intr(
        vertex(n, 0),
        vertex(n, 3),
        vertex(n, 6),
        vertex(n, 9),
        n[12],
    );
    log::take(events);
    (plain(answer), Story::of(n, events))
}

/// The number of a class, and its points.
fn plain(answer: PlineSegIntr<f64>) -> (u64, Numbers) {
    let (class, points) = match answer {
        PlineSegIntr::NoIntersect => (0, vec![]),
        PlineSegIntr::TangentIntersect { point } => (1, vec![point]),
        PlineSegIntr::OneIntersect { point } => (2, vec![point]),
        PlineSegIntr::TwoIntersects { point1, point2 } => (3, vec![point1, point2]),
        PlineSegIntr::OverlappingLines { point1, point2 } => (4, vec![point1, point2]),
        PlineSegIntr::OverlappingArcs { point1, point2 } => (5, vec![point1, point2]),
    };
    let numbers = match points[..] {
        [p] => [p.x, p.y].into(),
        [p, q] => [p.x, p.y, q.x, q.y].into(),
        _ => [].into(),
    };
    (class, numbers)
}

impl Story {
    fn of(n: &[f64], events: &[Event]) -> Result<Story, String> {
        let Some(Event::Kernel(kernel)) = events.first().copied() else {
            return Err(format!("no kernel comes first: {events:?}"));
        };
        let mut story = Story {
            kernel,
            arcs: [2, 8].map(|bulge| n[bulge].abs() >= 1e-8),
            parameters: Vec::new(),
            tests: [[None; 2]; 2],
            ends: Vec::new(),
            slots: Vec::new(),
            placed: Vec::new(),
            exchanged: false,
        };
        let of_lines = matches!(kernel, Kernel::Lines);
        let of_one_line = matches!(
            kernel,
            Kernel::LineMisses | Kernel::LineTouches | Kernel::LineCrosses
        );
        let arcs = story.arcs.iter().filter(|arc| **arc).count();
        if arcs != [2, 1, 0][usize::from(of_one_line) + 2 * usize::from(of_lines)] {
            return Err(format!("{kernel:?} of {arcs} arcs"));
        }
        // ends of one circle are tested by another epsilon, and nothing is computed
        if kernel == Kernel::OneCircle {
            return Ok(story);
        }
        story.read(&events[1..], of_one_line)?;
        story.is_of(n)?;
        Ok(story)
    }

    fn read(&mut self, events: &[Event], of_one_line: bool) -> Result<(), String> {
        let mut asked: Option<Asked> = None;
        let mut about = None;
        for event in events {
            match (*event, &mut asked) {
                (Event::End(end), None) => {
                    asked = Some(Asked {
                        end,
                        swept: None,
                        lies: false,
                    });
                }
                (Event::Swept(swept), Some(asked)) if asked.swept.is_none() => {
                    asked.swept = Some(swept);
                }
                (Event::Lies(lies), Some(end)) => {
                    self.ends.push(Asked { lies, ..*end });
                    asked = None;
                }
                (Event::Parameter(t), None) if of_one_line && self.parameters.len() < 2 => {
                    about = Some((self.parameters.len(), if self.arcs[V] { V } else { U }));
                    self.parameters.push(t);
                }
                (Event::About { point, arc }, None) if !of_one_line => about = Some((point, arc)),
                (Event::Swept(swept), None) if about.is_some() => {
                    let (point, arc) = about.take().expect("there is one");
                    if self.tests[point][arc].replace(swept).is_some() {
                        return Err(format!("point {point} is tested twice: {events:?}"));
                    }
                }
                (Event::Slot(end), None) => self.slots.push(end),
                (Event::Placed { place, end }, None) => self.placed.push((place, end)),
                (Event::Exchanged, None) if !self.exchanged => self.exchanged = true,
                _ => return Err(format!("{event:?} among {events:?}")),
            }
        }
        Ok(())
    }

    /// Each test of a computed point is one of the arc that it is kept under, and both of a point are of the same point.
    fn is_of(&self, n: &[f64]) -> Result<(), String> {
        for tests in self.tests {
            for (arc, first) in [(V, 0), (U, 6)] {
                let Some(swept) = tests[arc] else { continue };
                let (from, to) = (vertex(n, first), vertex(n, first + 3));
                let (_, center) = seg_arc_radius_and_center(from, to);
                let [start, end] = [from, to].map(|v| v.pos() - center);
                let of_arc = [center, start, end].map(|p| [p.x, p.y]);
                if of_arc != [swept.center, swept.start, swept.end] {
                    return Err(format!("{swept:?} is not of arc {arc}: {of_arc:?}"));
                }
            }
            if let [Some(of_v), Some(of_u)] = tests {
                if of_v.point != of_u.point {
                    return Err(format!("two points: {of_v:?}, {of_u:?}"));
                }
            }
        }
        Ok(())
    }

    /// The computed points that were tested.
    pub fn computed(&self) -> [Option<Point>; 2] {
        self.tests
            .map(|tests| tests.into_iter().flatten().next().map(|swept| swept.point))
    }
}
