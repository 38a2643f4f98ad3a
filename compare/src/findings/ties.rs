//! Ties: two numbers that the Rust compares are equal. They are worked out here by its operations, from what it did.

use cavalier_contours::core::math::{dist_squared, Vector2};
use cavalier_contours::log::{Kernel, Point, Swept};
use cavalier_contours::polyline::{seg_arc_radius_and_center, PlineVertex};

use super::model::counted;
use super::story::{Story, U, V};
use crate::met::Met;

pub type Tie = &'static str;

const TIES: [Tie; 21] = [
    "a computed point at epsilon from the centre",
    "a computed point on the ray of the start, counterclockwise",
    "a computed point on the ray of the start, clockwise",
    "a computed point on the ray of the end, counterclockwise",
    "a computed point on the ray of the end, clockwise",
    "a computed point opposite the ray of the start",
    "a computed point opposite the ray of the end",
    "a computed point at epsilon from the ray of the start",
    "a computed point at epsilon from the ray of the end",
    "a parameter at epsilon before the line",
    "a parameter at epsilon behind the line",
    "an end at the radius and epsilon from the centre",
    "an end at the radius less epsilon from the centre",
    "an end on an arc whose radius is epsilon",
    "the line's first end as far from both points",
    "the line's second end as far from both points",
    "both points as far from the start of the arc",
    "an end of an arc as far from both points",
    "two ends as far from the first point",
    "two ends at epsilon from each other",
    "both ends of the line on the arc, the first as far from both points",
];

pub fn kinds() -> Met<Tie> {
    let mut kinds = Met::new();
    for name in TIES {
        kinds.add(name, move |tie: &Tie| *tie == name);
    }
    kinds
}

fn at(p: Point) -> Vector2 {
    Vector2::new(p[0], p[1])
}

pub fn ties(n: &[f64], story: &Story, mut found: impl FnMut(Tie)) {
    if matches!(
        story.kernel,
        Kernel::Lines | Kernel::OneCircle | Kernel::LineMisses | Kernel::ArcsMiss
    ) {
        return;
    }
    let epsilon = n[12];
    for tests in story.tests {
        for (arc, swept) in tests.into_iter().enumerate() {
            if let Some(swept) = swept {
                of_test(&swept, n[6 * arc + 2] < 0.0, epsilon, &mut found);
            }
        }
    }
    let line = if story.arcs[V] { U } else { V };
    if matches!(story.kernel, Kernel::LineTouches | Kernel::LineCrosses) {
        let [p0, p1] = [6 * line, 6 * line + 3].map(|i| Vector2::new(n[i], n[i + 1]));
        let length = (p1 - p0).length();
        for t in &story.parameters {
            tie(t * length + epsilon, 0.0, TIES[9], &mut found);
            tie(t * length, length + epsilon, TIES[10], &mut found);
        }
    }
    of_ends(n, story, line, &mut found);
    of_distances(n, story, line, &mut found);
}

fn tie(a: f64, b: f64, name: Tie, found: &mut impl FnMut(Tie)) {
    if a == b {
        found(name);
    }
}

fn of_test(swept: &Swept, clockwise: bool, epsilon: f64, found: &mut impl FnMut(Tie)) {
    let way = at(swept.point) - at(swept.center);
    let squared = epsilon * epsilon;
    tie(way.length_squared(), squared, TIES[0], found);
    if way.length_squared() < squared {
        return;
    }
    let crosses = [swept.start, swept.end].map(|ray| at(ray).perp_dot(way));
    let left = |cross: f64| {
        if clockwise {
            cross <= 0.0
        } else {
            cross >= 0.0
        }
    };
    let inside = left(crosses[0]) && left(-crosses[1]);
    for (i, ray) in [swept.start, swept.end].into_iter().enumerate() {
        let forward = at(ray).dot(way) >= 0.0;
        match (crosses[i] == 0.0, forward) {
            (true, true) if inside => found(TIES[1 + 2 * i + usize::from(clockwise)]),
            (true, false) => found(TIES[5 + i]),
            (false, true) if !inside => {
                let limit = squared * at(ray).length_squared();
                tie(crosses[i] * crosses[i], limit, TIES[7 + i], found);
            }
            _ => {}
        }
    }
}

fn circle(n: &[f64], arc: usize) -> (f64, Vector2) {
    let vertex = |i: usize| PlineVertex::new(n[i], n[i + 1], n[i + 2]);
    seg_arc_radius_and_center(vertex(6 * arc), vertex(6 * arc + 3))
}

/// Ends that were asked about: those of the line, or those of u and then those of v.
fn of_ends(n: &[f64], story: &Story, line: usize, found: &mut impl FnMut(Tie)) {
    let of_arcs = matches!(story.kernel, Kernel::ArcsTouch | Kernel::ArcsCross);
    for (turn, asked) in story.ends.iter().enumerate() {
        let arc = if of_arcs { turn / 2 } else { 1 - line };
        let (radius, center) = circle(n, arc);
        let far = dist_squared(at(asked.end), center);
        let [lower, upper] = [radius - n[12], radius + n[12]];
        tie(far, upper * upper, TIES[11], found);
        if lower > 0.0 {
            tie(far, lower * lower, TIES[12], found);
        }
        if lower == 0.0 && asked.lies {
            found(TIES[13]);
        }
    }
}

fn of_distances(n: &[f64], story: &Story, line: usize, found: &mut impl FnMut(Tie)) {
    let far = |a: Point, b: Point| dist_squared(at(a), at(b));
    let vertex = |i: usize| [n[i], n[i + 1]];
    for (i, one) in story.slots.iter().enumerate() {
        for other in story.ends.iter().filter(|asked| asked.lies) {
            let away = [0, 1].map(|axis| (one[axis] - other.end[axis]).abs());
            let less = |axis: usize| away[axis] <= n[12];
            if i == 0 && less(0) && less(1) && away.contains(&n[12]) {
                found(TIES[19]);
            }
        }
    }
    let [Some(first), Some(second)] = story.computed() else {
        return;
    };
    if !(counted(story, 0) && counted(story, 1)) {
        return;
    }
    match story.kernel {
        Kernel::LineCrosses => {
            let lies = |end: usize| story.ends.get(end).is_some_and(|asked| asked.lies);
            for end in 0..2 {
                let p = vertex(6 * line + 3 * end);
                if far(p, first) != far(p, second) {
                    continue;
                }
                match [lies(0), lies(1)] {
                    [true, true] if end == 0 => found(TIES[20]),
                    lying if lying[end] && !lying[1 - end] => found(TIES[14 + end]),
                    _ => {}
                }
            }
            let mut points = [first, second];
            for (place, end) in &story.placed {
                points[*place] = *end;
            }
            if line == V {
                let start = vertex(6);
                tie(
                    far(points[0], start),
                    far(points[1], start),
                    TIES[16],
                    found,
                );
            }
        }
        Kernel::ArcsCross => match story.slots[..] {
            [end] => tie(far(end, first), far(end, second), TIES[17], found),
            [end, other] => tie(far(end, first), far(other, first), TIES[18], found),
            _ => {}
        },
        _ => {}
    }
}
