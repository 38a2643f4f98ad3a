//! A stand-in for the library, right or with a defect. Its findings are worked out branch by branch along the text, with no log.

use std::cell::Cell;

use cavalier_contours::core::math::{
    circle_circle_intr, dist_squared, line_circle_intr, point_from_parametric, CircleCircleIntr,
    LineCircleIntr, Vector2,
};
use cavalier_contours::polyline::{seg_arc_radius_and_center, PlineVertex};

use super::model::*;
use super::Ours;
use crate::crossing::{CALLS, NO_ROOM, PAIRS};

pub const STAND_IN: Ours = Ours { pair, findings };

thread_local! {
    static DEFECT: Cell<&'static str> = const { Cell::new("") };
}

/// Gives the calls a defect, or none if the name is empty.
pub fn set(defect: &'static str) {
    DEFECT.set(defect);
}

fn is(defect: &str) -> bool {
    DEFECT.get() == defect
}

fn pair(n: &[f64], out: &mut [f64]) -> u64 {
    if out.len() < 4 {
        return NO_ROOM;
    }
    if let Some(fault) = CALLS[PAIRS].fault(n) {
        return fault.word();
    }
    let (class, values) = (CALLS[PAIRS].text)(n);
    out[..4].fill(0.0);
    out[..values.len()].copy_from_slice(&values);
    class
}

fn findings(n: &[f64], out: &mut [f64], found: &mut [u64]) -> u64 {
    let fault = CALLS[PAIRS].fault(n);
    match () {
        _ if is("refused before the room") && fault.is_some() => {}
        _ if is("room for points is not asked") && found.len() >= 4 && out.len() == 3 => return 0,
        _ if is("room for findings is not asked") && found.len() == 3 => return pair(n, out),
        _ if out.len() < 4 || found.len() < 4 => {
            if is("too little room writes") && !found.is_empty() {
                found[0] = NOT_TESTED;
            }
            return NO_ROOM;
        }
        _ => {}
    }
    if let Some(fault) = fault {
        if is("a refusal writes findings") {
            found.fill(NOT_TESTED);
        }
        if is("a refusal writes points") {
            out.fill(0.0);
        }
        return match () {
            _ if is("a refusal without its place") => 256 + fault.number,
            _ => fault.word(),
        };
    }
    let class = pair(n, out);
    let told = told(n);
    found[..4].copy_from_slice(&told);
    match () {
        _ if is("a fifth finding") && found.len() > 4 => found[4] = 0,
        _ if is("findings by arcs") => {
            found[..4].copy_from_slice(&[told[0], told[2], told[1], told[3]])
        }
        _ if is("u before v") => found[..4].copy_from_slice(&[told[1], told[0], told[3], told[2]]),
        _ if is("points are not written") => out[..4].fill(0.0),
        _ if is("tangent told as one") && class == 1 => return 2,
        _ => {}
    }
    class
}

#[derive(Clone, Copy)]
struct Arc {
    center: Vector2,
    radius: f64,
    start: Vector2,
    end: Vector2,
    clockwise: bool,
    epsilon: f64,
}

impl Arc {
    fn new(from: PlineVertex, to: PlineVertex, epsilon: f64) -> Arc {
        let (radius, center) = seg_arc_radius_and_center(from, to);
        Arc {
            center,
            radius,
            start: from.pos() - center,
            end: to.pos() - center,
            clockwise: from.bulge < 0.0,
            epsilon,
        }
    }

    fn is_near(&self, ray: Vector2, way: Vector2) -> bool {
        let cross = ray.perp_dot(way);
        let limit = self.epsilon * self.epsilon * ray.length_squared();
        match () {
            _ if is("behind the centre too") => cross * cross < limit,
            _ if is("at most for less, at a ray") => ray.dot(way) >= 0.0 && cross * cross <= limit,
            _ if is("half of epsilon at a ray") => {
                ray.dot(way) >= 0.0 && cross * cross < limit / 4.0
            }
            _ => ray.dot(way) >= 0.0 && cross * cross < limit,
        }
    }

    /// What the sweep says of a point.
    fn finding(&self, p: Vector2) -> u64 {
        let way = p - self.center;
        let sides = [self.start.perp_dot(way), self.end.perp_dot(way)];
        let [start, end] = if self.clockwise {
            sides.map(|x| -x)
        } else {
            sides
        };
        let squared = self.epsilon * self.epsilon;
        let at_centre = match () {
            _ if is("at most for less, at the centre") => way.length_squared() <= squared,
            _ => way.length_squared() < squared,
        };
        let inside = match () {
            _ if is("inside without the ray of the start") => start > 0.0 && end <= 0.0,
            _ if is("inside without the ray of the end") => start >= 0.0 && end < 0.0,
            _ => start >= 0.0 && end <= 0.0,
        };
        let mut rules = vec![
            (at_centre, NEAR_CENTRE),
            (inside, INSIDE),
            (self.is_near(self.start, way), NEAR_START),
            (self.is_near(self.end, way), NEAR_END),
        ];
        match () {
            _ if is("the end before the start") => rules.swap(2, 3),
            _ if is("inside before the centre") => rules.swap(0, 1),
            _ if is("a ray before inside") => rules.swap(1, 2),
            _ if is("the last yes rule") => rules.reverse(),
            _ => {}
        }
        let first = rules.into_iter().find(|(yes, _)| *yes);
        let said = first.map_or(OUTSIDE, |(_, finding)| finding);
        let is_ray = said == NEAR_START || said == NEAR_END;
        match () {
            _ if is("start and end exchanged") && is_ray => NEAR_START + NEAR_END - said,
            _ if is("clockwise from the other end") && is_ray && self.clockwise => {
                NEAR_START + NEAR_END - said
            }
            _ if is("all inside") && said != OUTSIDE => INSIDE,
            _ if is("near the centre is inside") && said == NEAR_CENTRE => INSIDE,
            _ if is("near a ray is inside") && is_ray => INSIDE,
            _ => said,
        }
    }

    /// Whether the sweep says yes, whatever is told.
    fn sweeps(&self, p: Vector2) -> bool {
        let defect = DEFECT.replace("");
        let yes = self.finding(p) != OUTSIDE;
        DEFECT.set(defect);
        yes
    }

    fn has(&self, p: Vector2) -> bool {
        let far = dist_squared(p, self.center);
        let [lower, upper] = [self.radius - self.epsilon, self.radius + self.epsilon];
        far < upper * upper && (lower < 0.0 || far > lower * lower) && self.sweeps(p)
    }
}

/// Two entries, v's and u's.
type Both = [u64; 2];

fn told(n: &[f64]) -> Findings {
    let vertex = |i: usize| PlineVertex::new(n[i], n[i + 1], n[i + 2]);
    let [v1, v2, u1, u2] = [0, 3, 6, 9].map(vertex);
    let lines = [v1, u1].map(|v| v.bulge_is_zero());
    let entries = match lines {
        [true, true] if is("lines are outside") => [[OUTSIDE; 2], [NOT_TESTED; 2]],
        [true, true] => [[NOT_TESTED; 2]; 2],
        [true, false] => {
            let told = line_and_arc(v1.pos(), v2.pos(), [u1, u2], n[12], true);
            told.map(|of| [beside(of), of])
        }
        [false, true] => {
            let told = line_and_arc(u1.pos(), u2.pos(), [v1, v2], n[12], false);
            told.map(|of| [of, beside(of)])
        }
        [false, false] => arcs([v1, v2], [u1, u2], n[12]),
    };
    let [[a, b], [c, d]] = entries;
    [a, b, c, d]
}

/// A line's entry.
fn beside(of_arc: u64) -> u64 {
    match of_arc {
        END_POINT if is("a line's end point") => END_POINT,
        _ if is("a line's entry as the arc's") => of_arc,
        _ => NOT_TESTED,
    }
}

fn is_yes(finding: u64) -> bool {
    finding != OUTSIDE && finding != NOT_TESTED
}

/// The findings of the first and of the second point.
fn line_and_arc(
    p0: Vector2,
    p1: Vector2,
    [a1, a2]: [PlineVertex; 2],
    epsilon: f64,
    line_first: bool,
) -> [u64; 2] {
    let arc = Arc::new(a1, a2, epsilon);
    let length = (p1 - p0).length();
    let end_point = if is("not tested for end point") {
        NOT_TESTED
    } else {
        END_POINT
    };
    let point = |t: f64| point_from_parametric(p0, p1, t);
    let of = |t: f64| {
        let at = t * length;
        let in_range = match () {
            _ if is("a range without epsilon") => at >= 0.0 && at <= length,
            _ if is("a range with its edge") => at + epsilon >= 0.0 && at <= length + epsilon,
            _ => at + epsilon > 0.0 && at < length + epsilon,
        };
        match in_range {
            true => arc.finding(point(t)),
            false if is("out of range is outside") => OUTSIDE,
            false if is("tested though out of range") => arc.finding(point(t)),
            false => NOT_TESTED,
        }
    };
    match line_circle_intr(p0, p1, arc.radius, arc.center, epsilon) {
        LineCircleIntr::NoIntersect if is("nothing found is outside") => [OUTSIDE; 2],
        LineCircleIntr::NoIntersect => [NOT_TESTED; 2],
        LineCircleIntr::TangentIntersect { t0 } => {
            let replaced = arc.has(p0) || arc.has(p1);
            let first = match () {
                _ if is("a touching end keeps its finding") => of(t0),
                _ if is("only the line's first end stands in") && !arc.has(p0) => of(t0),
                _ if replaced => end_point,
                _ => of(t0),
            };
            match () {
                _ if is("a touching point told twice") => [first, first],
                _ if is("a touching point told second") => [NOT_TESTED, first],
                _ => [first, NOT_TESTED],
            }
        }
        LineCircleIntr::TwoIntersects { t0, t1 } => {
            let mut entries = [of(t0), of(t1)];
            let (first, second) = (point(t0), point(t1));
            let ends = [arc.has(p0), arc.has(p1)];
            let nearer = |p: Vector2| {
                let [a, b] = [dist_squared(p, first), dist_squared(p, second)];
                match () {
                    _ if is("a tie goes to the first") => a <= b,
                    _ if is("always the first") => true,
                    _ if is("always the last") => false,
                    _ => a < b,
                }
            };
            let any = ends.contains(&true);
            match entries.map(is_yes) {
                [false, false] => {
                    if is("an end stands in where none counted") && any {
                        entries[0] = end_point;
                    }
                }
                [true, false] | [false, true] => {
                    let counted = usize::from(is_yes(entries[1]));
                    if any && !is("one counted keeps its finding") {
                        entries[counted] = end_point;
                        if is("both told as ends") {
                            entries[1 - counted] = end_point;
                        }
                    }
                    if is("one counted comes first") && counted == 1 {
                        entries.swap(0, 1);
                    }
                }
                [true, true] => {
                    let mut points = [first, second];
                    let mut replace = |place: usize, p: Vector2| {
                        entries[place] = end_point;
                        points[place] = p;
                    };
                    match ends {
                        [true, true] => {
                            let of_p0 = usize::from(!nearer(p0));
                            replace(of_p0, p0);
                            if !is("only one of two ends") {
                                replace(1 - of_p0, p1);
                            }
                        }
                        [true, false] => replace(usize::from(!nearer(p0)), p0),
                        [false, true] => replace(usize::from(!nearer(p1)), p1),
                        [false, false] => {}
                    }
                    let [a, b] = points.map(|p| dist_squared(p, a1.pos()));
                    let in_order = match () {
                        _ if is("not exchanged") => true,
                        _ if is("exchanged beside a line too") => a < b,
                        _ if is("a tie in order") => !line_first || a <= b,
                        _ if is("ordered by the computed points") => {
                            let [a, b] = [first, second].map(|p| dist_squared(p, a1.pos()));
                            !line_first || a < b
                        }
                        _ => !line_first || a < b,
                    };
                    if !in_order {
                        entries.swap(0, 1);
                    }
                }
            }
            entries
        }
    }
}

fn arcs([v1, v2]: [PlineVertex; 2], [u1, u2]: [PlineVertex; 2], epsilon: f64) -> [Both; 2] {
    let (arc1, arc2) = (Arc::new(v1, v2, epsilon), Arc::new(u1, u2, epsilon));
    let none = [[NOT_TESTED; 2]; 2];
    let end_points = match () {
        _ if is("not tested for end point") => [NOT_TESTED; 2],
        _ if is("end point for v only") => [END_POINT, NOT_TESTED],
        _ if is("end point for u only") => [NOT_TESTED, END_POINT],
        _ => [END_POINT; 2],
    };
    let of = |p: Vector2| -> Both {
        let first = arc1.finding(p);
        match first {
            _ if is("the second arc always tested") => [first, arc2.finding(p)],
            _ if is("u is asked first") => {
                let second = arc2.finding(p);
                let first = if second == OUTSIDE { NOT_TESTED } else { first };
                [first, second]
            }
            OUTSIDE if is("outside both") => [OUTSIDE; 2],
            OUTSIDE => [OUTSIDE, NOT_TESTED],
            _ => [first, arc2.finding(p)],
        }
    };
    let ends = [
        (u1.pos(), arc1.has(u1.pos())),
        (u2.pos(), arc1.has(u2.pos())),
        (v1.pos(), arc2.has(v1.pos())),
        (v2.pos(), arc2.has(v2.pos())),
    ];
    let lying = ends.into_iter().filter(|(_, lies)| *lies).map(|(p, _)| p);
    match circle_circle_intr(arc1.radius, arc1.center, arc2.radius, arc2.center, epsilon) {
        CircleCircleIntr::NoIntersect if is("nothing found is outside") => [[OUTSIDE; 2]; 2],
        CircleCircleIntr::NoIntersect => none,
        CircleCircleIntr::Overlapping if is("one circle is reported") => {
            [[arc1.finding(u1.pos()), NOT_TESTED], none[1]]
        }
        CircleCircleIntr::Overlapping if is("ends of one circle are end points") => {
            let touch = lying.count() > 0;
            [if touch { end_points } else { none[0] }, none[1]]
        }
        CircleCircleIntr::Overlapping => none,
        CircleCircleIntr::TangentIntersect { point } => {
            let by_v = ends[2].1 || ends[3].1;
            let answers = match () {
                _ if is("ends of u only") => ends[0].1 || ends[1].1,
                _ if is("a touching end keeps its finding") => false,
                _ => ends[0].1 || ends[1].1 || by_v,
            };
            [if answers { end_points } else { of(point) }, none[1]]
        }
        CircleCircleIntr::TwoIntersects { point1, point2 } => {
            let mut slots: Vec<Vector2> = Vec::new();
            for end in lying {
                let same = |kept: &Vector2| kept.fuzzy_eq_eps(end, epsilon);
                if slots.len() < 2 && (is("ends are kept twice") || !slots.iter().any(same)) {
                    slots.push(end);
                }
            }
            let mut entries = [of(point1), of(point2)];
            let counted = [point1, point2].map(|p| arc1.sweeps(p) && arc2.sweeps(p));
            match (counted, &slots[..]) {
                (_, []) => {}
                ([true, true], [end]) => {
                    let [a, b] = [point1, point2].map(|p| dist_squared(*end, p));
                    let first = match () {
                        _ if is("a tie goes to the first") => a <= b,
                        _ if is("always the first") => true,
                        _ if is("always the last") => false,
                        _ => a < b,
                    };
                    entries[usize::from(!first)] = end_points;
                    if is("one end takes both places") {
                        entries = [end_points; 2];
                    }
                }
                ([true, true], _) => {
                    entries = [end_points; 2];
                    if is("two ends take one place") {
                        entries[1] = of(point2);
                    }
                }
                ([false, false], _) => {
                    if is("an end stands in where none counted") {
                        entries[0] = end_points;
                    }
                }
                ([first, _], [_]) => {
                    if !is("one counted keeps its finding") {
                        entries[usize::from(!first)] = end_points;
                    }
                }
                ([first, _], _) => {
                    entries[usize::from(!first)] = end_points;
                    if is("both told as ends") {
                        entries = [end_points; 2];
                    }
                    if is("two ends, and one counted: by places") {
                        entries[usize::from(first)] = end_points;
                    }
                }
            }
            if is("one counted comes first") && counted == [false, true] {
                entries.swap(0, 1);
            }
            entries
        }
    }
}
