//! The kernels: two lines, a line and a circle, two circles.

use crate::ffi;
use crate::refusal::{Places, Refusal};
use crate::shapes::Vector2;

/// How two lines meet. A parameter t stands for the point from + t * (to - from) of its line.
#[derive(Debug, Copy, Clone, PartialEq)]
pub enum LineLineIntr<T = f64> {
    /// Parallel and apart, on one straight line or not; a point counts as parallel.
    NoIntersect,
    /// They meet in one point.
    TrueIntersect {
        /// Its parameter on the first line.
        seg1_t: T,
        /// Its parameter on the second line.
        seg2_t: T,
    },
    /// They overlap.
    Overlapping {
        /// Where the overlap starts, a parameter on the second line.
        seg2_t0: T,
        /// Where it ends, the same.
        seg2_t1: T,
    },
    /// The straight lines cross beyond an end.
    FalseIntersect {
        /// The crossing's parameter on the first line.
        seg1_t: T,
        /// Its parameter on the second line.
        seg2_t: T,
    },
}

/// How a line and a circle meet. A parameter below 0 or above 1 is a point beyond an end.
#[derive(Debug, Copy, Clone, PartialEq)]
pub enum LineCircleIntr<T = f64> {
    /// Apart.
    NoIntersect,
    /// They meet in one point.
    TangentIntersect {
        /// Its parameter on the line.
        t0: T,
    },
    /// They meet in two points.
    TwoIntersects {
        /// The first point's parameter on the line.
        t0: T,
        /// The second point's.
        t1: T,
    },
}

/// How two circles meet.
#[derive(Debug, Copy, Clone, PartialEq)]
pub enum CircleCircleIntr<T = f64> {
    /// Apart, or one inside the other.
    NoIntersect,
    /// They meet in one point.
    TangentIntersect {
        /// That point.
        point: Vector2<T>,
    },
    /// They meet in two points.
    TwoIntersects {
        /// The first point.
        point1: Vector2<T>,
        /// The second point.
        point2: Vector2<T>,
    },
    /// They are the same circle.
    Overlapping,
}

/// The lines `v1` to `v2` and `u1` to `u2`.
///
/// # Errors
/// A refusal, if a number is at fault: 11, 12, 2 or 4.
///
/// ```
/// use vonjekona::{LineLineIntr, Vector2, line_line_intr};
/// let at = Vector2::new;
/// let met = line_line_intr(at(0.0, 0.0), at(4.0, 0.0), at(1.0, -1.0), at(1.0, 1.0), 1e-5)?;
/// assert_eq!(met, LineLineIntr::TrueIntersect { seg1_t: 0.25, seg2_t: 0.5 });
/// # Ok::<(), vonjekona::Refusal>(())
/// ```
pub fn line_line_intr(
    v1: Vector2,
    v2: Vector2,
    u1: Vector2,
    u2: Vector2,
    epsilon: f64,
) -> Result<LineLineIntr, Refusal> {
    let mut out = [0.0; 4];
    let numbers = [v1.x, v1.y, v2.x, v2.y, u1.x, u1.y, u2.x, u2.y];
    let word = ffi::line_line(numbers, epsilon, &mut out);
    let [a, b, _, _] = out;
    Ok(match Refusal::check(Places::Lines, false, word)? {
        0 => LineLineIntr::NoIntersect,
        1 => LineLineIntr::TrueIntersect { seg1_t: a, seg2_t: b },
        2 => LineLineIntr::Overlapping { seg2_t0: a, seg2_t1: b },
        3 => LineLineIntr::FalseIntersect { seg1_t: a, seg2_t: b },
        case => unreachable!("the library has no case {case}"),
    })
}

/// The line through `p0` and `p1`, and a circle.
///
/// # Errors
/// A refusal, if a number is at fault: 11, 12, 2, 9 or 4.
///
/// ```
/// use vonjekona::{LineCircleIntr, Vector2, line_circle_intr};
/// let at = Vector2::new;
/// let met = line_circle_intr(at(0.0, 0.0), at(8.0, 0.0), 2.0, at(4.0, 0.0), 1e-5)?;
/// assert_eq!(met, LineCircleIntr::TwoIntersects { t0: 0.25, t1: 0.75 });
/// let no_circle = line_circle_intr(at(0.0, 0.0), at(8.0, 0.0), 0.0, at(4.0, 0.0), 1e-5);
/// assert_eq!(no_circle.unwrap_err().number, 9);
/// # Ok::<(), vonjekona::Refusal>(())
/// ```
pub fn line_circle_intr(
    p0: Vector2,
    p1: Vector2,
    radius: f64,
    circle_center: Vector2,
    epsilon: f64,
) -> Result<LineCircleIntr, Refusal> {
    let mut out = [0.0; 4];
    let numbers = [p0.x, p0.y, p1.x, p1.y, radius, circle_center.x, circle_center.y];
    let word = ffi::line_circle(numbers, epsilon, &mut out);
    let [t0, t1, _, _] = out;
    Ok(match Refusal::check(Places::LineAndCircle, false, word)? {
        0 => LineCircleIntr::NoIntersect,
        1 => LineCircleIntr::TangentIntersect { t0 },
        2 => LineCircleIntr::TwoIntersects { t0, t1 },
        case => unreachable!("the library has no case {case}"),
    })
}

/// Two circles, each by its radius and its centre.
///
/// # Errors
/// A refusal, if a number is at fault: 11, 12, 9 or 4.
///
/// ```
/// use vonjekona::{CircleCircleIntr, Vector2, circle_circle_intr};
/// let at = Vector2::new;
/// let met = circle_circle_intr(3.0, at(0.0, 0.0), 2.0, at(5.0, 0.0), 1e-5)?;
/// assert_eq!(met, CircleCircleIntr::TangentIntersect { point: at(3.0, 0.0) });
/// # Ok::<(), vonjekona::Refusal>(())
/// ```
pub fn circle_circle_intr(
    radius1: f64,
    center1: Vector2,
    radius2: f64,
    center2: Vector2,
    epsilon: f64,
) -> Result<CircleCircleIntr, Refusal> {
    let mut out = [0.0; 4];
    let numbers = [radius1, center1.x, center1.y, radius2, center2.x, center2.y];
    let word = ffi::circle_circle(numbers, epsilon, &mut out);
    let (point, second) = (Vector2::new(out[0], out[1]), Vector2::new(out[2], out[3]));
    Ok(match Refusal::check(Places::Circles, false, word)? {
        0 => CircleCircleIntr::NoIntersect,
        1 => CircleCircleIntr::TangentIntersect { point },
        2 => CircleCircleIntr::TwoIntersects { point1: point, point2: second },
        3 => CircleCircleIntr::Overlapping,
        case => unreachable!("the library has no case {case}"),
    })
}
