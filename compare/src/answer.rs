//! The answer of a crossing function as plain numbers: its class, and the floats that the class carries.

use cavalier_contours::core::math::{CircleCircleIntr, LineCircleIntr, LineLineIntr, Vector2};
use cavalier_contours::polyline::PlineSegIntr;

#[derive(Debug, PartialEq)]
pub struct Answer {
    pub class: &'static str,
    pub values: Vec<f64>,
}

impl Answer {
    pub fn new(class: &'static str, values: &[f64]) -> Answer {
        Answer {
            class,
            values: values.to_vec(),
        }
    }

    fn of_points(class: &'static str, points: &[Vector2]) -> Answer {
        let values = points.iter().flat_map(|p| [p.x, p.y]).collect();
        Answer { class, values }
    }
}

impl From<LineLineIntr<f64>> for Answer {
    fn from(answer: LineLineIntr<f64>) -> Answer {
        match answer {
            LineLineIntr::NoIntersect => Answer::new("none", &[]),
            LineLineIntr::TrueIntersect { seg1_t, seg2_t } => {
                Answer::new("true", &[seg1_t, seg2_t])
            }
            LineLineIntr::FalseIntersect { seg1_t, seg2_t } => {
                Answer::new("false", &[seg1_t, seg2_t])
            }
            LineLineIntr::Overlapping { seg2_t0, seg2_t1 } => {
                Answer::new("overlapping", &[seg2_t0, seg2_t1])
            }
        }
    }
}

impl From<LineCircleIntr<f64>> for Answer {
    fn from(answer: LineCircleIntr<f64>) -> Answer {
        match answer {
            LineCircleIntr::NoIntersect => Answer::new("none", &[]),
            LineCircleIntr::TangentIntersect { t0 } => Answer::new("tangent", &[t0]),
            LineCircleIntr::TwoIntersects { t0, t1 } => Answer::new("two", &[t0, t1]),
        }
    }
}

impl From<CircleCircleIntr<f64>> for Answer {
    fn from(answer: CircleCircleIntr<f64>) -> Answer {
        match answer {
            CircleCircleIntr::NoIntersect => Answer::new("none", &[]),
            CircleCircleIntr::TangentIntersect { point } => Answer::of_points("tangent", &[point]),
            CircleCircleIntr::TwoIntersects { point1, point2 } => {
                Answer::of_points("two", &[point1, point2])
            }
            CircleCircleIntr::Overlapping => Answer::new("overlapping", &[]),
        }
    }
}

impl From<PlineSegIntr<f64>> for Answer {
    fn from(answer: PlineSegIntr<f64>) -> Answer {
        match answer {
            PlineSegIntr::NoIntersect => Answer::new("none", &[]),
            PlineSegIntr::TangentIntersect { point } => Answer::of_points("tangent", &[point]),
            PlineSegIntr::OneIntersect { point } => Answer::of_points("one", &[point]),
            PlineSegIntr::TwoIntersects { point1, point2 } => {
                Answer::of_points("two", &[point1, point2])
            }
            PlineSegIntr::OverlappingLines { point1, point2 } => {
                Answer::of_points("lines", &[point1, point2])
            }
            PlineSegIntr::OverlappingArcs { point1, point2 } => {
                Answer::of_points("arcs", &[point1, point2])
            }
        }
    }
}
