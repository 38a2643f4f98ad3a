//! The caller: the same text for both crates, but for the crate's name and the `?`.

/// Four vertices, x, y and bulge each, and an epsilon.
pub struct Numbers {
    pub vertices: [[f64; 3]; 4],
    pub epsilon: f64,
}

/// Which variant it is, and its numbers' bits.
#[derive(Debug, PartialEq)]
pub struct Answer {
    pub case: u8,
    pub bits: Vec<u64>,
}

impl Answer {
    /// Zeros of either sign are equal: the Rust leaves the sign of a zero open.
    pub fn new(case: u8, numbers: &[f64]) -> Self {
        Answer { case, bits: numbers.iter().map(|n| (n + 0.0).to_bits()).collect() }
    }
}

macro_rules! caller {
    ($used:ident $($question:tt)?) => {
        use $used::core::math::{
            CircleCircleIntr, LineCircleIntr, LineLineIntr, Vector2, circle_circle_intr,
            line_circle_intr, line_line_intr,
        };
        use $used::polyline::{PlineSegIntr, PlineVertex, pline_seg_intr};

        use crate::caller::{Answer, Numbers};

        type Answered = Result<Answer, vonjekona::Refusal>;

        fn vertex([x, y, bulge]: [f64; 3]) -> PlineVertex<f64> {
            PlineVertex::new(x, y, bulge)
        }

        fn point([x, y, _]: [f64; 3]) -> Vector2<f64> {
            Vector2::new(x, y)
        }

        pub fn pair(n: &Numbers) -> Answered {
            let [v1, v2, u1, u2] = n.vertices.map(vertex);
            let met: PlineSegIntr<f64> = pline_seg_intr(v1, v2, u1, u2, n.epsilon)$($question)?;
            Ok(match met {
                PlineSegIntr::NoIntersect => Answer::new(0, &[]),
                PlineSegIntr::TangentIntersect { point: p } => Answer::new(1, &[p.x, p.y]),
                PlineSegIntr::OneIntersect { point: p } => Answer::new(2, &[p.x, p.y]),
                PlineSegIntr::TwoIntersects { point1: p, point2: q } => {
                    Answer::new(3, &[p.x, p.y, q.x, q.y])
                }
                PlineSegIntr::OverlappingLines { point1: p, point2: q } => {
                    Answer::new(4, &[p.x, p.y, q.x, q.y])
                }
                PlineSegIntr::OverlappingArcs { point1: p, point2: q } => {
                    Answer::new(5, &[p.x, p.y, q.x, q.y])
                }
            })
        }

        pub fn lines(n: &Numbers) -> Answered {
            let [v1, v2, u1, u2] = n.vertices.map(point);
            let met: LineLineIntr<f64> = line_line_intr(v1, v2, u1, u2, n.epsilon)$($question)?;
            Ok(match met {
                LineLineIntr::NoIntersect => Answer::new(0, &[]),
                LineLineIntr::TrueIntersect { seg1_t, seg2_t } => Answer::new(1, &[seg1_t, seg2_t]),
                LineLineIntr::Overlapping { seg2_t0, seg2_t1 } => Answer::new(2, &[seg2_t0, seg2_t1]),
                LineLineIntr::FalseIntersect { seg1_t, seg2_t } => Answer::new(3, &[seg1_t, seg2_t]),
            })
        }

        pub fn line_and_circle(n: &Numbers) -> Answered {
            let [p0, p1, centre, _] = n.vertices.map(point);
            let radius = n.vertices[3][0].abs();
            let met: LineCircleIntr<f64> =
                line_circle_intr(p0, p1, radius, centre, n.epsilon)$($question)?;
            Ok(match met {
                LineCircleIntr::NoIntersect => Answer::new(0, &[]),
                LineCircleIntr::TangentIntersect { t0 } => Answer::new(1, &[t0]),
                LineCircleIntr::TwoIntersects { t0, t1 } => Answer::new(2, &[t0, t1]),
            })
        }

        pub fn circles(n: &Numbers) -> Answered {
            let [c1, c2, _, _] = n.vertices.map(point);
            let [r1, r2] = [n.vertices[2][0].abs(), n.vertices[3][0].abs()];
            let met: CircleCircleIntr<f64> = circle_circle_intr(r1, c1, r2, c2, n.epsilon)$($question)?;
            Ok(match met {
                CircleCircleIntr::NoIntersect => Answer::new(0, &[]),
                CircleCircleIntr::TangentIntersect { point: p } => Answer::new(1, &[p.x, p.y]),
                CircleCircleIntr::TwoIntersects { point1: p, point2: q } => {
                    Answer::new(2, &[p.x, p.y, q.x, q.y])
                }
                CircleCircleIntr::Overlapping => Answer::new(3, &[]),
            })
        }
    };
}
pub(crate) use caller;
