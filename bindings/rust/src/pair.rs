//! The pair call: how two segments meet, and why a point counted.

use crate::ffi;
use crate::refusal::{Places, Refusal};
use crate::shapes::{PlineSegIntr, PlineVertex};

/// The twelve numbers of a pair. The bulges of `v2` and `u2` go over as they are: they have no
/// effect, and no check looks at them.
pub(crate) fn numbers(
    v1: PlineVertex,
    v2: PlineVertex,
    u1: PlineVertex,
    u2: PlineVertex,
) -> [f64; 12] {
    [v1.x, v1.y, v1.bulge, v2.x, v2.y, v2.bulge, u1.x, u1.y, u1.bulge, u2.x, u2.y, u2.bulge]
}

/// How the segments `v1` to `v2` and `u1` to `u2` meet. The answer is that of cavalier_contours
/// 0.9.0, but numbers out of range are refused.
///
/// # Errors
/// A refusal, if a number is at fault: 11, 12, 2, 3, 5 or 4.
///
/// ```
/// use vonjekona::{PlineSegIntr, PlineVertex, Vector2, pline_seg_intr};
///
/// // a half circle from (0, 0) to (4, 0), below, and a line through it
/// let arc = [PlineVertex::new(0.0, 0.0, 1.0), PlineVertex::new(4.0, 0.0, 0.0)];
/// let line = [PlineVertex::new(2.0, -4.0, 0.0), PlineVertex::new(2.0, 4.0, 0.0)];
/// let met = pline_seg_intr(arc[0], arc[1], line[0], line[1], 1e-5)?;
/// assert_eq!(met, PlineSegIntr::OneIntersect { point: Vector2::new(2.0, -2.0) });
///
/// let lost = PlineVertex::new(f64::NAN, 4.0, 0.0);
/// let refusal = pline_seg_intr(arc[0], arc[1], line[0], lost, 1e-5).unwrap_err();
/// assert_eq!(refusal.to_string(), "refused 11: x of the second vertex of u is NaN");
/// # Ok::<(), vonjekona::Refusal>(())
/// ```
pub fn pline_seg_intr(
    v1: PlineVertex,
    v2: PlineVertex,
    u1: PlineVertex,
    u2: PlineVertex,
    pos_equal_eps: f64,
) -> Result<PlineSegIntr, Refusal> {
    let mut out = [0.0; 4];
    let word = ffi::pair(numbers(v1, v2, u1, u2), pos_equal_eps, &mut out);
    let class = Refusal::check(Places::Pair, false, word)?;
    Ok(PlineSegIntr::of_class(class, out))
}

/// What was found of a computed point for one segment.
#[derive(Debug, Copy, Clone, PartialEq, Eq, Hash)]
pub enum Finding {
    /// Outside the sweep: no rule said yes.
    Outside,
    /// Nearer to the arc's centre than epsilon.
    NearCentre,
    /// Between the two edges of the sweep, or on one.
    Inside,
    /// Near the ray from the centre through the segment's first vertex.
    NearStart,
    /// Near the ray from the centre through its second vertex.
    NearEnd,
    /// The point counted, and an end of a segment stands in the answer in its place.
    EndPoint,
    /// The Rust does not come to this test, there is no such point, or the segment is a line.
    NotTested,
}

impl Finding {
    fn of_number(number: u64) -> Self {
        match number {
            0 => Finding::Outside,
            1 => Finding::NearCentre,
            2 => Finding::Inside,
            3 => Finding::NearStart,
            4 => Finding::NearEnd,
            5 => Finding::EndPoint,
            6 => Finding::NotTested,
            _ => unreachable!("the library has no finding {number}"),
        }
    }
}

/// What was found of one computed point.
#[derive(Debug, Copy, Clone, PartialEq, Eq, Hash)]
pub struct PointFindings {
    /// For the first segment.
    pub v: Finding,
    /// For the second segment.
    pub u: Finding,
}

/// What was found of the two computed points of a pair.
#[derive(Debug, Copy, Clone, PartialEq, Eq, Hash)]
pub struct Findings {
    /// The first computed point.
    pub first: PointFindings,
    /// The second computed point.
    pub second: PointFindings,
}

/// [`pline_seg_intr`] with findings: the same answer, and why a point counted.
///
/// # Errors
/// Those of [`pline_seg_intr`].
///
/// ```
/// use vonjekona::{Finding, PlineVertex, pair_findings};
/// let arc = [PlineVertex::new(0.0, 0.0, 1.0), PlineVertex::new(4.0, 0.0, 0.0)];
/// let line = [PlineVertex::new(2.0, -4.0, 0.0), PlineVertex::new(2.0, 4.0, 0.0)];
/// let (met, found) = pair_findings(arc[0], arc[1], line[0], line[1], 1e-5)?;
/// assert_eq!(met.class(), 2);
/// assert_eq!(found.first.v, Finding::Inside);
/// assert_eq!(found.second.v, Finding::Outside);
/// assert_eq!(found.first.u, Finding::NotTested); // a line has no sweep
/// # Ok::<(), vonjekona::Refusal>(())
/// ```
pub fn pair_findings(
    v1: PlineVertex,
    v2: PlineVertex,
    u1: PlineVertex,
    u2: PlineVertex,
    epsilon: f64,
) -> Result<(PlineSegIntr, Findings), Refusal> {
    let mut out = [0.0; 4];
    let mut found = [0; 4];
    let word = ffi::pair_findings(numbers(v1, v2, u1, u2), epsilon, &mut out, &mut found);
    let class = Refusal::check(Places::Pair, false, word)?;
    let [first_v, first_u, second_v, second_u] = found.map(Finding::of_number);
    let findings = Findings {
        first: PointFindings { v: first_v, u: first_u },
        second: PointFindings { v: second_v, u: second_u },
    };
    Ok((PlineSegIntr::of_class(class, out), findings))
}
