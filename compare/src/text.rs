//! The Rust text on the examples that the scope states: it shows that the text runs here as its authors meant it, before anything
//! of ours is compared with it.

use cavalier_contours::core::math::{
    circle_circle_intr, dist_squared, line_circle_intr, line_line_intr, min_max,
    parametric_from_point, point_from_parametric, Vector2,
};
use cavalier_contours::polyline::{pline_seg_intr, seg_arc_radius_and_center, PlineVertex};

use crate::answer::Answer;

const EPSILON: f64 = 1e-5;

/// Runs the examples, and answers how many give another answer than stated.
pub fn check() -> u64 {
    let examples: Vec<Example> = [kernels(), pairs(), plane_functions()]
        .into_iter()
        .flatten()
        .collect();
    let mut differences = 0;
    for Example { name, got, stated } in &examples {
        if got != stated {
            differences += 1;
            println!("rust text, {name}: {got:?}, stated {stated:?}");
        }
    }
    println!(
        "rust text {} examples, {differences} differences",
        examples.len()
    );
    differences
}

struct Example {
    name: &'static str,
    got: Answer,
    stated: Answer,
}

fn example(
    name: &'static str,
    got: impl Into<Answer>,
    class: &'static str,
    values: &[f64],
) -> Example {
    let stated = Answer::new(class, values);
    Example {
        name,
        got: got.into(),
        stated,
    }
}

fn p(x: f64, y: f64) -> Vector2 {
    Vector2::new(x, y)
}

/// Examples A to C: the kernels.
fn kernels() -> Vec<Example> {
    let a = line_line_intr(p(0.0, 0.0), p(1.0, 0.0), p(0.5, -1.0), p(0.5, 1.0), EPSILON);
    let b = line_circle_intr(p(0.0, 0.0), p(1.0, 0.0), 1.0, p(0.0, 1.0), EPSILON);
    let c = circle_circle_intr(1.0, p(0.0, 0.0), 1.0, p(0.0, 2.0), EPSILON);
    vec![
        example("A", a, "true", &[0.5, 0.5]),
        example("B", b, "tangent", &[0.0]),
        example("C", c, "tangent", &[0.0, 1.0]),
    ]
}

/// A segment: start and end, x before y, and the bulge.
type Segment = [f64; 5];

fn pair(v: Segment, u: Segment, epsilon: f64) -> Answer {
    let ends = |[x1, y1, x2, y2, bulge]: Segment| {
        (
            PlineVertex::new(x1, y1, bulge),
            PlineVertex::new(x2, y2, 0.0),
        )
    };
    let (v1, v2) = ends(v);
    let (u1, u2) = ends(u);
    pline_seg_intr(v1, v2, u1, u2, epsilon).into()
}

/// Examples D to L: the pair call. Then the two inputs on which the text differs from the prose about it: in the component from
/// which a parameter comes, and in the order of an arc's operations.
fn pairs() -> Vec<Example> {
    let half = [-1.0, 0.0, 1.0, 0.0, 1.0];
    let line = [0.0, 0.0, 4.0, 0.0, 0.0];
    let upright = [2.0, 0.25, 2.0, 4.0, 0.0];
    let bits = f64::from_bits;

    let d = pair(line, [1.0, 0.0, 5.0, 0.0, 0.0], EPSILON);
    let e = pair(
        [0.0, 0.0, 2.0, 0.0, 0.0],
        [2.0, 0.0, 5.0, 0.0, 0.0],
        EPSILON,
    );
    let f = pair([0.0, 0.0, 2.0, 0.0, 0.0], [3.0, 0.0, 5.0, 0.0, 0.0], 0.5);
    let g_wide = pair(line, upright, 0.5);
    let g_narrow = pair(line, upright, 0.125);
    let h = pair(half, [1.0, 0.0, -1.0, 0.0, 1.0], EPSILON);
    let i = pair(half, [1.0, 0.0, -1.0, 0.0, -1.0], EPSILON);
    let j = pair([0.0, -2.0, 0.0, 2.0, 0.0], half, EPSILON);
    let k = pair([-2.0, -1.0, 2.0, -1.0, 0.0], half, EPSILON);
    let l = pair(
        [1.0, 0.0, 1.0, 0.0, 0.0],
        [0.0, 0.0, 2.0, 0.0, 0.0],
        EPSILON,
    );
    let parameter = pair(
        [0.0, -1.0, -1.0, 1.0, 0.0],
        [0.0, 0.0, 0.0, -1.0, 0.25],
        1.0 / 1024.0,
    );
    let arc = pair(
        [0.0, 0.0, 1.0, 1.0, 0.0],
        [1.0, 0.0, 0.0, 2.0, 0.25],
        1.0 / 1024.0,
    );
    vec![
        example("D", d, "lines", &[1.0, 0.0, 4.0, 0.0]),
        example("E", e, "one", &[2.0, 0.0]),
        example("F", f, "none", &[]),
        example("G, epsilon 1/2", g_wide, "one", &[2.0, 0.0]),
        example("G, epsilon 1/8", g_narrow, "none", &[]),
        example("H", h, "two", &[1.0, 0.0, -1.0, 0.0]),
        example("I", i, "arcs", &[1.0, 0.0, -1.0, 0.0]),
        example("J", j, "one", &[0.0, -1.0]),
        example("K", k, "tangent", &[0.0, -1.0]),
        example("L", l, "one", &[1.0, 0.0]),
        example(
            "the parameter's component",
            parameter,
            "two",
            &[
                bits(0xbf99999999999920),
                bits(0xbfee66666666666e),
                0.0,
                -1.0,
            ],
        ),
        example(
            "the arc's operations",
            arc,
            "one",
            &[bits(0x3feb971243dc6116), bits(0x3feb971243dc6116)],
        ),
    ]
}

/// The functions on points and segments, on numbers whose results are exact.
fn plane_functions() -> Vec<Example> {
    let numbers = |values: &[f64]| Answer::new("numbers", values);
    let (least, most) = min_max(2.0, 1.0);
    let at = point_from_parametric(p(0.0, 0.0), p(4.0, 2.0), 0.5);
    let by_x = parametric_from_point(p(0.0, 0.0), p(2.0, 2.0), p(1.0, 1.5), EPSILON);
    let by_y = parametric_from_point(p(0.0, 0.0), p(1.0, 2.0), p(1.0, 1.0), EPSILON);
    let (radius, center) = seg_arc_radius_and_center(
        PlineVertex::new(0.0, 0.0, 1.0),
        PlineVertex::new(2.0, 0.0, 0.0),
    );
    vec![
        example("min_max", numbers(&[least, most]), "numbers", &[1.0, 2.0]),
        example(
            "dist_squared",
            numbers(&[dist_squared(p(1.0, 1.0), p(4.0, 5.0))]),
            "numbers",
            &[25.0],
        ),
        example(
            "point_from_parametric",
            numbers(&[at.x, at.y]),
            "numbers",
            &[2.0, 1.0],
        ),
        example(
            "parametric_from_point, a tie",
            numbers(&[by_x]),
            "numbers",
            &[0.5],
        ),
        example(
            "parametric_from_point, steep",
            numbers(&[by_y]),
            "numbers",
            &[0.5],
        ),
        example(
            "seg_arc_radius_and_center",
            numbers(&[radius, center.x, center.y]),
            "numbers",
            &[1.0, 1.0, 0.0],
        ),
    ]
}
