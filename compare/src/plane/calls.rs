//! The calls to compare: on which numbers of a pair each is made, our answer, and the Rust's.

use cavalier_contours::core::math::{
    dist_squared, min_max, parametric_from_point, point_from_parametric, Vector2,
};
use cavalier_contours::core::traits::{FuzzyEq, FuzzyOrd};
use cavalier_contours::polyline::{seg_arc_radius_and_center, PlineVertex};

use crate::inputs::Pair;
use crate::numbers::Numbers;
use crate::probe::*;

pub struct Call {
    pub name: &'static str,
    /// The numbers of a pair that the call is made on.
    pub operands: fn(&Pair) -> Numbers,
    /// What the Rust answers.
    pub text: fn(&[f64]) -> Numbers,
    pub ours: Ours,
}

/// How our answer comes: by value, or in a lent slice, where the call returns how many numbers it wrote.
pub enum Ours {
    Test(fn(&[f64]) -> bool),
    Number(fn(&[f64]) -> f64),
    Lent(fn(&[f64], &mut [f64]) -> usize),
}

fn point(numbers: &[f64]) -> Vector2 {
    Vector2::new(numbers[0], numbers[1])
}

fn vertex(numbers: &[f64]) -> PlineVertex {
    PlineVertex::new(numbers[0], numbers[1], numbers[2])
}

fn from_point(p: Vector2) -> Numbers {
    [p.x, p.y].into()
}

fn from_number(x: f64) -> Numbers {
    [x].into()
}

fn from_test(yes: bool) -> Numbers {
    from_number(f64::from(u8::from(yes)))
}

fn starts(p: &Pair) -> [f64; 4] {
    let (v, u) = (p.v.from.at, p.u.from.at);
    [v.x, v.y, u.x, u.y]
}

fn chords(p: &Pair) -> [f64; 4] {
    let (v, u) = (p.v.chord(), p.u.chord());
    [v.x, v.y, u.x, u.y]
}

fn ends(p: &Pair) -> [f64; 4] {
    let (from, to) = (p.v.from.at, p.v.to.at);
    [from.x, from.y, to.x, to.y]
}

fn first_vertex(p: &Pair) -> Numbers {
    [p.v.from.at.x, p.v.from.at.y, p.v.from.bulge].into()
}

fn first_chord(p: &Pair) -> Numbers {
    let chord = p.v.chord();
    [chord.x, chord.y].into()
}

/// The functions of the text itself.
pub static TEXT: [Call; 5] = [
    Call {
        name: "min_max",
        operands: |p| [p.v.from.at.x, p.u.to.at.x].into(),
        text: |n| <[f64; 2]>::from(min_max(n[0], n[1])).into(),
        ours: Ours::Lent(|n, out| vjp_min_max(n[0], n[1], out)),
    },
    Call {
        name: "dist_squared",
        operands: |p| starts(p).into(),
        text: |n| from_number(dist_squared(point(n), point(&n[2..]))),
        ours: Ours::Number(|n| vjp_dist_squared(n[0], n[1], n[2], n[3])),
    },
    Call {
        name: "point_from_parametric",
        operands: |p| {
            let [x0, y0, x1, y1] = ends(p);
            [x0, y0, x1, y1, p.v.to.bulge].into()
        },
        text: |n| from_point(point_from_parametric(point(n), point(&n[2..]), n[4])),
        ours: Ours::Lent(|n, out| vjp_point_from_parametric([n[0], n[1], n[2], n[3], n[4]], out)),
    },
    Call {
        name: "parametric_from_point",
        operands: |p| {
            let [x0, y0, x1, y1] = ends(p);
            [x0, y0, x1, y1, p.u.from.at.x, p.u.from.at.y, p.epsilon].into()
        },
        text: |n| {
            let t = parametric_from_point(point(n), point(&n[2..]), point(&n[4..]), n[6]);
            from_number(t)
        },
        ours: Ours::Number(|n| vjp_parametric_from_point(n[0], n[1], n[2], n[3], n[4], n[5], n[6])),
    },
    Call {
        name: "seg_arc_radius_and_center",
        operands: |p| {
            let (from, to) = (p.v.from, p.v.to);
            [from.at.x, from.at.y, from.bulge, to.at.x, to.at.y, to.bulge].into()
        },
        text: |n| {
            let (radius, center) = seg_arc_radius_and_center(vertex(n), vertex(&n[3..]));
            [radius, center.x, center.y].into()
        },
        ours: Ours::Lent(|n, out| {
            vjp_seg_arc_radius_and_center([n[0], n[1], n[2], n[3], n[4], n[5]], out)
        }),
    },
];

/// The items that the text lacks: here the Rust side is the stand-in, written from the scope's rules.
pub static STAND_INS: [Call; 18] = [
    Call {
        name: "fuzzy_eq_zero_eps",
        operands: |p| [p.v.from.at.x - p.u.from.at.x, p.epsilon].into(),
        text: |n| from_test(n[0].fuzzy_eq_zero_eps(n[1])),
        ours: Ours::Test(|n| vjp_fuzzy_eq_zero_eps(n[0], n[1])),
    },
    Call {
        name: "fuzzy_eq_zero",
        operands: |p| [p.v.from.bulge].into(),
        text: |n| from_test(n[0].fuzzy_eq_zero()),
        ours: Ours::Test(|n| vjp_fuzzy_eq_zero(n[0])),
    },
    Call {
        name: "fuzzy_eq_eps",
        operands: |p| [p.v.from.at.x, p.u.from.at.x, p.epsilon].into(),
        text: |n| from_test(n[0].fuzzy_eq_eps(n[1], n[2])),
        ours: Ours::Test(|n| vjp_fuzzy_eq_eps(n[0], n[1], n[2])),
    },
    Call {
        name: "fuzzy_gt_eps",
        operands: |p| [p.v.from.at.x, p.u.from.at.x, p.epsilon].into(),
        text: |n| from_test(n[0].fuzzy_gt_eps(n[1], n[2])),
        ours: Ours::Test(|n| vjp_fuzzy_gt_eps(n[0], n[1], n[2])),
    },
    Call {
        name: "fuzzy_lt_eps",
        operands: |p| [p.v.from.at.x, p.u.from.at.x, p.epsilon].into(),
        text: |n| from_test(n[0].fuzzy_lt_eps(n[1], n[2])),
        ours: Ours::Test(|n| vjp_fuzzy_lt_eps(n[0], n[1], n[2])),
    },
    Call {
        name: "fuzzy_in_range_eps",
        operands: |p| [p.v.from.at.x, p.u.from.at.x, p.u.to.at.x, p.epsilon].into(),
        text: |n| from_test(n[0].fuzzy_in_range_eps(n[1], n[2], n[3])),
        ours: Ours::Test(|n| vjp_fuzzy_in_range_eps(n[0], n[1], n[2], n[3])),
    },
    Call {
        name: "Vector2::add",
        operands: |p| starts(p).into(),
        text: |n| from_point(point(n) + point(&n[2..])),
        ours: Ours::Lent(|n, out| vjp_add(n[0], n[1], n[2], n[3], out)),
    },
    Call {
        name: "Vector2::sub",
        operands: |p| starts(p).into(),
        text: |n| from_point(point(n) - point(&n[2..])),
        ours: Ours::Lent(|n, out| vjp_sub(n[0], n[1], n[2], n[3], out)),
    },
    Call {
        name: "Vector2::scale",
        operands: |p| [p.v.from.at.x, p.v.from.at.y, p.u.from.bulge].into(),
        text: |n| from_point(point(n).scale(n[2])),
        ours: Ours::Lent(|n, out| vjp_scale(n[0], n[1], n[2], out)),
    },
    Call {
        name: "Vector2::perp",
        operands: first_chord,
        text: |n| from_point(point(n).perp()),
        ours: Ours::Lent(|n, out| vjp_perp(n[0], n[1], out)),
    },
    Call {
        name: "Vector2::dot",
        operands: |p| chords(p).into(),
        text: |n| from_number(point(n).dot(point(&n[2..]))),
        ours: Ours::Number(|n| vjp_dot(n[0], n[1], n[2], n[3])),
    },
    Call {
        name: "Vector2::perp_dot",
        operands: |p| chords(p).into(),
        text: |n| from_number(point(n).perp_dot(point(&n[2..]))),
        ours: Ours::Number(|n| vjp_perp_dot(n[0], n[1], n[2], n[3])),
    },
    Call {
        name: "Vector2::length_squared",
        operands: first_chord,
        text: |n| from_number(point(n).length_squared()),
        ours: Ours::Number(|n| vjp_length_squared(n[0], n[1])),
    },
    Call {
        name: "Vector2::length",
        operands: first_chord,
        text: |n| from_number(point(n).length()),
        ours: Ours::Number(|n| vjp_length(n[0], n[1])),
    },
    Call {
        name: "Vector2::fuzzy_eq_eps",
        operands: |p| {
            let [x1, y1, x2, y2] = starts(p);
            [x1, y1, x2, y2, p.epsilon].into()
        },
        text: |n| from_test(point(n).fuzzy_eq_eps(point(&n[2..]), n[4])),
        ours: Ours::Test(|n| vjp_vector_fuzzy_eq_eps(n[0], n[1], n[2], n[3], n[4])),
    },
    Call {
        name: "Vector2::eq",
        operands: |p| starts(p).into(),
        text: |n| from_test(point(n) == point(&n[2..])),
        ours: Ours::Test(|n| vjp_vector_eq(n[0], n[1], n[2], n[3])),
    },
    Call {
        name: "PlineVertex::bulge_is_zero",
        operands: first_vertex,
        text: |n| from_test(vertex(n).bulge_is_zero()),
        ours: Ours::Test(|n| vjp_bulge_is_zero(n[0], n[1], n[2])),
    },
    Call {
        name: "PlineVertex::bulge_is_neg",
        operands: first_vertex,
        text: |n| from_test(vertex(n).bulge_is_neg()),
        ours: Ours::Test(|n| vjp_bulge_is_neg(n[0], n[1], n[2])),
    },
];
