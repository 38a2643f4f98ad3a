//! The scope's rules that the Rust text overrules, and the smallest inputs on which the two differ: both are run, and each must
//! give the numbers that are stated for it.

use cavalier_contours::core::math::{parametric_from_point, Vector2};
use cavalier_contours::polyline::{seg_arc_radius_and_center, PlineVertex};

use crate::numbers::{hex, same};

const EPSILON: f64 = 1e-5;

struct Parting {
    name: &'static str,
    got: Vec<f64>,
    stated: &'static [u64],
}

/// Runs both on each input, and answers how many answers are not as stated.
pub fn check() -> u64 {
    let o = Vector2::new(0.0, 0.0);
    let partings = [
        Parting {
            name: "parameter of (0,0) from (0,2) to (1,0), text",
            got: vec![parametric_from_point(p(0.0, 2.0), p(1.0, 0.0), o, EPSILON)],
            stated: &[0x3ff0_0000_0000_0000],
        },
        Parting {
            name: "parameter of (0,0) from (0,2) to (1,0), scope",
            got: vec![parameter(p(0.0, 2.0), p(1.0, 0.0), o)],
            stated: &[0],
        },
        Parting {
            name: "parameter of (1,0) from (0,0) to (0,0), text",
            got: vec![parametric_from_point(o, o, p(1.0, 0.0), EPSILON)],
            stated: &[0x7ff0_0000_0000_0000],
        },
        Parting {
            name: "parameter of (1,0) from (0,0) to (0,0), scope",
            got: vec![parameter(o, o, p(1.0, 0.0))],
            stated: &[0x7ff8_0000_0000_0000],
        },
        Parting {
            name: "arc from (0,0) to (1,0), bulge 3/4, text",
            got: text_arc(0.75),
            stated: &[
                0x3fe0_aaaa_aaaa_aaaa,
                0x3fe0_0000_0000_0000,
                0x3fc2_aaaa_aaaa_aaaa,
            ],
        },
        Parting {
            name: "arc from (0,0) to (1,0), bulge 3/4, scope",
            got: arc(0.75),
            stated: &[
                0x3fe0_aaaa_aaaa_aaab,
                0x3fe0_0000_0000_0000,
                0x3fc2_aaaa_aaaa_aaac,
            ],
        },
        Parting {
            name: "arc from (0,0) to (1,0), bulge 7/8, text",
            got: text_arc(0.875),
            stated: &[
                0x3fe0_2492_4924_9249,
                0x3fe0_0000_0000_0000,
                0x3fb1_2492_4924_9249,
            ],
        },
        Parting {
            name: "arc from (0,0) to (1,0), bulge 7/8, scope",
            got: arc(0.875),
            stated: &[
                0x3fe0_2492_4924_9249,
                0x3fe0_0000_0000_0000,
                0x3fb1_2492_4924_9248,
            ],
        },
    ];
    let mut differences = 0;
    for Parting { name, got, stated } in &partings {
        let stated: Vec<f64> = stated.iter().map(|b| f64::from_bits(*b)).collect();
        if !same(got, &stated) {
            differences += 1;
            println!("{name}: {}, stated {}", hex(got), hex(&stated));
        }
    }
    println!(
        "rust text beside the scope's rules {} answers, {differences} differences",
        partings.len()
    );
    differences
}

fn p(x: f64, y: f64) -> Vector2 {
    Vector2::new(x, y)
}

/// From y if p0.x is near p1.x by the epsilon, else from x.
fn parameter(p0: Vector2, p1: Vector2, q: Vector2) -> f64 {
    if (p0.x - p1.x).abs() < EPSILON {
        (q.y - p0.y) / (p1.y - p0.y)
    } else {
        (q.x - p0.x) / (p1.x - p0.x)
    }
}

/// Radius and centre of the arc from (0,0) to (1,0), its bulge above 0, by r = d*(b*b+1)/(4*b) and m = r - b*d/2.
fn arc(b: f64) -> Vec<f64> {
    let (vx, vy): (f64, f64) = (1.0, 0.0);
    let d = (vx * vx + vy * vy).sqrt();
    let r = d * (b * b + 1.0) / (4.0 * b);
    let m = r - b * d / 2.0;
    vec![r, 0.0 + vx / 2.0 + -m * vy / d, 0.0 + vy / 2.0 + m * vx / d]
}

fn text_arc(b: f64) -> Vec<f64> {
    let (from, to) = (
        PlineVertex::new(0.0, 0.0, b),
        PlineVertex::new(1.0, 0.0, 0.0),
    );
    let (radius, center) = seg_arc_radius_and_center(from, to);
    vec![radius, center.x, center.y]
}
