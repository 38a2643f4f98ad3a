//! How often a loop lists itself though its ends are far apart: the point that is computed where its two halves meet may not be
//! near the cut point. This is counted with the Rust's own answers, and nothing is held to it.

use super::cut::RULE;
use super::draw::large_bulge;
use super::faults::of_segment;
use super::model::Large;
use crate::crossing::faults::two_to;
use crate::inputs::values::{whole, COORDINATE_LIMIT};
use crate::listings::layout::Drawn;
use crate::listings::model::Listed;
use crate::rng::Rng;

/// A drawn loop as x, y and bulge of its two vertices.
type Draw = fn(&mut Rng) -> [[f64; 3]; 2];

const DRAWS: [(&str, Draw); 4] = [
    (
        "whole coordinates up to 1,048,576, bulges n/65,536",
        |rng| on_grid(1 << 20, 1 << 20, rng),
    ),
    ("whole coordinates, chords up to 1,024", |rng| {
        on_grid(1 << 20, 1 << 10, rng)
    }),
    ("coordinates up to 1,024, any bulge", |rng| {
        anywhere(1024.0, 8.0, rng)
    }),
    ("coordinates up to 1,048,576, any bulge", |rng| {
        anywhere(COORDINATE_LIMIT, 1024.0, rng)
    }),
];

fn on_grid(most: u64, chord: u64, rng: &mut Rng) -> [[f64; 3]; 2] {
    let (x, y) = (whole(rng, most), whole(rng, most));
    let bulge = 1.0 + (1 + rng.below(15 << 16)) as f64 / 65536.0;
    let to = [x + whole(rng, chord), y + whole(rng, chord), 0.0];
    [[x, y, rng.sign() * bulge], to]
}

fn anywhere(most: f64, chord: f64, rng: &mut Rng) -> [[f64; 3]; 2] {
    let (x, y) = (rng.between(-most, most), rng.between(-most, most));
    let to = [
        x + rng.between(-chord, chord),
        y + rng.between(-chord, chord),
        0.0,
    ];
    [[x, y, large_bulge(rng)], to]
}

/// Counts on so many accepted loops of each sort, at some epsilons. Ends that are nearer than twice epsilon are left out.
pub fn count(count: u64, seed: u64) {
    for (name, draw) in DRAWS {
        for (epsilon, named) in [
            (1.0 / 1024.0, "1/1024"),
            (1e-5, "1e-5"),
            (two_to(-40), "2^-40"),
        ] {
            let mut rng = Rng::new(seed);
            let (mut loops, mut listed) = (0, 0);
            while loops < count {
                let [from, to] = draw(&mut rng);
                let segment = [from[0], from[1], from[2], to[0], to[1]];
                let within = segment.iter().all(|x| x.abs() <= COORDINATE_LIMIT);
                let apart = (to[0] - from[0]).abs().max((to[1] - from[1]).abs());
                if !within || apart < 2.0 * epsilon || !of_segment(&RULE, segment, 0, 0).is_empty()
                {
                    continue;
                }
                let drawn = Drawn::of([from, to], false);
                loops += 1;
                listed += Large::new(Listed::Own(drawn.path()), epsilon).rows();
            }
            println!("large: {name}, epsilon {named}: {listed} of {loops} loops list themselves");
        }
    }
}
