//! Searches the least radius at which a touching pair is missed: each miss sets the next radius to try below it.

use super::aim::{aimed, Aim};
use super::draw::joints::{exactly, nearly, Lengths};
use super::draw::parts::{bent, direction, part, sign, spread};
use super::draw::{valid, Pair, FAR, WIDEST};
use super::judge::share;
use super::piece::Piece;
use super::rules::{largest, roundings};
use crate::rng::Rng;

/// What a call answers if it finds nothing.
const NONE: u64 = 0;

/// The radii of small arcs, and the lengths of lines, by powers of two.
const SMALL: [i32; 9] = [-1, 0, 1, 2, 3, 4, 6, 8, 10];
const LINES: [i32; 4] = [9, 13, 17, 21];
/// The epsilons, 1/2 to the power.
const EPSILONS: [i32; 6] = [10, 8, 6, 4, 2, 1];

type Call = fn(&Pair) -> u64;

/// Prints the least missed radius for each epsilon and small arc, and for each epsilon and length of a line, with the pair, and
/// the constant c with which the formula gives that radius.
pub fn climb(call: Call, turns: u64, seed: u64) {
    println!(
        "two arcs: radius r of the small one | epsilon | least R | c of R^2 = 2 r epsilon 2^53 / c"
    );
    each(call, turns, seed, &SMALL, small);
    println!("a line and an arc with a common end: longest line L | epsilon | least R | c of R (R + S) = epsilon^2 2^53 / c");
    each(call, turns, seed, &LINES, |rng, longest, _, most| {
        joint(rng, longest, most)
    });
}

/// For each size and each epsilon.
fn each(
    call: Call,
    turns: u64,
    seed: u64,
    sizes: &[i32],
    draw: fn(&mut Rng, f64, f64, f64) -> Option<(Piece, Piece)>,
) {
    let mut rng = Rng::new(seed);
    for size in sizes.iter().map(|&e| power(e)) {
        for epsilon in EPSILONS.map(|e| power(-e)) {
            let found = descend(call, turns, &mut rng, epsilon, |rng, most| {
                draw(rng, size, epsilon, most)
            });
            print(size, epsilon, found);
        }
    }
}

fn power(e: i32) -> f64 {
    2f64.powi(e)
}

fn print(what: f64, epsilon: f64, found: Option<Pair>) {
    let shown = match found {
        None => "none missed".to_string(),
        Some(pair) => {
            format!(
                "{:.0} | {:.2} | {}",
                largest(&pair),
                roundings(&pair),
                pair.written()
            )
        }
    };
    println!("| {what} | 1/{} | {shown} |", 1.0 / epsilon);
}

/// The missed pair with the least radius. Each draw is below the least so far, and either segment comes first.
fn descend(
    call: Call,
    turns: u64,
    rng: &mut Rng,
    epsilon: f64,
    draw: impl Fn(&mut Rng, f64) -> Option<(Piece, Piece)>,
) -> Option<Pair> {
    let (mut least, mut found) = (WIDEST, None);
    for _ in 0..turns {
        let Some((v, u)) = draw(rng, least) else {
            continue;
        };
        if !valid(v) || !valid(u) {
            continue;
        }
        let u = if rng.one_in(2) { u.reversed() } else { u };
        for (v, u) in [(v, u), (u, v)] {
            let pair = Pair { v, u, epsilon };
            if largest(&pair) < least && call(&pair) == NONE && share(v, u).is_some() {
                (least, found) = (largest(&pair), Some(pair));
            }
        }
    }
    found
}

/// A radius below the least so far, mostly close to it.
fn below(rng: &mut Rng, most: f64) -> f64 {
    most * (1.0 - spread(rng, 1e-4, 0.5))
}

/// A small arc that goes through a large one at a small angle and ends one to three epsilons behind it.
fn small(rng: &mut Rng, r: f64, epsilon: f64, most: f64) -> Option<(Piece, Piece)> {
    let wider = 1.0 + 0.2 * part(rng);
    let (length, n) = bent(rng, r * wider);
    let (x, y) = direction(rng);
    let aim = Aim {
        radius: below(rng, most),
        chord: ((x * length).round() as i64, (y * length).round() as i64),
        n,
        along: sign(rng),
        turn: spread(rng, 0.01, 0.5) * sign(rng),
        backward: rng.one_in(2),
        beyond: (epsilon, 3.0 * epsilon),
        place: 1.6 * part(rng) - 0.8,
    };
    aimed(rng, &aim)
}

/// A line from an arc's end along its tangent there, exactly or nearly.
fn joint(rng: &mut Rng, longest: f64, most: f64) -> Option<(Piece, Piece)> {
    let radius = below(rng, most);
    let other = (longest / 2.0, longest);
    if rng.one_in(4) {
        return nearly(rng, radius, other);
    }
    let lengths = Lengths {
        chord: (radius / 8.0, (2.0 * radius).min(2.0 * FAR as f64)),
        other,
    };
    exactly(rng, &lengths).filter(|(_, u)| u.is_line() && u.length() <= longest)
}
