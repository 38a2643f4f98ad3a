//! The recorded list on which the program `replay` is run: a line for each call, with its operands and the expected answer.
//!
//! A line is the call's name of four letters, then numbers of 16 lower-case hex digits: operands and answers. First come the four
//! float functions, with two operands (zeros for the second if the function has one) and the answer. Then come the answers of the
//! Rust text, which can be made only where the text is.

use std::fs;
use std::io;
use std::path::Path;

use crate::classes::{magnitude, signed, CLASSES, EDGES};
#[cfg(feature = "rust-text")]
use crate::expected::NAN;
use crate::floats::{Binary, PairKind, Unary, ABS, MAX, MIN, SQRT};
use crate::rng::Rng;

const SEED: u64 = 0x5eed_0001;
const ABS_A_CLASS: usize = 24;
const SQRT_A_CLASS: usize = 128;
const PAIRS_A_KIND: usize = 3;

/// Writes the list to `path`, as much of it as can be made here, and answers how many records that is.
pub fn write(path: &Path) -> io::Result<usize> {
    let mut lines = Vec::new();
    unary(&ABS, "abs_", ABS_A_CLASS, &mut lines);
    unary(&SQRT, "sqrt", SQRT_A_CLASS, &mut lines);
    binary(&MIN, "min_", &mut lines);
    binary(&MAX, "max_", &mut lines);
    text(&mut lines);
    crossing(&mut lines);
    fs::write(path, lines.concat())?;
    Ok(lines.len())
}

fn line(name: &str, a: u64, b: u64, answer: u64) -> String {
    format!("{name} {a:016x} {b:016x} {answer:016x}\n")
}

/// Every edge with either sign, then random operands of every class.
fn unary(f: &Unary, name: &str, a_class: usize, lines: &mut Vec<String>) {
    let mut rng = Rng::new(SEED);
    let mut operands = edges();
    for class in CLASSES {
        for _ in 0..a_class {
            operands.push(signed(
                magnitude(class, &mut rng),
                rng.one_in(f.negative_one_in),
            ));
        }
    }
    lines.extend(operands.iter().map(|b| line(name, *b, 0, (f.expected)(*b))));
}

/// Every edge beside every edge, then random pairs of every kind.
fn binary(f: &Binary, name: &str, lines: &mut Vec<String>) {
    let mut rng = Rng::new(SEED);
    let mut pairs = Vec::new();
    for a in edges() {
        pairs.extend(edges().into_iter().map(|b| (a, b)));
    }
    for kind in PairKind::all() {
        for _ in 0..PAIRS_A_KIND {
            pairs.push(kind.draw(&mut rng));
        }
    }
    lines.extend(
        pairs
            .iter()
            .map(|(a, b)| line(name, *a, *b, (f.expected)(*a, *b))),
    );
}

/// The text's functions on inputs of every kind.
#[cfg(feature = "rust-text")]
fn text(lines: &mut Vec<String>) {
    use crate::inputs::{Kind, Pair};
    use crate::numbers::hex;

    const NAMES: [&str; 5] = ["mnmx", "dist", "ptat", "para", "arc_"];
    const PARTS: [(Kind, usize); 3] = [
        (Kind::Accepted, 240),
        (Kind::Beside, 60),
        (Kind::Patterns, 120),
    ];
    // Which NaN a sum or product gives is left open, so every NaN is written in one way here.
    let settled = |x: &f64| if x.is_nan() { f64::from_bits(NAN) } else { *x };
    for (call, name) in crate::plane::TEXT.iter().zip(NAMES) {
        let mut rng = Rng::new(SEED);
        for (kind, inputs) in PARTS {
            for _ in 0..inputs {
                let operands = (call.operands)(&Pair::draw(kind, &mut rng));
                let answer: Vec<f64> = (call.text)(&operands).iter().map(settled).collect();
                lines.push(format!("{name} {} {}\n", hex(&operands), hex(&answer)));
            }
        }
    }
}

#[cfg(not(feature = "rust-text"))]
fn text(_lines: &mut Vec<String>) {
    println!("rust text not compiled in: none of its answers were recorded");
}

/// The kernels and the pair call: operands, then the returned number, and the four values of an answer. A refusal's number is the
/// whole word, with the place.
#[cfg(feature = "rust-text")]
fn crossing(lines: &mut Vec<String>) {
    use crate::crossing::{sample, CALLS};
    use crate::numbers::hex;

    const NAMES: [&str; 4] = ["lnln", "lncr", "crcr", "pair"];
    for (call, name) in CALLS.iter().zip(NAMES) {
        for operands in sample(call, SEED) {
            let expected = call.expected(&operands);
            let (number, values) = expected.unwrap_or_else(|fault| (fault.word(), [].into()));
            let mut four = [0.0; 4];
            four[..values.len()].copy_from_slice(&values);
            lines.push(format!(
                "{name} {} {number:016x} {}\n",
                hex(&operands),
                hex(&four)
            ));
        }
    }
}

#[cfg(not(feature = "rust-text"))]
fn crossing(_lines: &mut Vec<String>) {}

fn edges() -> Vec<u64> {
    EDGES.iter().flat_map(|b| [*b, signed(*b, true)]).collect()
}
