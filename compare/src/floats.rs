//! The four float functions: on patterns bit for bit, and on f64 with any two NaNs equal.

use crate::capi;
use crate::classes::{is_nan, magnitude, signed, Class, CLASSES, SIGN};
use crate::expected;
use crate::rng::Rng;
use crate::tally::Tally;

/// A function of one operand: ours in both forms, and what is expected of it.
pub struct Unary {
    name: &'static str,
    name_bits: &'static str,
    on_bits: extern "C" fn(u64) -> u64,
    on_f64: extern "C" fn(f64) -> f64,
    pub expected: fn(u64) -> u64,
    /// One operand in this many is below zero.
    pub negative_one_in: u64,
}

/// A function of two operands, the same.
pub struct Binary {
    name: &'static str,
    name_bits: &'static str,
    on_bits: extern "C" fn(u64, u64) -> u64,
    on_f64: extern "C" fn(f64, f64) -> f64,
    pub expected: fn(u64, u64) -> u64,
}

pub const ABS: Unary = Unary {
    name: "abs",
    name_bits: "abs_bits",
    on_bits: capi::vj_abs_bits,
    on_f64: capi::vj_abs,
    expected: expected::abs,
    negative_one_in: 2,
};

/// Below zero there is only one answer, so most operands are above.
pub const SQRT: Unary = Unary {
    name: "sqrt",
    name_bits: "sqrt_bits",
    on_bits: capi::vj_sqrt_bits,
    on_f64: capi::vj_sqrt,
    expected: expected::sqrt,
    negative_one_in: 16,
};

pub const MIN: Binary = Binary {
    name: "min",
    name_bits: "min_bits",
    on_bits: capi::vj_min_bits,
    on_f64: capi::vj_min,
    expected: expected::min,
};

pub const MAX: Binary = Binary {
    name: "max",
    name_bits: "max_bits",
    on_bits: capi::vj_max_bits,
    on_f64: capi::vj_max,
    expected: expected::max,
};

/// Compares each function on `count` operands, or pairs of them, and answers how many differences there were.
pub fn check(count: u64, seed: u64) -> u64 {
    check_unary(&ABS, count, seed)
        + check_unary(&SQRT, count, seed)
        + check_binary(&MIN, count, seed)
        + check_binary(&MAX, count, seed)
}

fn check_unary(f: &Unary, count: u64, seed: u64) -> u64 {
    let mut rng = Rng::new(seed);
    let mut bits = Tally::new(f.name_bits);
    let mut numbers = Tally::new(f.name);
    for class in CLASSES.iter().cycle().take(count as usize) {
        let b = signed(magnitude(*class, &mut rng), rng.one_in(f.negative_one_in));
        let expected = (f.expected)(b);
        let ours = (f.on_bits)(b);
        bits.add(ours == expected, || shown(&[b], ours, expected));
        let ours = (f.on_f64)(f64::from_bits(b)).to_bits();
        numbers.add(same_number(ours, expected), || shown(&[b], ours, expected));
    }
    bits.report() + numbers.report()
}

fn check_binary(f: &Binary, count: u64, seed: u64) -> u64 {
    let mut rng = Rng::new(seed);
    let mut bits = Tally::new(f.name_bits);
    let mut numbers = Tally::new(f.name);
    for kind in PairKind::all().iter().cycle().take(count as usize) {
        let (a, b) = kind.draw(&mut rng);
        let expected = (f.expected)(a, b);
        let ours = (f.on_bits)(a, b);
        bits.add(ours == expected, || shown(&[a, b], ours, expected));
        let ours = (f.on_f64)(f64::from_bits(a), f64::from_bits(b)).to_bits();
        numbers.add(same_number(ours, expected), || {
            shown(&[a, b], ours, expected)
        });
    }
    bits.report() + numbers.report()
}

fn shown(operands: &[u64], ours: u64, expected: u64) -> String {
    let operands: Vec<String> = operands.iter().map(|b| format!("{b:016x}")).collect();
    format!(
        "{}: {ours:016x}, expected {expected:016x}",
        operands.join(" ")
    )
}

/// Whether two patterns are the same number's: any two NaNs are; +0 and -0 are not.
fn same_number(a: u64, b: u64) -> bool {
    a == b || is_nan(a) && is_nan(b)
}

/// How the operands of a pair are drawn.
#[derive(Clone, Copy)]
pub enum PairKind {
    /// Each of its own class, independently.
    Separate(Class, Class),
    Same(Class),
    /// The same magnitude, with opposite signs.
    Opposite(Class),
    /// Patterns next to each other.
    Neighbours(Class),
}

impl PairKind {
    pub fn all() -> Vec<PairKind> {
        let mut kinds = Vec::new();
        for a in CLASSES {
            kinds.extend(CLASSES.map(|b| PairKind::Separate(a, b)));
            kinds.extend([
                PairKind::Same(a),
                PairKind::Opposite(a),
                PairKind::Neighbours(a),
            ]);
        }
        kinds
    }

    pub fn draw(self, rng: &mut Rng) -> (u64, u64) {
        match self {
            PairKind::Separate(a, b) => (either_sign(a, rng), either_sign(b, rng)),
            PairKind::Same(class) => {
                let a = either_sign(class, rng);
                (a, a)
            }
            PairKind::Opposite(class) => {
                let a = either_sign(class, rng);
                (a, a ^ SIGN)
            }
            PairKind::Neighbours(class) => {
                let a = either_sign(class, rng);
                let b = a.wrapping_add(1);
                if rng.one_in(2) {
                    (a, b)
                } else {
                    (b, a)
                }
            }
        }
    }
}

fn either_sign(class: Class, rng: &mut Rng) -> u64 {
    signed(magnitude(class, rng), rng.one_in(2))
}
