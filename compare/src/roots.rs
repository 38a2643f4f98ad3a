//! The root beside the machine's own, exponent by exponent. A sweep has for each exponent its ends, random digits, squares of
//! every count of digits, and numbers next to a tie, these with their neighbours; and subnormals of every count of digits.

use crate::capi::{vj_sqrt, vj_sqrt_bits};
use crate::classes::{midpoint_digits, near_midpoint_digits, scaled_to, DIGITS};
use crate::expected;
use crate::rng::Rng;
use crate::tally::Tally;

/// The exponent's fields, from that of zero and the subnormals to that of the largest numbers.
const FIELDS: u64 = 2047;
/// A square has twice as many digits as its root, or one less, and an f64 has 53.
const ROOT_DIGITS: u64 = 26;
const SUBNORMAL_DIGITS: u64 = 52;
/// How many neighbours either side of a square, and at either end of an exponent.
const NEIGHBOURS: u64 = 2;
const RANDOM: u64 = 8;
const TIES: u64 = 3;

/// Compares the root on `count` patterns or a few more, and at least on one sweep; answers how many differences there were.
pub fn check(count: u64, seed: u64) -> u64 {
    let mut on_bits = Tally::new("sqrt_bits, exponent by exponent,");
    let mut on_f64 = Tally::new("sqrt, exponent by exponent,");
    let mut met = Met::new();
    sweeps(count, seed, |b| {
        met.add(b);
        let expected = expected::sqrt(b);
        let ours = vj_sqrt_bits(b);
        on_bits.add(ours == expected, || shown(b, ours, expected));
        let ours = vj_sqrt(f64::from_bits(b)).to_bits();
        on_f64.add(ours == expected, || shown(b, ours, expected));
    });
    on_bits.report() + on_f64.report() + met.report()
}

fn shown(b: u64, ours: u64, expected: u64) -> String {
    format!("{b:016x}: {ours:016x}, expected {expected:016x}")
}

/// Hands over the patterns of so many sweeps that there are `count` of them.
fn sweeps(count: u64, seed: u64, mut each: impl FnMut(u64)) {
    let mut rng = Rng::new(seed);
    let mut patterns = Vec::new();
    let mut handed = 0;
    while handed == 0 || handed < count {
        for field in 0..FIELDS {
            patterns.clear();
            if field == 0 {
                subnormals(&mut rng, &mut patterns);
            } else {
                normals(field, &mut rng, &mut patterns);
            }
            handed += patterns.len() as u64;
            patterns.iter().for_each(|b| each(*b));
        }
    }
}

/// Of every count of digits the smallest, the largest and a random one; squares, counted in units of 2^-1074, which is a power of
/// four, and their neighbours.
fn subnormals(rng: &mut Rng, patterns: &mut Vec<u64>) {
    for digits in 1..=SUBNORMAL_DIGITS {
        let least = 1 << (digits - 1);
        patterns.extend([least, least + rng.below(least), 2 * least - 1]);
    }
    for digits in 1..=ROOT_DIGITS {
        let root = odd_root(digits, rng);
        beside(root * root, patterns);
    }
}

fn normals(field: u64, rng: &mut Rng, patterns: &mut Vec<u64>) {
    let (least, most) = (field << 52, field << 52 | DIGITS);
    for step in 0..=NEIGHBOURS {
        patterns.extend([least + step, most - step]);
    }
    patterns.extend((0..RANDOM).map(|_| least + rng.below(1 << 52)));
    for digits in 1..=ROOT_DIGITS {
        let root = odd_root(digits, rng);
        at_parity(field, (root * root, 0), patterns);
    }
    for _ in 0..TIES {
        at_parity(field, midpoint_digits(rng), patterns);
        at_parity(field, near_midpoint_digits(rng), patterns);
    }
}

/// A square or a number next to a tie, with its neighbours. Its exponent has one parity, so it is this one or the one beside it.
/// At the first and the last exponent there may be none.
fn at_parity(field: u64, (m, odd): (u64, u64), patterns: &mut Vec<u64>) {
    let b = scaled_to(field, m, odd);
    if (1..FIELDS).contains(&(b >> 52)) {
        beside(b, patterns);
    }
}

/// A random odd number of so many digits: its square has no fewer digits than that.
fn odd_root(digits: u64, rng: &mut Rng) -> u64 {
    let least = 1 << (digits - 1);
    (least + rng.below(least)) | 1
}

/// A pattern and its neighbours, but zero and infinity.
fn beside(b: u64, patterns: &mut Vec<u64>) {
    let from = b.saturating_sub(NEIGHBOURS).max(1);
    patterns.extend((from..=b + NEIGHBOURS).filter(|b| b >> 52 < FIELDS));
}

/// What has come up, read from the patterns: how many of each exponent, and of each count of a subnormal's digits.
struct Met {
    fields: Vec<u64>,
    digits: Vec<u64>,
}

impl Met {
    fn new() -> Met {
        Met {
            fields: vec![0; FIELDS as usize],
            digits: vec![0; SUBNORMAL_DIGITS as usize],
        }
    }

    fn add(&mut self, b: u64) {
        let field = (b >> 52) as usize;
        self.fields[field] += 1;
        if field == 0 {
            self.digits[63 - b.leading_zeros() as usize] += 1;
        }
    }

    /// Prints the least counts, and answers 1 if something never came up.
    fn report(&self) -> u64 {
        let least = |counts: &[u64]| counts.iter().min().copied().unwrap_or(0);
        let (exponent, digits) = (least(&self.fields), least(&self.digits));
        println!(
            "each of {FIELDS} exponents came up at least {exponent} times, each of {SUBNORMAL_DIGITS} counts of a subnormal's \
             digits at least {digits} times"
        );
        u64::from(exponent == 0 || digits == 0)
    }
}

#[cfg(test)]
mod tests {
    use super::*;

    /// How many patterns of a sweep a stand-in for the root is found wrong at.
    fn found(stand_in: impl Fn(u64) -> u64) -> u64 {
        let mut differences = 0;
        sweeps(1, 1, |b| {
            differences += u64::from(stand_in(b) != expected::sqrt(b));
        });
        differences
    }

    /// The digits of a normal number's root if it is exact: without the zeros at their end.
    fn exact_digits(b: u64) -> Option<u32> {
        let m = u128::from(b & DIGITS | 1 << 52) << (52 + (b >> 52 & 1 ^ 1));
        let root = m.isqrt();
        (root * root == m).then(|| 53 - root.trailing_zeros())
    }

    #[test]
    fn a_sweep_meets_everything() {
        let mut met = Met::new();
        let mut squares = [0; ROOT_DIGITS as usize + 1];
        let mut beside = [0; ROOT_DIGITS as usize + 1];
        let mut all = 0;
        sweeps(1, 1, |b| {
            met.add(b);
            all += 1;
            if b >> 52 > 1 {
                if let Some(digits) = exact_digits(b).filter(|digits| *digits <= 26) {
                    squares[digits as usize] += 1;
                }
                if let Some(digits) = exact_digits(b + 1).filter(|digits| *digits <= 26) {
                    beside[digits as usize] += 1;
                }
            }
        });
        assert_eq!(met.report(), 0);
        assert!(all > 300_000, "{all}");
        assert!(
            squares[1..].iter().all(|count| *count > 1000),
            "{squares:?}"
        );
        assert!(beside[1..].iter().all(|count| *count > 1000), "{beside:?}");
    }

    #[test]
    fn a_wrong_root_is_found() {
        let right = expected::sqrt;
        assert_eq!(found(right), 0);
        for field in [1, 2, 1022, 1023, 2045, 2046] {
            assert!(found(|b| right(b) + u64::from(b >> 52 == field)) > 0);
        }
        for digits in 1..=SUBNORMAL_DIGITS as u32 {
            assert!(
                found(|b| right(b) + u64::from(b < 1 << 52 && b.leading_zeros() == 64 - digits))
                    > 0
            );
        }
        // the digits of perfect squares come out too small, or those of their neighbours below too large
        for digits in 1..=26 {
            let exact = |b: u64| b >> 52 > 0 && exact_digits(b) == Some(digits);
            assert!(found(|b| right(b) - u64::from(exact(b))) > 0);
            assert!(found(|b| right(b) + u64::from(exact(b + 1))) > 0);
        }
        // cut off, not rounded; and a tie's number at its wrong side
        let cut = |b: u64| {
            let root = f64::from_bits(right(b));
            right(b) - u64::from(root.mul_add(root, -f64::from_bits(b)) > 0.0)
        };
        assert!(found(cut) > 0);
        let near = |b: u64| {
            let m = u128::from(b & DIGITS | 1 << 52) << (54 + (b >> 52 & 1 ^ 1));
            let root = m.isqrt();
            b >> 52 > 0 && root % 2 == 0 && (root + 1) * (root + 1) - m < 1 << 24
        };
        assert!(found(|b| right(b) + u64::from(near(b))) > 0);
    }
}
