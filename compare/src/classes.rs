//! The classes of f64 that a function may treat differently, and random patterns of each.

use crate::rng::Rng;

pub const SIGN: u64 = 1 << 63;
pub const DIGITS: u64 = (1 << 52) - 1;
const INFINITY: u64 = 0x7ff0_0000_0000_0000;
const QUIET: u64 = 0x7ff8_0000_0000_0000;
const SMALLEST_NORMAL: u64 = 0x0010_0000_0000_0000;
const LARGEST_NORMAL: u64 = 0x7fef_ffff_ffff_ffff;

#[derive(Clone, Copy)]
pub enum Class {
    Zero,
    Subnormal,
    SmallestNormal,
    LargestNormal,
    Normal,
    /// A perfect square times a power of four, or a neighbour.
    Square,
    /// A number whose root lies just beside the middle of two neighbouring f64.
    Midpoint,
    /// A power of two, or a neighbour.
    PowerOfTwo,
    Infinity,
    QuietNan,
    SignallingNan,
    /// All 63 bits random.
    Any,
}

pub const CLASSES: [Class; 12] = [
    Class::Zero,
    Class::Subnormal,
    Class::SmallestNormal,
    Class::LargestNormal,
    Class::Normal,
    Class::Square,
    Class::Midpoint,
    Class::PowerOfTwo,
    Class::Infinity,
    Class::QuietNan,
    Class::SignallingNan,
    Class::Any,
];

/// The patterns at which one class ends and the next begins, and a few plain numbers.
pub const EDGES: [u64; 18] = [
    0,
    1,
    2,
    DIGITS - 1,
    DIGITS,
    SMALLEST_NORMAL,
    SMALLEST_NORMAL + 1,
    0x3fef_ffff_ffff_ffff, // the f64 below 1
    0x3ff0_0000_0000_0000, // 1
    0x3ff0_0000_0000_0001,
    0x4000_0000_0000_0000, // 2
    0x4010_0000_0000_0000, // 4
    LARGEST_NORMAL - 1,
    LARGEST_NORMAL,
    INFINITY,
    INFINITY + 1,
    QUIET,
    SIGN - 1,
];

/// A random pattern of the class, its sign bit clear.
pub fn magnitude(class: Class, rng: &mut Rng) -> u64 {
    match class {
        Class::Zero => 0,
        Class::Subnormal => {
            let shift = rng.below(52);
            (rng.below(1 << 52) >> shift).max(1)
        }
        Class::SmallestNormal => SMALLEST_NORMAL - 32 + rng.below(65),
        Class::LargestNormal => LARGEST_NORMAL - rng.below(64),
        Class::Normal => (1 + rng.below(2046)) << 52 | rng.below(1 << 52),
        Class::Square => square(rng),
        Class::Midpoint => midpoint(rng),
        Class::PowerOfTwo => {
            let power = rng.below(52 + 2046);
            let pattern = if power < 52 {
                1 << power
            } else {
                (power - 51) << 52
            };
            pattern - 1 + rng.below(3)
        }
        Class::Infinity => INFINITY,
        Class::QuietNan => QUIET | rng.below(1 << 51),
        Class::SignallingNan => INFINITY | rng.below(1 << 51).max(1),
        Class::Any => rng.bits() & !SIGN,
    }
}

/// The pattern with its sign bit set if `negative`.
pub fn signed(magnitude: u64, negative: bool) -> u64 {
    if negative {
        magnitude | SIGN
    } else {
        magnitude
    }
}

/// Whether the pattern is a NaN's.
pub fn is_nan(pattern: u64) -> bool {
    pattern & !SIGN > INFINITY
}

/// The digits `m` at a random exponent.
fn scaled(m: u64, odd: u64, rng: &mut Rng) -> u64 {
    scaled_to(2 + rng.below(2044), m, odd)
}

/// The digits `m` (above 0, below 2^53) at the exponent of this field or the one beside it: the one with the parity of `m`, or
/// the other if `odd` is 1. So the root of a square stays exact, and that of a number beside a midpoint's square stays beside one.
pub fn scaled_to(field: u64, m: u64, odd: u64) -> u64 {
    let pattern = (m as f64).to_bits();
    let field = field ^ ((field ^ (pattern >> 52) ^ odd) & 1);
    field << 52 | pattern & DIGITS
}

fn square(rng: &mut Rng) -> u64 {
    let length = 1 + rng.below(26);
    let root = rng.below(1 << length).max(1);
    // A small pattern counts units of 2^-1074, which is a power of four.
    if rng.one_in(8) {
        return root * root;
    }
    scaled(root * root, 0, rng) - 2 + rng.below(5)
}

fn midpoint(rng: &mut Rng) -> u64 {
    if rng.one_in(2) {
        return near_midpoint(rng);
    }
    let (m, odd) = midpoint_digits(rng);
    scaled(m, odd, rng) - 1 + rng.below(3)
}

/// (r + 1/2)^2 without its last quarter, cut to 53 digits, and whether an odd count was cut off.
pub fn midpoint_digits(rng: &mut Rng) -> (u64, u64) {
    let r = (1 << 52) | rng.below(1 << 52);
    cut(u128::from(r) * u128::from(r + 1))
}

fn near_midpoint(rng: &mut Rng) -> u64 {
    let (m, odd) = near_midpoint_digits(rng);
    scaled(m, odd, rng)
}

/// A number whose root is as near to a midpoint as a root can be, or a few times as far; and whether an odd count was cut off.
///
/// Let s = 2r + 1 and s*s = c modulo 2^55, with c = 4k + 1 and a small k. Then x = (s*s - c) / 4 has 53 digits and zeros after
/// them, and its root is r + 1/2 less c / (4s), about c * 2^-56.
pub fn near_midpoint_digits(rng: &mut Rng) -> (u64, u64) {
    let size = 1 + rng.below(20);
    let k = 2 * rng.below(1 << size) as i64;
    let k = if rng.one_in(2) { k } else { -k };
    let c = 4 * k + 1;
    // The root of c modulo 2^55, bit by bit: c is 1 modulo 8, so there is one.
    let mut s: u64 = 1;
    for bit in 3..55 {
        let rest = s.wrapping_mul(s).wrapping_sub(c as u64);
        if rest >> bit & 1 == 1 {
            s += 1 << (bit - 1);
        }
    }
    s %= 1 << 54;
    let s = s.max((1 << 54) - s); // r has its full 53 digits
    cut(((i128::from(s) * i128::from(s) - i128::from(c)) / 4) as u128)
}

/// The first 53 digits of a number of 105 or 106 digits, and whether 53 were cut off, which is an odd count.
fn cut(x: u128) -> (u64, u64) {
    let odd = u64::from(x >> 105 == 1);
    ((x >> (52 + odd)) as u64, odd)
}

#[cfg(test)]
mod tests {
    use super::*;

    /// Twice the root's distance from its midpoint, exactly: x compared with (r + 1/2)^2, where r is the root cut to 53 digits.
    #[test]
    fn near_midpoint_is_near() {
        let mut rng = Rng::new(1);
        for _ in 0..10_000 {
            let pattern = near_midpoint(&mut rng);
            let digits = u128::from(pattern & DIGITS | 1 << 52);
            let x = if pattern >> 52 & 1 == 1 {
                digits << 52
            } else {
                digits << 53
            };
            let s = (4 * x).isqrt();
            let s = if s % 2 == 1 { s } else { s + 1 };
            assert!((4 * x).abs_diff(s * s) < 1 << 24, "{pattern:016x}");
        }
    }

    #[test]
    fn squares_have_exact_roots() {
        let mut rng = Rng::new(2);
        for _ in 0..10_000 {
            let root = 1 + rng.below((1 << 26) - 1);
            let x = f64::from_bits(scaled(root * root, 0, &mut rng));
            assert_eq!(x.sqrt() * x.sqrt(), x);
        }
    }
}
