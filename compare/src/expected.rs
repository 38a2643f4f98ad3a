//! What the four float functions answer on patterns: from this machine and Rust's `std`, and from the scope's rule, written here
//! on bits, where these leave it open (a NaN's bits, the sign of a zero).

use crate::classes::{is_nan, SIGN};

pub const NAN: u64 = 0x7ff8_0000_0000_0000;

pub fn abs(b: u64) -> u64 {
    f64::from_bits(b).abs().to_bits()
}

/// The machine's own root, which is correctly rounded.
pub fn sqrt(b: u64) -> u64 {
    let root = f64::from_bits(b).sqrt();
    if root.is_nan() {
        NAN
    } else {
        root.to_bits()
    }
}

pub fn min(a: u64, b: u64) -> u64 {
    open(a, b).unwrap_or_else(|| f64::from_bits(a).min(f64::from_bits(b)).to_bits())
}

pub fn max(a: u64, b: u64) -> u64 {
    open(a, b).unwrap_or_else(|| f64::from_bits(a).max(f64::from_bits(b)).to_bits())
}

/// The answer of `min` and `max` if Rust leaves it open: two NaNs, two zeros.
fn open(a: u64, b: u64) -> Option<u64> {
    if is_nan(a) && is_nan(b) {
        Some(NAN)
    } else if (a | b) & !SIGN == 0 {
        Some(b)
    } else {
        None
    }
}
