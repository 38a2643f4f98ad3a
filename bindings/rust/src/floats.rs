//! The float functions, on numbers and on their bit patterns.
//!
//! The bits of a NaN answer are left open; the functions on patterns fix them too.

use crate::ffi;

/// The absolute value: x without its sign. A NaN stays a NaN.
///
/// ```
/// assert_eq!(vonjekona::floats::abs(-2.5), 2.5);
/// ```
#[must_use]
pub fn abs(x: f64) -> f64 {
    ffi::vj_abs(x)
}

/// The smaller of x and y. Equal operands give y, and zeros of either sign are equal. If one is a
/// NaN the answer is the other one.
///
/// ```
/// use vonjekona::floats::min;
/// assert_eq!(min(1.0, 2.0), 1.0);
/// assert_eq!(min(f64::NAN, 2.0), 2.0);
/// assert!(min(0.0, -0.0).is_sign_negative());
/// ```
#[must_use]
pub fn min(x: f64, y: f64) -> f64 {
    ffi::vj_min(x, y)
}

/// The larger of x and y. Equal operands and NaNs: as for [`min`].
///
/// ```
/// use vonjekona::floats::max;
/// assert_eq!(max(1.0, 2.0), 2.0);
/// assert!(max(0.0, -0.0).is_sign_negative());
/// ```
#[must_use]
pub fn max(x: f64, y: f64) -> f64 {
    ffi::vj_max(x, y)
}

/// The square root, correctly rounded for every x. A NaN or a number below zero gives a NaN; -0
/// and infinity give themselves.
///
/// ```
/// use vonjekona::floats::sqrt;
/// assert_eq!(sqrt(2.0), 2.0_f64.sqrt());
/// assert!(sqrt(-1.0).is_nan());
/// ```
#[must_use]
pub fn sqrt(x: f64) -> f64 {
    ffi::vj_sqrt(x)
}

/// The pattern with its sign cleared, a NaN's too.
///
/// ```
/// assert_eq!(vonjekona::floats::abs_bits((-2.5_f64).to_bits()), 2.5_f64.to_bits());
/// ```
#[must_use]
pub fn abs_bits(b: u64) -> u64 {
    ffi::vj_abs_bits(b)
}

/// The pattern, a or b, of the smaller number. Equal numbers give b. If one is a NaN's the answer
/// is the other one; two NaNs give 7FF8000000000000.
///
/// ```
/// let nan = f64::NAN.to_bits();
/// assert_eq!(vonjekona::floats::min_bits(nan, nan | 1), 0x7ff8_0000_0000_0000);
/// ```
#[must_use]
pub fn min_bits(a: u64, b: u64) -> u64 {
    ffi::vj_min_bits(a, b)
}

/// The pattern of the larger number. Equal numbers, NaNs: as for [`min_bits`].
///
/// ```
/// let (one, two) = (1.0_f64.to_bits(), 2.0_f64.to_bits());
/// assert_eq!(vonjekona::floats::max_bits(one, two), two);
/// ```
#[must_use]
pub fn max_bits(a: u64, b: u64) -> u64 {
    ffi::vj_max_bits(a, b)
}

/// The pattern of the correctly rounded square root. A NaN or a number below zero gives
/// 7FF8000000000000.
///
/// ```
/// use vonjekona::floats::sqrt_bits;
/// assert_eq!(sqrt_bits(4.0_f64.to_bits()), 2.0_f64.to_bits());
/// assert_eq!(sqrt_bits((-4.0_f64).to_bits()), 0x7ff8_0000_0000_0000);
/// ```
#[must_use]
pub fn sqrt_bits(b: u64) -> u64 {
    ffi::vj_sqrt_bits(b)
}
