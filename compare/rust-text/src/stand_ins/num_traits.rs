//! What the text uses of the crate `num_traits`: numbers of one kind. Here only f64 is one.

pub mod real {
    use std::ops::{Add, Div, Mul, Neg, Sub};

    pub trait Real:
        Copy
        + PartialOrd
        + Add<Output = Self>
        + Sub<Output = Self>
        + Mul<Output = Self>
        + Div<Output = Self>
        + Neg<Output = Self>
    {
        fn zero() -> Self;
        fn one() -> Self;
        fn from(x: f64) -> Option<Self>;
        fn min(self, other: Self) -> Self;
        fn max(self, other: Self) -> Self;
        fn abs(self) -> Self;
        fn sqrt(self) -> Self;
        fn floor(self) -> Self;
        fn tan(self) -> Self;
        fn atan(self) -> Self;
        fn atan2(self, other: Self) -> Self;
        fn sin_cos(self) -> (Self, Self);
    }

    impl Real for f64 {
        fn zero() -> f64 {
            0.0
        }
        fn one() -> f64 {
            1.0
        }
        fn from(x: f64) -> Option<f64> {
            Some(x)
        }
        fn min(self, other: f64) -> f64 {
            f64::min(self, other)
        }
        fn max(self, other: f64) -> f64 {
            f64::max(self, other)
        }
        fn abs(self) -> f64 {
            f64::abs(self)
        }
        fn sqrt(self) -> f64 {
            f64::sqrt(self)
        }
        fn floor(self) -> f64 {
            f64::floor(self)
        }
        fn tan(self) -> f64 {
            f64::tan(self)
        }
        fn atan(self) -> f64 {
            f64::atan(self)
        }
        fn atan2(self, other: f64) -> f64 {
            f64::atan2(self, other)
        }
        fn sin_cos(self) -> (f64, f64) {
            f64::sin_cos(self)
        }
    }
}
