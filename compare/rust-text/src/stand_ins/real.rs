//! The number that the text is written over.

use super::fuzzy::{FuzzyEq, FuzzyOrd};
use super::num_traits;

/// What it is as an f64 is for the log alone.
pub trait Real: num_traits::real::Real + FuzzyEq + FuzzyOrd + std::fmt::Debug + Into<f64> {
    fn two() -> Self;
    fn four() -> Self;
    fn pi() -> Self;
    fn tau() -> Self;
}

impl Real for f64 {
    fn two() -> f64 {
        2.0
    }
    fn four() -> f64 {
        4.0
    }
    fn pi() -> f64 {
        std::f64::consts::PI
    }
    fn tau() -> f64 {
        std::f64::consts::TAU
    }
}
