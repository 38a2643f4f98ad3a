//! Comparisons with a given epsilon, or with the default one.

/// Near zero: |a| < eps. Near equal: |a - b| < eps. The default epsilon is 1e-8.
pub trait FuzzyEq: Sized {
    fn fuzzy_epsilon() -> Self;
    fn fuzzy_eq_eps(self, other: Self, epsilon: Self) -> bool;
    fn fuzzy_eq_zero_eps(self, epsilon: Self) -> bool;

    fn fuzzy_eq(self, other: Self) -> bool {
        self.fuzzy_eq_eps(other, Self::fuzzy_epsilon())
    }
    fn fuzzy_eq_zero(self) -> bool {
        self.fuzzy_eq_zero_eps(Self::fuzzy_epsilon())
    }
}

/// Greater: a + eps > b. Less: a < b + eps. In range: both.
pub trait FuzzyOrd: Copy {
    fn fuzzy_gt_eps(self, other: Self, epsilon: Self) -> bool;
    fn fuzzy_lt_eps(self, other: Self, epsilon: Self) -> bool;

    fn fuzzy_in_range_eps(self, min: Self, max: Self, epsilon: Self) -> bool {
        self.fuzzy_gt_eps(min, epsilon) && self.fuzzy_lt_eps(max, epsilon)
    }
}

impl FuzzyEq for f64 {
    fn fuzzy_epsilon() -> f64 {
        1e-8
    }
    fn fuzzy_eq_eps(self, other: f64, epsilon: f64) -> bool {
        (self - other).abs() < epsilon
    }
    fn fuzzy_eq_zero_eps(self, epsilon: f64) -> bool {
        self.abs() < epsilon
    }
}

impl FuzzyOrd for f64 {
    fn fuzzy_gt_eps(self, other: f64, epsilon: f64) -> bool {
        self + epsilon > other
    }
    fn fuzzy_lt_eps(self, other: f64, epsilon: f64) -> bool {
        self < other + epsilon
    }
}
