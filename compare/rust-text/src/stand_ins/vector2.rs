//! A point, or the way from one to another.

use std::ops::{Add, Sub};

use super::real::Real;

/// Equality is exact, each coordinate by `==`: -0 equals +0.
#[derive(Debug, Copy, Clone, PartialEq)]
pub struct Vector2<T = f64> {
    pub x: T,
    pub y: T,
}

impl<T: Real> Vector2<T> {
    pub fn new(x: T, y: T) -> Self {
        Vector2 { x, y }
    }

    pub fn scale(self, by: T) -> Self {
        Vector2::new(self.x * by, self.y * by)
    }

    /// Dot: x1*x2 + y1*y2.
    pub fn dot(self, other: Self) -> T {
        self.x * other.x + self.y * other.y
    }

    /// Perp dot: x1*y2 - y1*x2.
    pub fn perp_dot(self, other: Self) -> T {
        self.x * other.y - self.y * other.x
    }

    /// A quarter turn to the left: (-y, x).
    pub fn perp(self) -> Self {
        Vector2::new(-self.y, self.x)
    }

    pub fn length_squared(self) -> T {
        self.dot(self)
    }

    /// Length: the square root of the dot product with itself.
    pub fn length(self) -> T {
        self.dot(self).sqrt()
    }

    pub fn normalize(self) -> Self {
        self.scale(T::one() / self.length())
    }

    /// Near equal in each coordinate.
    pub fn fuzzy_eq_eps(self, other: Self, epsilon: T) -> bool {
        self.x.fuzzy_eq_eps(other.x, epsilon) && self.y.fuzzy_eq_eps(other.y, epsilon)
    }

    pub fn fuzzy_eq(self, other: Self) -> bool {
        self.fuzzy_eq_eps(other, T::fuzzy_epsilon())
    }
}

impl<T: Real> Add for Vector2<T> {
    type Output = Self;

    fn add(self, other: Self) -> Self {
        Vector2::new(self.x + other.x, self.y + other.y)
    }
}

impl<T: Real> Sub for Vector2<T> {
    type Output = Self;

    fn sub(self, other: Self) -> Self {
        Vector2::new(self.x - other.x, self.y - other.y)
    }
}
