//! A vertex of a path, with the bulge of the segment that starts there.

use super::real::Real;
use super::vector2::Vector2;

#[derive(Debug, Copy, Clone)]
pub struct PlineVertex<T = f64> {
    pub x: T,
    pub y: T,
    pub bulge: T,
}

impl<T: Real> PlineVertex<T> {
    pub fn new(x: T, y: T, bulge: T) -> Self {
        PlineVertex { x, y, bulge }
    }

    pub fn pos(self) -> Vector2<T> {
        Vector2::new(self.x, self.y)
    }

    /// A bulge is a line's if near zero by the default epsilon.
    pub fn bulge_is_zero(self) -> bool {
        self.bulge.fuzzy_eq_zero()
    }

    /// A bulge is negative if below 0.
    pub fn bulge_is_neg(self) -> bool {
        self.bulge < T::zero()
    }

    pub fn fuzzy_eq(self, other: Self) -> bool {
        self.pos().fuzzy_eq(other.pos()) && self.bulge.fuzzy_eq(other.bulge)
    }
}
