//! A segment in the program's own form: ends on the grid, and its bulge in 65,536ths. Whole numbers decide everything about an
//! arc.

use crate::search::plane::Spot;

/// A bulge of 1.
pub const ONE: i64 = 65_536;

/// `n` is the bulge in 65,536ths, 0 a line's.
#[derive(Clone, Copy, Debug, PartialEq, Eq)]
pub struct Piece {
    pub from: Spot,
    pub to: Spot,
    pub n: i64,
}

/// `a x^2 + a y^2 + x gx + y gy + g`, and the side of a chord, `x mx + y my + m`.
///
/// The first is 0 on the arc's circle and below 0 inside it; the second is below 0 on the arc's side and 0 at its ends.
#[derive(Clone, Copy, Debug)]
pub struct Circle {
    pub a: i128,
    pub gx: i128,
    pub gy: i128,
    pub g: i128,
    pub mx: i128,
    pub my: i128,
    pub m: i128,
}

impl Piece {
    pub fn is_line(self) -> bool {
        self.n == 0
    }

    pub fn ends(self) -> [Spot; 2] {
        [self.from, self.to]
    }

    pub fn reversed(self) -> Piece {
        Piece {
            from: self.to,
            to: self.from,
            n: -self.n,
        }
    }

    /// The same arc, from the end that it leaves counterclockwise.
    pub fn turned(self) -> Piece {
        if self.n < 0 {
            self.reversed()
        } else {
            self
        }
    }

    pub fn chord(self) -> (i128, i128) {
        (
            i128::from(self.to.x - self.from.x),
            i128::from(self.to.y - self.from.y),
        )
    }

    /// The circle of an arc. A circle through the ends p and q of a chord c is (P - p).(P - q) + k c x (P - p) = 0, and its top
    /// lies where the bulge b says if k = (b^2 - 1) / 2b. Everything is multiplied by 2b * 65,536^2.
    pub fn circle(self) -> Circle {
        let Piece { from, to, n } = self.turned();
        let (n, one) = (i128::from(n), i128::from(ONE));
        let [px, py, qx, qy] = [from.x, from.y, to.x, to.y].map(i128::from);
        let (cx, cy) = (qx - px, qy - py);
        let (a, k) = (2 * n * one, n * n - one * one);
        let m = cy * px - cx * py;
        Circle {
            a,
            gx: -a * (px + qx) - k * cy,
            gy: -a * (py + qy) + k * cx,
            g: a * (px * qx + py * qy) + k * m,
            mx: -cy,
            my: cx,
            m,
        }
    }

    /// Its two vertices as in a layout.
    pub fn written(self) -> String {
        let Piece { from, to, n } = self;
        format!("{} {} {n}; {} {} 0", from.x, from.y, to.x, to.y)
    }

    /// The bulge as a call takes it.
    pub fn bulge(self) -> f64 {
        self.n as f64 / ONE as f64
    }

    pub fn length(self) -> f64 {
        let (x, y) = self.chord();
        ((x * x + y * y) as f64).sqrt()
    }

    /// An arc's; 0 for a line.
    pub fn radius(self) -> f64 {
        let b = self.bulge().abs();
        if self.is_line() {
            0.0
        } else {
            self.length() * (1.0 + b * b) / (4.0 * b)
        }
    }

    /// How far the arc rises above its chord.
    pub fn height(self) -> f64 {
        self.length() * self.bulge().abs() / 2.0
    }
}

impl Circle {
    /// The arc's bulge in 65,536ths; `a` is a multiple of it.
    pub fn bulge(&self) -> i128 {
        self.a / (2 * i128::from(ONE))
    }

    pub fn at(&self, p: Spot) -> i128 {
        let (x, y) = (i128::from(p.x), i128::from(p.y));
        self.a * (x * x + y * y) + self.gx * x + self.gy * y + self.g
    }

    pub fn side(&self, p: Spot) -> i128 {
        self.mx * i128::from(p.x) + self.my * i128::from(p.y) + self.m
    }
}

#[cfg(test)]
pub mod tests {
    use super::*;

    pub fn piece(ax: i64, ay: i64, bx: i64, by: i64, n: i64) -> Piece {
        Piece {
            from: Spot { x: ax, y: ay },
            to: Spot { x: bx, y: by },
            n,
        }
    }

    #[test]
    fn circles_through_known_points() {
        // the half circle about 0 from (-5, 0) to (5, 0) runs below
        let c = piece(-5, 0, 5, 0, ONE).circle();
        for (x, y) in [(5, 0), (-5, 0), (3, -4), (4, 3), (0, 5)] {
            assert_eq!(c.at(Spot { x, y }), 0, "{x} {y}");
        }
        assert!(c.at(Spot { x: 1, y: 1 }) < 0 && c.at(Spot { x: 6, y: 1 }) > 0);
        assert!(c.side(Spot { x: 3, y: -4 }) < 0 && c.side(Spot { x: 3, y: 4 }) > 0);
        // from (-4, 3) to (4, 3) with bulge 1/2, by (0, 5) or (0, -5): the same circle's, or another's
        let up = piece(-4, 3, 4, 3, -ONE / 2).circle();
        assert_eq!(up.at(Spot { x: 0, y: 5 }), 0);
        assert!(up.side(Spot { x: 0, y: 5 }) < 0);
        assert_eq!(up.at(Spot { x: 3, y: 4 }), 0);
        assert_eq!(
            piece(4, 3, -4, 3, ONE / 2).circle().at(Spot { x: 0, y: 5 }),
            0
        );
    }

    #[test]
    fn radii_and_heights() {
        assert_eq!(piece(-5, 0, 5, 0, ONE).radius(), 5.0);
        assert_eq!(piece(-4, 3, 4, 3, -ONE / 2).radius(), 5.0);
        assert_eq!(piece(-4, 3, 4, 3, -ONE / 2).height(), 2.0);
    }
}
