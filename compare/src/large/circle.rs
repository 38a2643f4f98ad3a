//! Read geometrically: how far the circle of each half lies from the circle of the arc that was cut. Both circles are worked out
//! from the same f64 numbers, with twice as many digits. This is run on a sample, and not proved.

use std::ops::{Add, Div, Mul, Sub};

use cavalier_contours::polyline::{seg_arc_radius_and_center, PlineVertex};

use super::cut::{Segment, RULE};
use super::draw::large_bulge;
use super::faults::of_segment;
use crate::inputs::shapes::{near, unit};
use crate::inputs::values::{power, COORDINATE_LIMIT};
use crate::inputs::Point;
use crate::rng::Rng;

/// The most that is allowed, in units of 2^-53 of the radius plus the largest coordinate of the arc's ends.
pub const ALLOWED: f64 = 16.0;
const UNIT: f64 = 1.0 / (1u64 << 53) as f64;

/// A sum of two floats, of which the first is the sum rounded: some 106 bits.
#[derive(Clone, Copy)]
struct Wide(f64, f64);

impl Wide {
    fn of(x: f64) -> Wide {
        Wide(x, 0.0)
    }

    /// Exactly a + b.
    fn sum(a: f64, b: f64) -> Wide {
        let sum = a + b;
        let from_b = sum - a;
        Wide(sum, (a - (sum - from_b)) + (b - from_b))
    }

    /// Exactly a * b, unless it is too small.
    fn product(a: f64, b: f64) -> Wide {
        let product = a * b;
        Wide(product, a.mul_add(b, -product))
    }

    fn minus(self) -> Wide {
        Wide(-self.0, -self.1)
    }

    fn magnitude(self) -> Wide {
        if self.0 < 0.0 {
            self.minus()
        } else {
            self
        }
    }

    fn sqrt(self) -> Wide {
        if self.0 <= 0.0 {
            return Wide::of(0.0);
        }
        // one step of Newton from the rounded root
        let root = Wide::of(self.0.sqrt());
        let rest = self - root * root;
        root + rest / (root + root)
    }

    fn rounded(self) -> f64 {
        self.0 + self.1
    }
}

impl Add for Wide {
    type Output = Wide;
    fn add(self, other: Wide) -> Wide {
        let sum = Wide::sum(self.0, other.0);
        let low = Wide::sum(self.1, other.1);
        let first = Wide::sum(sum.0, sum.1 + low.0);
        Wide::sum(first.0, first.1 + low.1)
    }
}

impl Sub for Wide {
    type Output = Wide;
    fn sub(self, other: Wide) -> Wide {
        self + other.minus()
    }
}

impl Mul for Wide {
    type Output = Wide;
    fn mul(self, other: Wide) -> Wide {
        let product = Wide::product(self.0, other.0);
        Wide::sum(product.0, product.1 + (self.0 * other.1 + self.1 * other.0))
    }
}

impl Div for Wide {
    type Output = Wide;
    fn div(self, other: Wide) -> Wide {
        let first = self.0 / other.0;
        let rest = self - other * Wide::of(first);
        let second = rest.0 / other.0;
        let rest = rest - other * Wide::of(second);
        Wide::sum(first, second) + Wide::of(rest.0 / other.0)
    }
}

/// Centre and radius.
type Circle = [Wide; 3];

/// The circle of an arc, from its numbers as they are.
fn circle([x1, y1, b, x2, y2]: Segment) -> Circle {
    let [x1, y1, b, x2, y2] = [x1, y1, b, x2, y2].map(Wide::of);
    let (dx, dy) = (x2 - x1, y2 - y1);
    let (one, two) = (Wide::of(1.0), Wide::of(2.0));
    let four = Wide::of(4.0) * b;
    let by = (one - b * b) / four;
    let chord = (dx * dx + dy * dy).sqrt();
    [
        (x1 + x2) / two - by * dy,
        (y1 + y2) / two + by * dx,
        (chord * (one + b * b) / four).magnitude(),
    ]
}

/// How far a point of the one circle can be from the other: the centres' distance and the radii's difference.
fn apart(a: Circle, b: Circle) -> f64 {
    let [dx, dy, dr] = [0, 1, 2].map(|at: usize| a[at] - b[at]);
    ((dx * dx + dy * dy).sqrt() + dr.magnitude()).rounded()
}

/// Two figures of a set of arcs: of the halves as they are, and of the circles that the Rust computes for the halves.
#[derive(Clone, Copy, Default)]
struct Most {
    arcs: u64,
    exact: f64,
    rust: f64,
}

impl Most {
    fn add(&mut self, exact: f64, rust: f64) {
        self.arcs += 1;
        self.exact = self.exact.max(exact);
        self.rust = self.rust.max(rust);
    }
}

/// A large arc that is accepted: any bulge, any chord, anywhere.
fn arc(rng: &mut Rng) -> Segment {
    loop {
        let b = large_bulge(rng);
        let far = match rng.below(4) {
            0 | 1 => 0.0,
            2 => power(rng, -40, 20),
            _ => COORDINATE_LIMIT,
        };
        let from = near(Point::default(), far, rng);
        let to = from.along(unit(rng), power(rng, -43, 20));
        let s = [from.x, from.y, b, to.x, to.y];
        let within = s.iter().all(|x| x.abs() <= COORDINATE_LIMIT);
        if within && of_segment(&RULE, s, 0, 0).is_empty() {
            return s;
        }
    }
}

/// Looks at so many arcs. Prints the largest figures, and answers how many are beyond what is allowed.
pub fn check(count: u64, seed: u64) -> u64 {
    let mut rng = Rng::new(seed);
    // relative to the radius and the coordinates; relative to the radius alone, where no coordinate is above twice the radius,
    // above 1,024 times, above 2^20 times
    let mut all = Most::default();
    let mut by_size = [Most::default(); 3];
    let mut beyond = 0;
    for _ in 0..count {
        let s = arc(&mut rng);
        let whole = circle(s);
        let radius = whole[2].rounded();
        let largest = [s[0], s[1], s[3], s[4]].map(f64::abs);
        let largest = largest.into_iter().fold(0.0, f64::max);
        let (mut exact, mut rust) = (0f64, 0f64);
        for (half, _) in RULE.parts(s) {
            exact = exact.max(apart(circle(half), whole));
            rust = rust.max(apart(of_rust(half), whole));
        }
        let of_size = exact / (radius + largest) / UNIT;
        all.add(of_size, rust / (radius + largest) / UNIT);
        beyond += u64::from(of_size.is_nan() || of_size > ALLOWED);
        let (exact, rust) = (exact / radius / UNIT, rust / radius / UNIT);
        for (most, limit) in by_size.iter_mut().zip([2.0, 1024.0, 1048576.0]) {
            if largest <= limit * radius {
                most.add(exact, rust);
            }
        }
    }
    println!(
        "large: {} arcs cut, the halves' circles at most {:.2} * 2^-53 of radius and largest coordinate from the arc's, as the \
         Rust computes them {:.2}",
        all.arcs, all.exact, all.rust
    );
    for (most, name) in by_size.iter().zip(["2", "1,024", "1,048,576"]) {
        println!(
            "large: {} arcs with coordinates up to {name} radii: {:.2} * 2^-53 of the radius, as the Rust computes them {:.2}",
            most.arcs, most.exact, most.rust
        );
    }
    if beyond > 0 {
        println!(
            "large: {beyond} arcs have halves off their circle by more than {ALLOWED} * 2^-53"
        );
    }
    beyond
}

/// The circle that the Rust computes for a half.
fn of_rust([x1, y1, b, x2, y2]: Segment) -> Circle {
    let (from, to) = (PlineVertex::new(x1, y1, b), PlineVertex::new(x2, y2, 0.0));
    let (radius, center) = seg_arc_radius_and_center(from, to);
    [center.x, center.y, radius].map(Wide::of)
}

#[cfg(test)]
mod tests {
    use super::*;

    /// A chord of 1 and a bulge of 2: the centre is 3/8 to the right of the chord, the radius 5/8.
    #[test]
    fn a_circle() {
        let [x, y, radius] = circle([-0.5, 0.0, 2.0, 0.5, 0.0]).map(Wide::rounded);
        assert_eq!([x, y, radius], [0.0, -0.375, 0.625]);
        let [x, y, radius] = circle([-0.5, 0.0, -2.0, 0.5, 0.0]).map(Wide::rounded);
        assert_eq!([x, y, radius], [0.0, 0.375, 0.625]);
    }

    /// Twice the digits: a root squared, a quotient times its divisor.
    #[test]
    fn digits() {
        let two = Wide::of(2.0);
        let root = two.sqrt();
        assert!((root * root - two).rounded().abs() < 1e-31);
        let third = Wide::of(1.0) / Wide::of(3.0);
        assert!((third * Wide::of(3.0) - Wide::of(1.0)).rounded().abs() < 1e-31);
    }

    /// A cut point that is off shows at once.
    #[test]
    fn a_wrong_half_is_seen() {
        let s = [0.0, 0.0, 3.0, 1.0, 0.0];
        let whole = circle(s);
        let mut half = RULE.parts(s)[0].0;
        assert!(apart(circle(half), whole) < 1e-15);
        half[3] += 1e-9;
        assert!(apart(circle(half), whole) > 1e-10);
    }
}
