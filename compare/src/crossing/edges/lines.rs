//! Two lines: the crossing's parameters lie beside an end, or beside the limits of the quick test for clearly on the segment or
//! off it; or a segment or an epsilon is just of usual size.
//!
//! The quick test's other limit on the square of a segment's length, 2^50, lies beyond what accepted coordinates reach: 2^43.

use cavalier_contours::core::math::{parametric_from_point, Vector2};

use super::{operands, some_epsilon, Beside, Edge, Way};
use crate::crossing::calls::{at, CALLS};
use crate::crossing::faults::two_to;
use crate::crossing::PAIRS;
use crate::inputs::shapes::{line, near, unit};
use crate::inputs::values::{nudge, power, whole};
use crate::inputs::{Pair, Point, Segment};
use crate::numbers::Numbers;
use crate::rng::Rng;

/// The ends of a segment, and the limits beyond which a parameter is clearly on it or off it.
pub const PARAMETERS: [(&str, f64); 5] = [
    ("-1/32", -1.0 / 32.0),
    ("0", 0.0),
    ("31/32", 31.0 / 32.0),
    ("1", 1.0),
    ("33/32", 33.0 / 32.0),
];
/// The places of a pair's coordinates, the first segment's and then the second's.
const COORDINATES: [usize; 8] = [0, 1, 3, 4, 6, 7, 9, 10];
const EPSILON: usize = 12;

pub fn edges() -> Vec<Edge> {
    let mut all = Vec::new();
    for (which, name) in ["seg1", "seg2"].into_iter().enumerate() {
        for (place, t) in PARAMETERS {
            all.push(Edge::new(
                format!("{name}_t at {place}"),
                move |rng| crossing(which, t, rng),
                move |n| Beside::sized(Lines::of(n).usual_t(which), t, 1.0),
            ));
        }
        all.push(Edge::new(
            format!("{name}_t * length at -eps"),
            move |rng| by_epsilon(which, false, rng),
            move |n| {
                let lines = Lines::of(n);
                let along = lines.t(which) * lines.length(which);
                Beside::sized(along + lines.epsilon, 0.0, lines.epsilon)
            },
        ));
        all.push(Edge::new(
            format!("{name}_t * length at length + eps"),
            move |rng| by_epsilon(which, true, rng),
            move |n| {
                let lines = Lines::of(n);
                let length = lines.length(which);
                Beside::new(lines.t(which) * length, length + lines.epsilon)
            },
        ));
        all.push(Edge::new(
            format!("{name}'s self dot at 2^-10"),
            move |rng| hardly_usual(which, rng),
            move |n| {
                let way = Lines::of(n).ways[which];
                Beside::new(way.length_squared(), two_to(-10))
            },
        ));
    }
    all.push(Edge::new(
        "epsilon at 2^-10, two lines",
        |rng| by_size_of_epsilon(-10, rng),
        |n| Beside::new(Lines::of(n).epsilon, two_to(-10)),
    ));
    all.push(
        Edge::new(
            "epsilon at 2^-40, two lines",
            |rng| by_size_of_epsilon(-40, rng),
            |n| Beside::new(Lines::of(n).epsilon, two_to(-40)),
        )
        .refusing(),
    );
    let parallel = Edge::new(
        "|v perp u| at eps",
        |rng| nearly_parallel(rng.sign(), rng),
        |n| {
            let lines = Lines::of(n);
            Beside::new(lines.perp().abs(), lines.epsilon)
        },
    );
    all.push(parallel);
    all.extend(of_points());
    all.extend(by_quick_test());
    all.extend(near_zero());
    all
}

/// The quick test needs no quotient n / d: it compares n with both limits times d, and says yes if n is above both or below both.
fn by_quick_test() -> Vec<Edge> {
    let limits = [PARAMETERS[0], PARAMETERS[4]];
    let mut all = Vec::new();
    for (which, name) in ["u perp w", "v perp w"].into_iter().enumerate() {
        for (place, limit) in limits {
            for (sign, of_d) in [(1.0, "above"), (-1.0, "below")] {
                let edge = Edge::new(
                    format!("{name} at d * {place}, d {of_d} 0"),
                    move |rng| clearly_off(which, limit, sign, rng),
                    move |n| {
                        let lines = Lines::of(n);
                        let (number, d) = lines.usual_quotient(which);
                        let d = if d * sign > 0.0 { d } else { f64::NAN };
                        Beside::new(number, d * limit)
                    },
                );
                all.push(edge.by_quick_test());
            }
        }
    }
    all
}

/// What is near zero by an epsilon: the product of the two ways, with either sign, in the pair call, where it decides before the
/// quick test; the distance of parallel lines; and a line that is a point.
fn near_zero() -> impl Iterator<Item = Edge> {
    let signs = [(1.0, "v perp u at eps"), (-1.0, "v perp u at -eps")];
    let product = signs.map(|(sign, name)| {
        let edge = Edge::new(
            format!("{name}, a pair's"),
            move |rng| nearly_parallel(sign, rng),
            move |n| {
                let lines = Lines::of(n);
                Beside::new(lines.perp(), sign * lines.epsilon)
            },
        );
        edge.of_pairs_only()
    });
    let sides = [(0, "v"), (1, "u")];
    let distances = sides.map(|(which, name)| {
        Edge::new(
            format!("|{name} perp w| at eps, v perp u below it"),
            move |rng| parallel(which, rng),
            move |n| {
                let lines = Lines::of(n);
                Beside::new(lines.distance_by_length(which).abs(), lines.epsilon)
            },
        )
    });
    let point = sides.map(|(which, name)| {
        Edge::new(
            format!("{name}'s longer side at eps, v perp u below it"),
            move |rng| hardly_a_line(which, rng),
            move |n| {
                let lines = Lines::of(n);
                Beside::new(lines.longer_side(which), lines.epsilon)
            },
        )
    });
    product.into_iter().chain(distances).chain(point)
}

/// A segment that is a point, and the other one.
fn of_points() -> impl Iterator<Item = Edge> {
    let clear = [PARAMETERS[0], PARAMETERS[2], PARAMETERS[4]];
    let clear = clear.map(|(place, t)| {
        Edge::new(
            format!("a point's t at {place}"),
            move |rng| point_on_line(|_, _| t, rng),
            move |n| Beside::sized(Lines::of(n).t_of_point().0, t, 1.0),
        )
    });
    let before = Edge::new(
        "a point's t * length at -eps",
        |rng| point_on_line(|length, epsilon| -epsilon / length, rng),
        |n| {
            let lines = Lines::of(n);
            let (t, length) = lines.t_of_point();
            Beside::sized(t * length + lines.epsilon, 0.0, lines.epsilon)
        },
    );
    let behind = Edge::new(
        "a point's t * length at length + eps",
        |rng| point_on_line(|length, epsilon| 1.0 + epsilon / length, rng),
        |n| {
            let lines = Lines::of(n);
            let (t, length) = lines.t_of_point();
            Beside::new(t * length, length + lines.epsilon)
        },
    );
    clear.into_iter().chain([before, behind])
}

/// What the kernel computes from two lines, in its own operations.
struct Lines {
    starts: [Vector2; 2],
    ends: [Vector2; 2],
    ways: [Vector2; 2],
    epsilon: f64,
}

impl Lines {
    fn of(n: &[f64]) -> Lines {
        let n = operands(0, n);
        let [v1, v2, u1, u2] = [0, 2, 4, 6].map(|i| at(&n, i));
        Lines {
            starts: [v1, u1],
            ends: [v2, u2],
            ways: [v2 - v1, u2 - u1],
            epsilon: n[8],
        }
    }

    fn perp(&self) -> f64 {
        self.ways[0].perp_dot(self.ways[1])
    }

    /// The product of a segment's way, the first's or the second's, and the way from one start to the other.
    fn with_w(&self, which: usize) -> f64 {
        let w = self.starts[0] - self.starts[1];
        self.ways[which].perp_dot(w)
    }

    /// Where the lines cross, as a parameter of the first segment or of the second.
    fn t(&self, which: usize) -> f64 {
        self.with_w(1 - which) / self.perp()
    }

    /// Whether a quick test may decide: the segment and epsilon are of usual size.
    fn is_usual(&self, which: usize) -> bool {
        let is_long = self.ways[which].length_squared() >= two_to(-10);
        is_long && self.epsilon <= two_to(-10)
    }

    /// The parameter if a quick test may decide. Otherwise it is beside no edge.
    fn usual_t(&self, which: usize) -> f64 {
        if self.is_usual(which) {
            self.t(which)
        } else {
            f64::NAN
        }
    }

    /// The same as two numbers, not divided, and only for lines that are not parallel.
    fn usual_quotient(&self, which: usize) -> (f64, f64) {
        let d = self.perp();
        if self.is_usual(which) && d.abs() >= self.epsilon {
            (self.with_w(1 - which), d)
        } else {
            (f64::NAN, f64::NAN)
        }
    }

    /// The distance of parallel lines times a segment's length. For lines that are not parallel it is beside no edge.
    fn distance_by_length(&self, which: usize) -> f64 {
        if self.perp().abs() < self.epsilon {
            self.with_w(which)
        } else {
            f64::NAN
        }
    }

    /// A segment is a point if its longer side is below epsilon. It matters only for parallel lines.
    fn longer_side(&self, which: usize) -> f64 {
        let way = self.ways[which];
        if self.perp().abs() < self.epsilon {
            way.x.abs().max(way.y.abs())
        } else {
            f64::NAN
        }
    }

    fn length(&self, which: usize) -> f64 {
        self.ways[which].length()
    }

    /// The parameter, on the other segment, of the segment that is a point, and the other segment's length.
    fn t_of_point(&self) -> (f64, f64) {
        let is_point = self.starts[0].fuzzy_eq_eps(self.ends[0], self.epsilon);
        let (point, other) = if is_point { (0, 1) } else { (1, 0) };
        let (from, to) = (self.starts[other], self.ends[other]);
        let t = parametric_from_point(from, to, self.starts[point], self.epsilon);
        (t, self.length(other))
    }
}

/// A place, and two ways from it that are not parallel.
struct Ways {
    from: Point,
    ways: [Point; 2],
}

/// Of usual sizes: on a grid with exact 32nds, along an axis with a power of two as length, in short steps as in a coil, or any.
fn ways(rng: &mut Rng) -> Ways {
    let point = |x: f64, y: f64| Point { x, y };
    match rng.below(4) {
        0 => {
            let cell = two_to(rng.below(9) as i32 - 4);
            let mut on = |step: f64, most: u64| {
                let step = step * cell;
                point(step * whole(rng, most), step * whole(rng, most))
            };
            let from = on(1.0, 1000);
            let ways = [on(32.0, 3), on(8.0, 8)];
            Ways { from, ways }
        }
        1 => {
            let length = two_to(rng.below(20) as i32 - 5);
            let way = if rng.one_in(2) {
                point(length, 0.0)
            } else {
                point(0.0, -length)
            };
            let far = rng.pick(&[0.0, 0.0, length, 1e5]);
            let other = near(Point::default(), length * rng.pick(&[1.0, 4.0]), rng);
            Ways {
                from: near(Point::default(), far, rng),
                ways: [way, other],
            }
        }
        2 => Ways {
            from: near(Point::default(), 60.0, rng),
            ways: [0; 2].map(|_| near(Point::default(), 0.5, rng)),
        },
        _ => {
            let size = power(rng, -4, 15);
            let far = rng.pick(&[0.0, size, 1000.0, 5e5]);
            let other = size * rng.pick(&[1.0, 0.25, 8.0]);
            Ways {
                from: near(Point::default(), far, rng),
                ways: [size, other].map(|size| near(Point::default(), size, rng)),
            }
        }
    }
}

impl Ways {
    /// A line along each way; they cross at these parameters.
    fn crossed(&self, t: [f64; 2], epsilon: f64, rng: &mut Rng) -> Numbers {
        let place = self.from.along(self.ways[0], t[0]);
        let u1 = place.along(self.ways[1], -t[1]);
        let starts = [self.from, u1];
        let [v, u] = [0, 1].map(|i| line(starts[i], starts[i].along(self.ways[i], 1.0), rng));
        numbers(v, u, epsilon, rng)
    }
}

fn numbers(v: Segment, u: Segment, epsilon: f64, rng: &mut Rng) -> Numbers {
    (CALLS[PAIRS].operands)(&Pair { v, u, epsilon }, rng)
}

/// The crossing's parameter on the segment that the edge is not about: mostly on it, so that the other one decides.
fn other_t(rng: &mut Rng) -> f64 {
    match rng.below(8) {
        0 => rng.pick(&PARAMETERS).1 + nudge(1e-12, rng),
        1 => rng.between(-1.0, 2.0),
        2 | 3 => rng.below(9) as f64 / 8.0,
        _ => rng.unit(),
    }
}

/// The parameters on both segments; one is given.
fn with_other(which: usize, t: f64, rng: &mut Rng) -> [f64; 2] {
    let other = other_t(rng);
    if which == 0 {
        [t, other]
    } else {
        [other, t]
    }
}

/// Some coordinate moves by a part of a segment's size.
fn some_coordinate(numbers: Numbers, size: f64, rng: &mut Rng) -> Way {
    Way::new(numbers, rng.pick(&COORDINATES), size / 64.0)
}

fn crossing(which: usize, t: f64, rng: &mut Rng) -> Way {
    let ways = ways(rng);
    let t = with_other(which, t, rng);
    let numbers = ways.crossed(t, some_epsilon(rng), rng);
    some_coordinate(numbers, ways.ways[which].length(), rng)
}

/// The crossing lies an epsilon before a segment's start or behind its end.
fn by_epsilon(which: usize, behind: bool, rng: &mut Rng) -> Way {
    let ways = ways(rng);
    let epsilon = some_epsilon(rng);
    let length = ways.ways[which].length();
    let t = epsilon / length;
    let t = if behind { 1.0 + t } else { -t };
    let numbers = ways.crossed(with_other(which, t, rng), epsilon, rng);
    some_coordinate(numbers, length, rng)
}

/// A parameter at which much is decided: beside an end, or an epsilon away from one, or beside a limit of what is clear.
fn deciding_t(length: f64, epsilon: f64, rng: &mut Rng) -> f64 {
    let away = epsilon / length;
    match rng.below(4) {
        0 => rng.pick(&[-away, 1.0 + away]) + nudge(away / 1e6, rng),
        1 => rng.pick(&PARAMETERS).1 + nudge(1e-12, rng),
        2 => rng.between(-1.0 / 16.0, 1.0 / 16.0),
        _ => rng.between(15.0 / 16.0, 17.0 / 16.0),
    }
}

/// A segment of length 2^-5 beside a longer one.
fn hardly_usual(which: usize, rng: &mut Rng) -> Way {
    let mut ways = ways(rng);
    let length = two_to(-5);
    ways.from = near(Point::default(), rng.pick(&[0.0, 0.1, 10.0]), rng);
    ways.ways[which] = Point::default().along(unit(rng), length);
    let epsilon = rng.pick(&[1e-5, two_to(-10), two_to(-20), two_to(-40)]);
    let t = deciding_t(length, epsilon, rng);
    let numbers = ways.crossed(with_other(which, t, rng), epsilon, rng);
    let place = COORDINATES[4 * which + rng.below(4) as usize];
    Way::new(numbers, place, length / 8.0)
}

/// An epsilon just of usual size, beside a segment that mostly is too. At the length 2^-5, or a little more, the largest usual
/// epsilon reaches exactly as far as the quick test leaves open.
fn by_size_of_epsilon(exponent: i32, rng: &mut Rng) -> Way {
    let mut ways = ways(rng);
    let epsilon = two_to(exponent);
    let which = rng.below(2) as usize;
    if rng.one_in(2) {
        let longer = rng.pick(&[0.0, 0.0, two_to(-50), two_to(-30)]);
        ways.from = near(Point::default(), rng.pick(&[0.0, 0.1]), rng);
        ways.ways[which] = Point::default().along(unit(rng), two_to(-5) * (1.0 + longer));
    }
    let t = deciding_t(ways.ways[which].length(), epsilon, rng);
    let numbers = ways.crossed(with_other(which, t, rng), epsilon, rng);
    Way::in_parts(numbers, EPSILON, 1.0 / 64.0)
}

/// The crossing lies where a parameter is just clear. Half of the time the segment is as short as usual ones are and the epsilon
/// the largest usual one: there the clear part begins where the segment ends.
fn clearly_off(which: usize, t: f64, sign: f64, rng: &mut Rng) -> Way {
    let mut ways = ways(rng);
    let mut epsilon = some_epsilon(rng).min(two_to(-10));
    if rng.one_in(2) {
        let longer = rng.pick(&[0.0, two_to(-52), two_to(-50), two_to(-30)]);
        ways.from = near(Point::default(), rng.pick(&[0.0, 0.1]), rng);
        ways.ways[which] = Point::default().along(unit(rng), two_to(-5) * (1.0 + longer));
        epsilon = two_to(-10);
    }
    let [v, u] = ways.ways;
    if (v.x * u.y - v.y * u.x) * sign < 0.0 {
        ways.ways[1] = Point::default().along(u, -1.0);
    }
    let numbers = ways.crossed(with_other(which, t, rng), epsilon, rng);
    some_coordinate(numbers, ways.ways[which].length(), rng)
}

/// Two ways whose product is epsilon, or its opposite.
fn nearly_parallel(sign: f64, rng: &mut Rng) -> Way {
    let mut ways = ways(rng);
    let epsilon = some_epsilon(rng);
    let size = power(rng, -3, 6);
    let way = Point::default().along(unit(rng), size);
    let aside = epsilon / size * sign;
    let far = rng.pick(&[0.0, size]);
    ways.from = near(Point::default(), far, rng);
    let along = rng.between(-2.0, 2.0);
    let other = Point::default().along(way, along);
    ways.ways = [way, other.along(way.turned(), aside / size)];
    let t = deciding_t(size, epsilon, rng);
    let numbers = ways.crossed(with_other(0, t, rng), epsilon, rng);
    Way::new(numbers, rng.pick(&COORDINATES), 2.0 * aside.abs())
}

/// Two lines of one way. The given one is an epsilon, divided by its length, away from the other.
fn parallel(which: usize, rng: &mut Rng) -> Way {
    let epsilon = some_epsilon(rng);
    let size = power(rng, -3, 6);
    let way = Point::default().along(unit(rng), size);
    let from = near(Point::default(), rng.pick(&[0.0, size]), rng);
    let aside = rng.sign() * epsilon / (size * size);
    let [start, shorter] = [rng.between(-1.5, 1.5), rng.between(0.1, 1.0)];
    let other = from.along(way, start).along(way.turned(), aside);
    let given = line(from, from.along(way, 1.0), rng);
    let other = line(other, other.along(way, shorter * rng.sign()), rng);
    let (v, u) = if which == 0 {
        (given, other)
    } else {
        (other, given)
    };
    let numbers = numbers(v, u, epsilon, rng);
    Way::new(numbers, rng.pick(&COORDINATES), epsilon / size / 8.0)
}

/// A line whose longer side is an epsilon, near another one.
fn hardly_a_line(which: usize, rng: &mut Rng) -> Way {
    let epsilon = some_epsilon(rng);
    let any = rng.unit();
    let [along, aside] = [epsilon * rng.sign(), rng.pick(&[0.0, any]) * epsilon];
    let along_y = rng.one_in(2);
    let [x, y] = if along_y {
        [aside, along]
    } else {
        [along, aside]
    };
    let way = Point::default().along(unit(rng), power(rng, -10, 0).max(epsilon));
    let from = near(Point::default(), rng.pick(&[0.0, epsilon]), rng);
    let short = line(from, from.along(Point { x, y }, 1.0), rng);
    let start = near(from, rng.pick(&[0.0, epsilon]), rng);
    let start = start.along(way, -rng.pick(&[0.0, 0.5, 1.0]));
    let other = line(start, start.along(way, 1.0), rng);
    let (v, u) = if which == 0 {
        (short, other)
    } else {
        (other, short)
    };
    let numbers = numbers(v, u, epsilon, rng);
    let place = 4 * which + 2 * rng.below(2) as usize + usize::from(along_y);
    Way::new(numbers, COORDINATES[place], epsilon / 64.0)
}

/// A line, and one that is a point, shorter than an epsilon, at a parameter of the first.
fn point_on_line(t: impl Fn(f64, f64) -> f64, rng: &mut Rng) -> Way {
    let ways = ways(rng);
    let epsilon = some_epsilon(rng);
    let way = ways.ways[0];
    let length = way.length();
    let from = near(Point::default(), rng.pick(&[0.0, 0.0, length]), rng);
    let v = line(from, from.along(way, 1.0), rng);
    let place = from.along(way, t(length, epsilon));
    let end = near(place, rng.pick(&[0.0, 0.0, epsilon / 4.0]), rng);
    let u = line(place, end, rng);
    let (first, second, at) = if rng.one_in(2) { (v, u, 4) } else { (u, v, 0) };
    let numbers = numbers(first, second, epsilon, rng);
    // the point's coordinate along the longer axis, from which the parameter comes
    let along_y = usize::from(way.x.abs() < way.y.abs());
    Way::new(numbers, COORDINATES[at + along_y], length / 64.0)
}
